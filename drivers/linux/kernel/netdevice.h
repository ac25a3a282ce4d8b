/* Network interfaces: one interface with one transmit queue. */
#ifndef KERNEL_NETDEVICE_H
#define KERNEL_NETDEVICE_H

enum { IFF_PROMISC = 0x100, IFF_ALLMULTI = 0x200, IFF_SUPP_NOFCS = 1 << 14, IFF_UNICAST_FLT = 1 << 12, IFNAMSIZ = 16 };
#define NETIF_F_SG BIT(0)
#define NETIF_F_HW_CSUM BIT(3)
#define NETIF_F_HIGHDMA BIT(5)
#define NETIF_F_HW_VLAN_CTAG_TX BIT(7)
#define NETIF_F_HW_VLAN_CTAG_RX BIT(8)
#define NETIF_F_HW_VLAN_CTAG_FILTER BIT(9)
#define NETIF_F_TSO BIT(16)
#define NETIF_F_RXCSUM BIT(40)
#define NETIF_F_RXFCS BIT(44)
#define NETIF_F_RXALL BIT(45)
struct netdev_hw_addr { u8 addr[32]; };
struct sockaddr { u16 sa_family; char sa_data[14]; };
struct ifreq { struct mii_ioctl_data mii; };
#define if_mii(request) (&(request)->mii)
enum { SIOCGMIIPHY = 0x8947, SIOCGMIIREG = 0x8948, SIOCSMIIREG = 0x8949 };
struct net_device_stats {
    unsigned long rx_packets, tx_packets, rx_bytes, tx_bytes, rx_errors, tx_errors, rx_dropped, tx_dropped, multicast,
        collisions, rx_length_errors, rx_crc_errors, rx_frame_errors, rx_missed_errors, tx_aborted_errors,
        tx_carrier_errors, tx_window_errors, rx_over_errors, tx_fifo_errors, tx_heartbeat_errors;
};
struct net_device_ops {
    int (*ndo_open)(struct net_device *), (*ndo_stop)(struct net_device *);
    netdev_tx_t (*ndo_start_xmit)(struct sk_buff *, struct net_device *);
    void (*ndo_set_rx_mode)(struct net_device *);
    int (*ndo_set_mac_address)(struct net_device *, void *);
    void (*ndo_tx_timeout)(struct net_device *, unsigned);
    int (*ndo_change_mtu)(struct net_device *, int), (*ndo_eth_ioctl)(struct net_device *, struct ifreq *, int);
    int (*ndo_validate_addr)(struct net_device *);
    int (*ndo_vlan_rx_add_vid)(struct net_device *, __be16, u16);
    int (*ndo_vlan_rx_kill_vid)(struct net_device *, __be16, u16);
    netdev_features_t (*ndo_fix_features)(struct net_device *, netdev_features_t);
    int (*ndo_set_features)(struct net_device *, netdev_features_t);
};
enum { QUEUE_STOPPED, QUEUE_CARRIER };
struct netdev_queue { unsigned long state; };
/* `in_flight`: bytes that were sent, and aren't completed (the queue's byte limits). `sends`: sends that run. */
struct net_device {
    char name[IFNAMSIZ];
    u8 dev_addr[32], addr_len;
    unsigned flags, priv_flags, mtu, min_mtu, max_mtu, in_flight, sends;
    netdev_features_t features, hw_features, vlan_features;
    int watchdog_timeo;
    bool is_running, is_there;
    struct net_device_stats stats;
    const struct net_device_ops *netdev_ops;
    const struct ethtool_ops *ethtool_ops;
    struct netdev_queue queue;
    unsigned long carrier; /* bit 0: on */
    struct netdev_hw_addr *uc, *mc;
    int uc_count, mc_count;
    void *priv;
};
int eth_validate_addr(struct net_device *dev);
/* Returns an interface with so many bytes of the driver's, of zeros; NULL if there is no memory. */
struct net_device *alloc_etherdev(int size_of_priv);
void free_netdev(struct net_device *dev);
int register_netdev(struct net_device *dev);
/* Closes the interface if it is open. */
void unregister_netdev(struct net_device *dev);
bool is_valid_ether_addr(const u8 *at);
#define SET_NETDEV_DEV(dev, parent) ((void)(parent))
#define netdev_priv(dev) ((dev)->priv)
#define eth_hw_addr_set(dev, from) memcpy((dev)->dev_addr, from, 6)
#define is_multicast_ether_addr(at) (*(const u8 *)(at) & 1)
#define is_broadcast_ether_addr(at) (((at)[0] & (at)[1] & (at)[2] & (at)[3] & (at)[4] & (at)[5]) == 0xFF)
#define netif_running(dev) ((dev)->is_running)
#define netif_carrier_ok(dev) test_bit(0, &(dev)->carrier)
#define netif_carrier_on(dev) set_bit(0, &(dev)->carrier)
#define netif_carrier_off(dev) clear_bit(0, &(dev)->carrier)
/* Marks the interface as gone, and stops its queue; or as back, and wakes the queue. */
#define netif_device_detach(dev) ((void)((dev)->is_there = false), netif_stop_queue(dev))
#define netif_device_attach(dev) ((void)((dev)->is_there = true), netif_wake_queue(dev))
#define netdev_get_tx_queue(dev, n) (&(dev)->queue)
#define netif_xmit_stopped(to) ((to)->state != 0)
#define netif_queue_stopped(dev) test_bit(QUEUE_STOPPED, &(dev)->queue.state)
#define netif_stop_queue(dev) set_bit(QUEUE_STOPPED, &(dev)->queue.state)
#define netif_start_queue(dev) clear_bit(QUEUE_STOPPED, &(dev)->queue.state)
#define netif_wake_queue netif_start_queue
/* Stops the queue, and waits for a send that runs. */
void netif_tx_disable(struct net_device *dev);
#define netdev_xmit_more() false
/* The queue's byte limits: what was sent, what is completed, and that nothing is in flight any more. */
#define netdev_sent_queue(dev, bytes) ((dev)->in_flight += (bytes))
void netdev_completed_queue(struct net_device *dev, unsigned packets, unsigned bytes);
#define netdev_reset_queue(dev) ((dev)->in_flight = 0)
#define netdev_uc_count(dev) ((dev)->uc_count)
#define netdev_for_each_uc_addr(at, dev) for ((at) = (dev)->uc; (at) < (dev)->uc + (dev)->uc_count; (at)++)
#define netdev_for_each_mc_addr(at, dev) for ((at) = (dev)->mc; (at) < (dev)->mc + (dev)->mc_count; (at)++)
#endif
