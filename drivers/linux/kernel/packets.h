/* Packets. Their bytes are in the host's memory. */
#ifndef KERNEL_PACKETS_H
#define KERNEL_PACKETS_H

enum {
    MAX_SKB_FRAGS = 17, NET_SKB_PAD = 64, NET_IP_ALIGN = 0, CHECKSUM_NONE = 0, CHECKSUM_UNNECESSARY = 1,
    CHECKSUM_PARTIAL = 3, NETDEV_TX_OK = 0, NETDEV_TX_BUSY = 0x10, VLAN_N_VID = 4096, IPPROTO_TCP = 6
};
#define SKB_DATA_ALIGN(x) ALIGN((size_t)(x), 64)
typedef struct { struct page *page; unsigned size, offset; } skb_frag_t;
struct skb_shared_info { u16 gso_size, gso_segs; u8 nr_frags; unsigned gso_type; skb_frag_t frags[MAX_SKB_FRAGS]; };
/* `number`: 1 + that of a frame that the test sends, or 0. */
struct sk_buff {
    struct net_device *dev;
    u8 *head, *data, *tail;
    unsigned len, data_len, truesize, room, number;
    __be16 protocol, vlan_tci;
    u8 ip_summed, no_fcs, has_vlan;
    __sum16 csum_offset;
    struct skb_shared_info shared;
};
#define skb_shinfo(skb) (&(skb)->shared)
#define skb_headlen(skb) ((skb)->len - (skb)->data_len)
#define skb_tail_pointer(skb) ((skb)->tail)
#define skb_is_gso(skb) ((skb)->shared.gso_size != 0)
#define skb_is_gso_v6(skb) ((void)(skb), false)
#define skb_frag_size(frag) ((frag)->size)
#define skb_frag_page(frag) ((frag)->page)
#define skb_frag_dma_map(device, frag, at, size, direction) \
    ((void)(device), kernel_map((u8 *)(frag)->page + (frag)->offset + (at), size, direction))
#define skb_checksum_none_assert(skb) ((void)(skb))
#define skb_tx_timestamp(skb) ((void)(skb))
#define skb_vlan_tag_present(skb) ((skb)->has_vlan)
#define skb_vlan_tag_get(skb) ((skb)->vlan_tci)
#define skb_reserve(skb, by) ((skb)->data += (by), (skb)->tail += (by))
#define __pskb_pull_tail(skb, by) NULL
#define skb_cow_head(skb, by) 0
#define skb_fill_page_desc(skb, n, at, from, bytes) \
    ((skb)->shared.frags[n] = (skb_frag_t){ at, bytes, from }, (skb)->shared.nr_frags = (u8)((n) + 1))
#define pskb_trim(skb, to) skb_trim(skb, to)

/* Returns a packet with room for so many bytes, or NULL. */
struct sk_buff *alloc_skb(unsigned size, gfp_t flags);
struct sk_buff *napi_alloc_skb(struct napi_struct *napi, unsigned size);
/* Makes a packet of a fragment, which then belongs to the packet. */
struct sk_buff *napi_build_skb(void *data, unsigned size);
/* Makes a packet longer at its end, and returns the address of the new bytes. */
void *skb_put(struct sk_buff *skb, unsigned count);
void *skb_put_data(struct sk_buff *skb, const void *data, unsigned count);
/* Makes a packet shorter at its end. */
void skb_trim(struct sk_buff *skb, unsigned count);
/* Adds zeros up to the least length of a frame. Returns 0, or an error after the packet was freed. */
int eth_skb_pad(struct sk_buff *skb);
/* Frees a packet, in any context. */
void dev_kfree_skb_any(struct sk_buff *skb);
#define dev_kfree_skb dev_kfree_skb_any
#define napi_consume_skb(skb, budget) dev_kfree_skb_any(skb)
/* Returns the protocol of a received packet. In the kernel, it also takes the header off: here, tests compare it. */
__be16 eth_type_trans(struct sk_buff *skb, struct net_device *dev);
#define vlan_get_protocol(skb) ((skb)->protocol)
#define __vlan_hwaccel_put_tag(skb, protocol, vid) ((skb)->has_vlan = 1, (skb)->vlan_tci = (vid))

/* Headers of packets with offloads. Tests send none, so these are only compiled. */
struct iphdr { u8 ihl, protocol; __be16 tot_len; __sum16 check; __be32 saddr, daddr; };
struct ipv6hdr { u8 nexthdr; };
struct tcphdr { __sum16 check; };
#define ip_hdr(skb) ((struct iphdr *)(skb)->data)
#define ipv6_hdr(skb) ((struct ipv6hdr *)(skb)->data)
#define tcp_hdr(skb) ((struct tcphdr *)(skb)->data)
#define csum_tcpudp_magic(from, to, length, protocol, sum) 0
#define tcp_v6_gso_csum_prep(skb) ((void)(skb))
#define skb_tcp_all_headers(skb) 54
#define skb_transport_offset(skb) 34
#define skb_network_offset(skb) 14
#define skb_checksum_start_offset(skb) 34
#endif
