/* PCI, and network interfaces. */
#include "test.h"
#include <nic82540em_explore.h>

enum { ADDRESS = 6 };
struct kernel_view kernel;
static struct pci_dev pci = {
    .vendor = 0x8086, .device = 0x100E, .subsystem_vendor = 0x8086, .subsystem_device = 0x001E, .revision = 2,
    .irq = 11, .resource = { { 0xF0000000, 0x20000, IORESOURCE_MEM }, { 0, 0, 0 }, { 0xC000, 64, IORESOURCE_IO } }
};

void kernel_begin(void)
{
    kernel_memory_begin();
    eeprom_start();
}

void *pci_ioremap_bar(struct pci_dev *pdev, int bar)
{
    (void)pdev;
    return bar == 0 ? MAPPED_REGISTERS : NULL;
}

int pci_select_bars(struct pci_dev *pdev, unsigned long flags)
{
    int bars = 0;

    for (int n = 0; n < PCI_STD_NUM_BARS; n++)
        bars |= (pdev->resource[n].flags & flags ? 1 : 0) << n;
    return bars;
}

int pci_read_config_word(struct pci_dev *pdev, int where, u16 *into)
{
    (void)pdev;
    *into = where == PCI_COMMAND ? PCI_COMMAND_IO | PCI_COMMAND_MEMORY | PCI_COMMAND_MASTER : 0;
    return 0;
}

int pci_register_driver(struct pci_driver *driver)
{
    const struct pci_device_id *id = driver->id_table;

    while (id->vendor && (id->vendor != pci.vendor || id->device != pci.device))
        id++;
    return id->vendor ? driver->probe(&pci, id) : -ENODEV;
}

void pci_unregister_driver(struct pci_driver *driver)
{
    driver->remove(&pci);
}

struct net_device *alloc_etherdev(int size_of_priv)
{
    struct net_device *dev = kzalloc(sizeof *dev, GFP_KERNEL);

    if (!dev)
        return NULL;
    dev->priv = kzalloc((size_t)size_of_priv, GFP_KERNEL);
    dev->mtu = ETH_DATA_LEN, dev->addr_len = ADDRESS, dev->is_there = true;
    return dev;
}

void free_netdev(struct net_device *dev)
{
    kfree(dev->priv), kfree(dev);
}

int register_netdev(struct net_device *dev)
{
    kernel.dev = dev;
    return 0;
}

void unregister_netdev(struct net_device *dev)
{
    if (dev->is_running) {
        dev->is_running = false;
        dev->netdev_ops->ndo_stop(dev);
    }
    kernel.dev = NULL;
}

bool is_valid_ether_addr(const u8 *at)
{
    return !(at[0] & 1) && (at[0] | at[1] | at[2] | at[3] | at[4] | at[5]);
}

int eth_validate_addr(struct net_device *dev)
{
    return is_valid_ether_addr(dev->dev_addr) ? 0 : -EADDRNOTAVAIL;
}

void netif_tx_disable(struct net_device *dev)
{
    if (dev->sends)
        x_impossible(); /* the caller has interrupted the send for which it would wait */
    netif_stop_queue(dev);
}

/* The kernel stops with BUG_ON here. */
void netdev_completed_queue(struct net_device *dev, unsigned packets, unsigned bytes)
{
    (void)packets;
    if (bytes > dev->in_flight)
        kernel_fails("more bytes are completed than were sent");
    dev->in_flight -= bytes < dev->in_flight ? bytes : dev->in_flight;
}
