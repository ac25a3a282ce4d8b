/* PCI: one function, 8086:100E, and the accesses of its registers. */
#ifndef KERNEL_PCI_H
#define KERNEL_PCI_H

struct dev_pm_ops { int (*suspend)(struct device *), (*resume)(struct device *); };
struct device { void *data; bool can_wake; };
struct resource { resource_size_t start, length; unsigned long flags; };
struct pci_dev {
    struct device dev;
    u16 vendor, device, subsystem_vendor, subsystem_device;
    u8 revision;
    unsigned irq;
    struct resource resource[7];
};
struct pci_device_id { u32 vendor, device, subvendor, subdevice, class, class_mask; unsigned long driver_data; };
struct pci_error_handlers {
    pci_ers_result_t (*error_detected)(struct pci_dev *, pci_channel_state_t), (*slot_reset)(struct pci_dev *);
    void (*resume)(struct pci_dev *);
};
struct device_driver { const struct dev_pm_ops *pm; };
struct pci_driver {
    const char *name;
    const struct pci_device_id *id_table;
    int (*probe)(struct pci_dev *, const struct pci_device_id *);
    void (*remove)(struct pci_dev *), (*shutdown)(struct pci_dev *);
    struct device_driver driver;
    const struct pci_error_handlers *err_handler;
};
#define SIMPLE_DEV_PM_OPS(name, to_sleep, to_wake) const struct dev_pm_ops name = { to_sleep, to_wake }
#define DEFINE_SIMPLE_DEV_PM_OPS SIMPLE_DEV_PM_OPS
#define pm_sleep_ptr(at) (at)
#define PCI_ANY_ID (~0u)
#define PCI_DEVICE(maker, n) .vendor = (maker), .device = (n), .subvendor = PCI_ANY_ID, .subdevice = PCI_ANY_ID
enum {
    PCI_VENDOR_ID_INTEL = 0x8086, PCI_VENDOR_ID_VMWARE = 0x15AD, IORESOURCE_IO = 0x100, IORESOURCE_MEM = 0x200,
    PCI_D3hot = 3, PCI_D3cold = 4, PCI_ERS_RESULT_NEED_RESET = 3, PCI_ERS_RESULT_DISCONNECT = 4,
    PCI_ERS_RESULT_RECOVERED = 5, pci_channel_io_perm_failure = 3, SYSTEM_POWER_OFF = 5, system_state = 2
};
/* Calls the driver's probe if it is for this function. Returns 0, or an error. */
int pci_register_driver(struct pci_driver *driver);
void pci_unregister_driver(struct pci_driver *driver);
/* The base address registers with these flags, as bits. */
int pci_select_bars(struct pci_dev *pdev, unsigned long flags);
void *pci_ioremap_bar(struct pci_dev *pdev, int bar);
int pci_read_config_word(struct pci_dev *pdev, int where, u16 *into);
#define pci_enable_device(pdev) ((void)(pdev), 0)
#define pci_enable_device_mem(pdev) ((void)(pdev), 0)
#define pci_disable_device(pdev) ((void)(pdev))
#define pci_request_selected_regions(pdev, bars, name) ((void)(bars), 0)
#define pci_release_selected_regions(pdev, bars) ((void)(bars))
#define pci_set_master(pdev) ((void)(pdev))
#define pci_save_state(pdev) ((void)(pdev), 0)
#define pci_set_drvdata(pdev, to) ((pdev)->dev.data = (to))
#define pci_get_drvdata(pdev) ((pdev)->dev.data)
#define pci_resource_start(pdev, n) ((pdev)->resource[n].start)
#define pci_resource_len(pdev, n) ((pdev)->resource[n].length)
#define pci_resource_flags(pdev, n) ((pdev)->resource[n].flags)
#define pci_name(pdev) ((void)(pdev), "0000:00:03.0")
#define pci_enable_wake(pdev, state, on) ((void)(pdev))
#define pci_wake_from_d3(pdev, on) ((void)(pdev))
#define pci_set_power_state(pdev, state) ((void)(pdev))
#define pci_channel_offline(pdev) false
#define pci_set_mwi(pdev) 0
#define pci_clear_mwi(pdev) ((void)0)
#define pcix_get_mmrbc(pdev) 0
#define pcix_set_mmrbc(pdev, size) ((void)(pdev))
#define to_pci_dev(at) container_of(at, struct pci_dev, dev)
#define device_set_wakeup_enable(device, on) ((void)(device))
#define device_can_wakeup(device) ((device)->can_wake)

/* Registers */
#include <mapped.h>
#define readw(at) ((u16)readl(at))
#define readb(at) ((u8)readl(at))
#define writew(value, at) writel(value, at)
#define writeb(value, at) writel(value, at)
#define ioread16_rep(at, into, count) ((void)(at), (void)(into))
#define iowrite16_rep(at, from, count) ((void)(at), (void)(from))
#define ioremap(at, size) ((void *)0)
#define iounmap(at) ((void)(at))
#endif
