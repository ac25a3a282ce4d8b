/* A small U-Boot: what its driver e1000 uses, with U-Boot's meaning as far as a driver of this adapter sees it.
 *
 * `tools/drivers` makes a file for each header that the driver includes. Each includes only this file. */
#ifndef UBOOT_H
#define UBOOT_H

#include <stdbool.h>
#include <stddef.h>
#include <stdint.h>
#include <stdio.h>
#include <string.h>
#include <asm/types.h>
#include </usr/include/asm-generic/errno-base.h>
#include </usr/include/asm-generic/errno.h>
#include </usr/include/linux/pci_regs.h>
#include <pci_ids.h> /* of U-Boot's source */
#include <mapped.h>

#define CONFIG_DM_ETH 1 /* the driver model of network interfaces */
typedef uint8_t u8, uchar; typedef uint16_t u16; typedef uint32_t u32; typedef uint64_t u64;
typedef int32_t s32;
typedef unsigned long ulong;
#define roundup(x, to) (((x) + (to) - 1) / (to) * (to))

/* Bytes: the processor is little-endian. */
#define cpu_to_le16(x) ((u16)(x))
#define cpu_to_le32(x) ((u32)(x))
#define cpu_to_le64(x) ((u64)(x))
#define le16_to_cpu(x) ((u16)(x))
#define le32_to_cpu(x) ((u32)(x))
#define lower_32_bits(x) ((u32)(x))
#define upper_32_bits(x) ((u32)((u64)(x) >> 32))

/* The console. A text that contains ERROR is a fault: it fails the run. */
#define pr_fmt(text) text
#define printf uboot_prints
#define debug uboot_prints
void uboot_prints(const char *format, ...);

/* Memory that the adapter accesses. There are no caches: each side sees at once what the other one stores. */
#define ARCH_DMA_MINALIGN 64
#define __aligned(n) __attribute__((aligned(n)))
/* Declares a static pointer to `count` elements, whose address is a multiple of `to`. */
#define DEFINE_ALIGN_BUFFER(type, name, count, to) \
    static type *name;                             \
    const struct uboot_buffer uboot_buffer_##name = { (void **)&name, sizeof(type) * (count), to };
struct uboot_buffer { void **at; size_t size, to; };
/* Returns the adapter's address of memory. */
u64 virt_to_phys(const void *at);
/* Writes lines of the cache back before the adapter reads memory. */
#define flush_dcache_range(from, to) ((void)(from), (void)(to))
/* Drops lines of the cache before the driver reads what the adapter has written. */
#define invalidate_dcache_range(from, to) ((void)(from), (void)(to))

/* Time. Both wait at least so long. In udelay, the adapter sends; all else happens by the schedule, or in x_settle. */
void udelay(ulong microseconds);
#define mdelay(milliseconds) ((void)(milliseconds))

/* Devices of the driver model: a driver, what it is for, and the calls of a network interface */
struct list_head { struct list_head *next, *prev; };
struct udevice { char name[20]; void *priv, *plat; };
struct eth_pdata { unsigned char enetaddr[6]; };
struct pci_device_id { unsigned vendor, device; };
struct udevice_id { const char *compatible; };
struct eth_ops {
    int (*start)(struct udevice *);                   /* initializes the adapter; returns 0 or an error */
    int (*send)(struct udevice *, void *, int);       /* returns 0 after the frame was sent, or an error */
    int (*recv)(struct udevice *, int, uchar **);     /* returns the length of a received frame, or -EAGAIN */
    int (*free_pkt)(struct udevice *, uchar *, int);  /* the received frame isn't needed any more */
    int (*write_hwaddr)(struct udevice *);
    void (*stop)(struct udevice *);
};
struct driver {
    const char *name;
    int id;
    const struct udevice_id *of_match;
    int (*bind)(struct udevice *), (*probe)(struct udevice *);
    const struct eth_ops *ops;
    int priv_auto, plat_auto; /* sizes of dev_get_priv's and dev_get_plat's memory, which is zeros at first */
};
enum { UCLASS_ETH = 1 };
#define U_BOOT_DRIVER(name) const struct driver uboot_driver
#define U_BOOT_PCI_DEVICE(name, ids)
#define dev_get_plat(device) ((device)->plat)
#define dev_get_priv(device) ((device)->priv)
/* Copies the name; returns 0. */
int device_set_name(struct udevice *device, const char *name);
/* Returns the number at the end of a text, or -1. */
long trailing_strtol(const char *text);

/* PCI: one function, 8086:100E. Each call returns 0. */
enum { PCI_REGION_TYPE = 1, PCI_REGION_MEM = 0 };
#define PCI_DEVICE(maker, number) .vendor = (maker), .device = (number)
int dm_pci_read_config32(const struct udevice *device, int at, u32 *into);
int dm_pci_read_config16(const struct udevice *device, int at, u16 *into);
int dm_pci_read_config8(const struct udevice *device, int at, u8 *into);
#define dm_pci_write_config32(device, at, value) uboot_configure(at, value)
#define dm_pci_write_config16(device, at, value) uboot_configure(at, value)
int uboot_configure(int at, u32 value);
/* Returns the processor's address of a base address register. */
#define dm_pci_map_bar(device, bar, from, size, mask, flags) MAPPED_REGISTERS

/* For the test: */
extern const struct driver uboot_driver;
extern char uboot_fault[96];              /* the first text that contains ERROR, or empty */
extern bool uboot_is_open;                /* the test has started the interface: udelay lets the adapter send */
void uboot_begin(struct udevice *device); /* at the start of a test: makes the device and its memory */
void *uboot_memory(size_t size, size_t to); /* memory of the adapter, whose address is a multiple of `to` */
#endif
