#include "uboot.h"
#include <nic82540em_explore.h>
#include <stdarg.h>
#include <stdlib.h>
#undef printf

enum { IDENTITY = 0x100E8086, REVISION = 2, BAR = 0xF0000000 };
extern const struct uboot_buffer uboot_buffer_tx_base, uboot_buffer_rx_base, uboot_buffer_packet;
char uboot_fault[96];
bool uboot_is_open;
static uint8_t *host;
static u64 used;    /* bytes of the host's memory */
static u32 command; /* PCI_COMMAND */

void *uboot_memory(size_t size, size_t to)
{
    u64 at = roundup(used, to);

    used = at + size;
    return host + at;
}

void uboot_begin(struct udevice *device)
{
    const struct uboot_buffer *buffers[] = { &uboot_buffer_tx_base, &uboot_buffer_rx_base, &uboot_buffer_packet };
    uint64_t size;

    host = x_host(&size), used = 4096; /* so no buffer has the adapter's address 0 */
    for (size_t n = 0; n < sizeof buffers / sizeof *buffers; n++)
        *buffers[n]->at = uboot_memory(buffers[n]->size, buffers[n]->to);
    device->priv = x_memory((size_t)uboot_driver.priv_auto), device->plat = x_memory((size_t)uboot_driver.plat_auto);
    eeprom_start();
}

u64 virt_to_phys(const void *at)
{
    return (u64)((const uint8_t *)at - host);
}

void uboot_prints(const char *format, ...)
{
    va_list list;

    va_start(list, format);
    if (strstr(format, "ERROR") && !uboot_fault[0])
        vsnprintf(uboot_fault, sizeof uboot_fault, format, list), uboot_fault[strcspn(uboot_fault, "\n")] = 0;
    else if (getenv("UBOOT_LOG"))
        vprintf(format, list);
    va_end(list);
}

/* Before the interface is open, the adapter has nothing to send, and a step would begin round 1. */
void udelay(ulong microseconds)
{
    (void)microseconds;
    if (uboot_is_open)
        x_step(NIC_TXTAKE), x_step(NIC_TXPUT);
}

int device_set_name(struct udevice *device, const char *name)
{
    snprintf(device->name, sizeof device->name, "%s", name);
    return 0;
}

long trailing_strtol(const char *text)
{
    const char *end = text + strlen(text), *at = end;

    while (at > text && at[-1] >= '0' && at[-1] <= '9')
        at--;
    return at == end ? -1 : atol(at);
}

int dm_pci_read_config32(const struct udevice *device, int at, u32 *into)
{
    (void)device;
    *into = at == PCI_VENDOR_ID ? IDENTITY : at == PCI_COMMAND ? command : at == PCI_CLASS_REVISION ? REVISION :
            at == PCI_BASE_ADDRESS_0 ? BAR : 0;
    return 0;
}

int dm_pci_read_config16(const struct udevice *device, int at, u16 *into)
{
    u32 value;

    dm_pci_read_config32(device, at & ~3, &value);
    *into = (u16)(value >> at % 4 * 8);
    return 0;
}

int dm_pci_read_config8(const struct udevice *device, int at, u8 *into)
{
    u32 value;

    dm_pci_read_config32(device, at & ~3, &value);
    *into = (u8)(value >> at % 4 * 8);
    return 0;
}

int uboot_configure(int at, u32 value)
{
    if (at == PCI_COMMAND)
        command = value & 0xFFFF;
    return 0;
}
