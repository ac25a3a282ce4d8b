/* A function that the kernel's vfio-pci passes to this process (Linux, Documentation/driver-api/vfio.rst). */
#include <errno.h>
#include <fcntl.h>
#include <limits.h>
#include <linux/vfio.h>
#include <poll.h>
#include <stdio.h>
#include <stdlib.h>
#include <string.h>
#include <sys/eventfd.h>
#include <sys/ioctl.h>
#include <sys/mman.h>
#include <unistd.h>

#include "function.h"

#define UNSAFE ": if interrupts aren't remapped, load vfio_iommu_type1 with allow_unsafe_interrupts=1"

static int container, device;

/* Opens the function's IOMMU group, in which no other function may be bound to another kernel driver. */
static int open_group(const char *name)
{
    char path[PATH_MAX], link[PATH_MAX];
    struct vfio_group_status status = { .argsz = sizeof status };
    ssize_t size;
    int group;

    snprintf(path, sizeof path, "/sys/bus/pci/devices/%s/iommu_group", name);
    size = readlink(path, link, sizeof link - 1);
    if (size < 0)
        fail("no IOMMU maps the memory of %s: start the kernel with intel_iommu=on or amd_iommu=on, and enable VT-d "
             "or AMD-Vi in the firmware; or use uio",
             name);
    link[size] = 0;
    snprintf(path, sizeof path, "/dev/vfio%s", strrchr(link, '/'));
    group = open(path, O_RDWR | O_CLOEXEC);
    if (group < 0)
        fail("%s: %s%s", path, strerror(errno),
             errno == EACCES || errno == EPERM ? ": run the bridge as root" : ": is the module vfio-pci loaded?");
    if (ioctl(group, VFIO_GROUP_GET_STATUS, &status) || !(status.flags & VFIO_GROUP_FLAGS_VIABLE))
        fail("other functions of the IOMMU group of %s have kernel drivers: bind those in %s/devices to vfio-pci, too",
             name, strcat(strcpy(path, "/sys/kernel/iommu_groups"), strrchr(link, '/')));
    return group;
}

/* Maps bus addresses from 0 on to the first `mapped` bytes of the memory. */
static void map_memory(uint64_t mapped)
{
    struct vfio_iommu_type1_dma_map map = { .argsz = sizeof map, .size = mapped };

    map.flags = VFIO_DMA_MAP_FLAG_READ | VFIO_DMA_MAP_FLAG_WRITE;
    function.memory = mmap(NULL, MEMORY_BYTES, PROT_READ | PROT_WRITE, MAP_PRIVATE | MAP_ANONYMOUS, -1, 0);
    if (function.memory == MAP_FAILED)
        fail("memory: %s", strerror(errno));
    map.vaddr = (uintptr_t)function.memory;
    if (ioctl(container, VFIO_IOMMU_MAP_DMA, &map))
        fail("the IOMMU can't map %llu bytes to bus address 0: %s", (unsigned long long)mapped, strerror(errno));
}

static uint64_t region_begin(uint32_t index)
{
    struct vfio_region_info region = { .argsz = sizeof region, .index = index };

    if (ioctl(device, VFIO_DEVICE_GET_REGION_INFO, &region))
        fail("region %u of the function: %s", index, strerror(errno));
    return region.offset;
}

static void set_interrupt(uint32_t flags, const int *descriptor)
{
    struct {
        struct vfio_irq_set set;
        int descriptor;
    } request = { .set = { .flags = flags, .index = VFIO_PCI_INTX_IRQ_INDEX, .count = 1 } };

    request.set.argsz = (uint32_t)(sizeof request.set + (descriptor ? sizeof *descriptor : 0));
    request.descriptor = descriptor ? *descriptor : 0;
    if (ioctl(device, VFIO_DEVICE_SET_IRQS, &request))
        fail("the interrupt of the function: %s", strerror(errno));
}

/* Unmasks the interrupt, which vfio-pci masks when it comes. Returns whether it came within these milliseconds. */
static bool await_interrupt(int milliseconds)
{
    struct pollfd wait = { function.interrupt, POLLIN, 0 };
    uint64_t number;

    set_interrupt(VFIO_IRQ_SET_DATA_NONE | VFIO_IRQ_SET_ACTION_UNMASK, NULL);
    return poll(&wait, 1, milliseconds) > 0 && read(function.interrupt, &number, sizeof number) == sizeof number;
}

void vfio_start(const char *name, uint64_t mapped)
{
    int group = open_group(name);

    container = open("/dev/vfio/vfio", O_RDWR | O_CLOEXEC);
    if (container < 0)
        fail("/dev/vfio/vfio: %s", strerror(errno));
    if (ioctl(group, VFIO_GROUP_SET_CONTAINER, &container) || ioctl(container, VFIO_SET_IOMMU, VFIO_TYPE1_IOMMU))
        fail("the IOMMU group of %s: %s%s", name, strerror(errno), errno == EPERM ? UNSAFE : "");
    map_memory(mapped);
    device = ioctl(group, VFIO_GROUP_GET_DEVICE_FD, name);
    if (device < 0)
        fail("%s: %s", name, strerror(errno));
    function.registers = mmap(NULL, REGISTER_BYTES, PROT_READ | PROT_WRITE, MAP_SHARED, device,
                              (off_t)region_begin(VFIO_PCI_BAR0_REGION_INDEX));
    if (function.registers == MAP_FAILED)
        fail("the registers of %s: %s", name, strerror(errno));
    function.configuration_begin = region_begin(VFIO_PCI_CONFIG_REGION_INDEX);
    function.configuration = device;
    function.interrupt = eventfd(0, EFD_NONBLOCK | EFD_CLOEXEC);
    set_interrupt(VFIO_IRQ_SET_DATA_EVENTFD | VFIO_IRQ_SET_ACTION_TRIGGER, &function.interrupt);
    function.await_interrupt = await_interrupt;
}
