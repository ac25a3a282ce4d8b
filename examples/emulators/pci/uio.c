/* A function that the kernel's uio_pci_generic passes to this process. No IOMMU is between the adapter and memory. */
#include <dirent.h>
#include <errno.h>
#include <fcntl.h>
#include <limits.h>
#include <poll.h>
#include <stdio.h>
#include <string.h>
#include <sys/mman.h>
#include <unistd.h>

#include "function.h"

enum { PAGE = 4096, ENTRY_BYTES = 8 };

#define PRESENT (1ull << 63) /* in an entry of pagemap */
#define FRAME_NUMBER ((1ull << 55) - 1)

/* The physical address of a page that stays where it is. */
static uint64_t physical_address(const void *page)
{
    uint64_t entry = 0;
    int file = open("/proc/self/pagemap", O_RDONLY | O_CLOEXEC);
    ssize_t size = pread(file, &entry, sizeof entry, (off_t)((uintptr_t)page / PAGE * ENTRY_BYTES));

    if (size != sizeof entry || !(entry & PRESENT) || !(entry & FRAME_NUMBER))
        fail("/proc/self/pagemap doesn't show the address of a page: run the bridge as root");
    close(file);
    return (entry & FRAME_NUMBER) * PAGE;
}

static void take_huge_page(void)
{
    int flags = MAP_PRIVATE | MAP_ANONYMOUS | MAP_HUGETLB | MAP_POPULATE;
    void *page = mmap(NULL, MEMORY_BYTES, PROT_READ | PROT_WRITE, flags, -1, 0);

    if (page == MAP_FAILED || mlock(page, MEMORY_BYTES))
        fail("there is no free huge page of 2 MB: as root, run `echo 4 >/proc/sys/vm/nr_hugepages`");
    memset(page, 0, MEMORY_BYTES);
    function.memory = page;
    function.bus_address = physical_address(page);
}

/* Opens the function's file /dev/uioN. */
static int open_interrupt(const char *name)
{
    char path[PATH_MAX];
    struct dirent *entry;
    DIR *folder;
    int file;

    snprintf(path, sizeof path, "/sys/bus/pci/devices/%s/uio", name);
    folder = opendir(path);
    while (folder != NULL && (entry = readdir(folder)) != NULL && strncmp(entry->d_name, "uio", 3) != 0)
        ;
    if (folder == NULL || entry == NULL)
        fail("%s has no file /dev/uioN", name);
    snprintf(path, sizeof path, "/dev/%s", entry->d_name);
    closedir(folder);
    file = open(path, O_RDWR | O_CLOEXEC);
    if (file < 0)
        fail("%s: %s", path, strerror(errno));
    return file;
}

/* Enables the interrupt in the command register, where uio_pci_generic disables it when it comes. Returns whether it
 * came within these milliseconds. */
static bool await_interrupt(int milliseconds)
{
    struct pollfd wait = { function.interrupt, POLLIN, 0 };
    uint32_t number;

    configuration_write(COMMAND, configuration_read(COMMAND) & ~COMMAND_NO_INTERRUPT);
    return poll(&wait, 1, milliseconds) > 0 && read(function.interrupt, &number, sizeof number) == sizeof number;
}

void uio_start(const char *name)
{
    int bar = function_open(name, "resource0");

    function.registers = mmap(NULL, REGISTER_BYTES, PROT_READ | PROT_WRITE, MAP_SHARED, bar, 0);
    if (function.registers == MAP_FAILED)
        fail("the registers of %s: %s", name, strerror(errno));
    close(bar);
    take_huge_page();
    function.interrupt = open_interrupt(name);
    function.configuration = function_open(name, "config");
    function.await_interrupt = await_interrupt;
}
