#include "function.h"

#include <errno.h>
#include <fcntl.h>
#include <limits.h>
#include <stdarg.h>
#include <stdio.h>
#include <stdlib.h>
#include <string.h>
#include <unistd.h>

#define DEVICES "/sys/bus/pci/devices/"

enum { INTEL = 0x8086, PART = 0x100E, FAILED = 3 };

/* Parts with the same registers for what the driver does, and with copper: 82543GC, 82544EI and GC, 82545EM, 82546EB,
 * 82540EM for main boards, 82540EP, 82545GM, 82546GB. */
static const uint16_t kin[] = { 0x1004, 0x1008, 0x100C, 0x100F, 0x1010, 0x1015, 0x1016,
                                0x1017, 0x101E, 0x1026, 0x1079 };

struct function function = { .interrupt = -1, .configuration = -1 };

void fail(const char *form, ...)
{
    va_list arguments;

    va_start(arguments, form);
    fputs("bridge: ", stderr);
    vfprintf(stderr, form, arguments);
    fputc('\n', stderr);
    va_end(arguments);
    if (function.configuration >= 0)
        function_master(false);
    _exit(FAILED);
}

int function_open(const char *name, const char *file)
{
    char path[PATH_MAX];
    int opened;

    snprintf(path, sizeof path, DEVICES "%s/%s", name, file);
    opened = open(path, O_RDWR | O_SYNC | O_CLOEXEC);
    if (opened < 0)
        fail("%s: %s%s", path, strerror(errno), errno == EACCES || errno == EPERM ? ": run the bridge as root" : "");
    return opened;
}

static unsigned id_of(const char *name, const char *file)
{
    char path[PATH_MAX];
    unsigned id = 0;
    FILE *opened;

    snprintf(path, sizeof path, DEVICES "%s/%s", name, file);
    opened = fopen(path, "r");
    if (opened == NULL)
        fail("there is no PCI function %s: `lspci -D -d 8086:` lists those of Intel, such as 0000:00:03.0", name);
    if (fscanf(opened, "%x", &id) != 1)
        fail("%s has no number", path);
    fclose(opened);
    return id;
}

static bool is_kin(unsigned device)
{
    for (unsigned at = 0; at < sizeof kin / sizeof *kin; at++)
        if (kin[at] == device)
            return true;
    return false;
}

static void check_part(const char *name, bool any)
{
    unsigned vendor = id_of(name, "vendor"), device = id_of(name, "device");

    if (vendor == INTEL && (device == PART || (any && is_kin(device))))
        return;
    if (vendor == INTEL && is_kin(device))
        fail("%s is 8086:%04X, a relative of the 82540EM (8086:100E): use --any to try it", name, device);
    fail("%s is %04X:%04X: the driver is for the 82540EM (8086:100E)", name, vendor, device);
}

/* The kernel driver of the function, or an empty text. */
static void driver_of(const char *name, char *driver, size_t room)
{
    char path[PATH_MAX], link[PATH_MAX];
    ssize_t size;

    snprintf(path, sizeof path, DEVICES "%s/driver", name);
    size = readlink(path, link, sizeof link - 1);
    link[size < 0 ? 0 : size] = 0;
    snprintf(driver, room, "%s", size < 0 ? "" : strrchr(link, '/') + 1);
}

void function_check(const char *name, const char *driver, bool any)
{
    char holder[NAME_MAX];

    check_part(name, any);
    driver_of(name, holder, sizeof holder);
    if (strcmp(holder, driver) == 0)
        return;
    if (*holder)
        fail("the kernel's driver %s holds %s, and its interface goes when you take it: as root, run\n"
             "  echo %s >" DEVICES "%s/driver/unbind\n  modprobe %s\n  echo %s >" DEVICES "%s/driver_override\n"
             "  echo %s >/sys/bus/pci/drivers_probe",
             holder, name, name, name, driver, driver, name, name);
    fail("%s isn't bound to %s: as root, run\n  modprobe %s\n  echo %s >" DEVICES "%s/driver_override\n"
         "  echo %s >/sys/bus/pci/drivers_probe",
         name, driver, driver, driver, name, name);
}

uint16_t configuration_read(unsigned offset)
{
    uint16_t value = 0;

    if (pread(function.configuration, &value, 2, (off_t)(function.configuration_begin + offset)) != 2)
        fail("the configuration space can't be read: %s", strerror(errno));
    return value;
}

void configuration_write(unsigned offset, uint16_t value)
{
    if (pwrite(function.configuration, &value, 2, (off_t)(function.configuration_begin + offset)) == 2)
        return;
    function.configuration = -1; /* `fail` can't write it either */
    fail("the configuration space can't be written: %s", strerror(errno));
}

void function_master(bool may)
{
    uint16_t command = configuration_read(COMMAND) & ~COMMAND_MASTER;

    configuration_write(COMMAND, may ? command | COMMAND_MEMORY | COMMAND_MASTER : command);
}

uint32_t register_read(uint32_t offset)
{
    return *(volatile uint32_t *)(function.registers + offset);
}

void register_write(uint32_t offset, uint32_t value)
{
    *(volatile uint32_t *)(function.registers + offset) = value;
}
