#include "interface.h"

#include <errno.h>
#include <fcntl.h>
#include <net/if.h>
#include <stdio.h>
#include <stdlib.h>
#include <string.h>
#include <sys/ioctl.h>
#include <sys/mman.h>
#include <sys/socket.h>
#include <unistd.h>

#include "../shared/rounds.h"
#include "traffic.h"

enum {
    REGISTER_BYTES = 0x20000,
    LINK_TRIES = 1000,
    LINK_PAUSE = 10000, /* microseconds */
    WARNING = 4,        /* levels of the kernel's log up to this one are warnings and errors */
    LEVELS = 8
};

static int kernel_log = -1;
static char first_warning[200];

const char *kernel_log_first(void)
{
    return first_warning;
}

volatile uint32_t *board_registers(const char *interface)
{
    char path[200];
    void *bytes;
    int file;

    snprintf(path, sizeof path, "/sys/class/net/%s/device/resource0", interface);
    file = open(path, O_RDWR);
    bytes = file < 0 ? MAP_FAILED : mmap(NULL, REGISTER_BYTES, PROT_READ | PROT_WRITE, MAP_SHARED, file, 0);
    if (bytes == MAP_FAILED) {
        perror(path);
        exit(1);
    }
    return (volatile uint32_t *)((uint8_t *)bytes + BOARD_REGISTERS);
}

static void set_flags(int socket, struct ifreq *of, int add, int remove)
{
    ioctl(socket, SIOCGIFFLAGS, of);
    of->ifr_flags = (short)((of->ifr_flags | add) & ~remove);
    if (ioctl(socket, SIOCSIFFLAGS, of))
        perror("the interface");
}

void restart_interface(const char *interface)
{
    struct ifreq of = { 0 };
    int control = socket(AF_INET, SOCK_DGRAM, 0), tries = 0;

    strncpy(of.ifr_name, interface, IFNAMSIZ - 1);
    set_flags(control, &of, 0, IFF_UP);
    set_flags(control, &of, IFF_UP, 0);
    do {
        pause_for(LINK_PAUSE);
        ioctl(control, SIOCGIFFLAGS, &of);
    } while (!(of.ifr_flags & IFF_RUNNING) && tries++ < LINK_TRIES);
    close(control);
}

void kernel_log_start(void)
{
    kernel_log = open("/dev/kmsg", O_RDONLY | O_NONBLOCK);
    kernel_log_skip();
}

void kernel_log_skip(void)
{
    lseek(kernel_log, 0, SEEK_END);
    first_warning[0] = 0;
}

/* Whether a line of the kernel's log, `LEVEL,NUMBER,TIME,..;TEXT`, is a warning or an error. */
static int is_warning(const char *line)
{
    return atoi(line) % LEVELS <= WARNING;
}

unsigned kernel_log_warnings(void)
{
    char line[2048];
    unsigned warnings = 0;
    ssize_t count;

    while ((count = read(kernel_log, line, sizeof line - 1)) > 0 || (count < 0 && errno == EPIPE)) {
        line[count > 0 ? count : 0] = 0;
        line[strcspn(line, "\n\\")] = 0;
        if (count > 0 && is_warning(line) && warnings++ == 0)
            snprintf(first_warning, sizeof first_warning, "%s", strchr(line, ';') ? strchr(line, ';') + 1 : line);
    }
    return warnings;
}
