#include "tap.h"

#include <arpa/inet.h>
#include <errno.h>
#include <fcntl.h>
#include <linux/if.h>
#include <linux/if_tun.h>
#include <netinet/in.h>
#include <string.h>
#include <sys/ioctl.h>
#include <sys/socket.h>
#include <unistd.h>

#include "report.h"
#include "wire.h"

static int descriptor = -1;

static void set(int control, unsigned long request, struct ifreq *of, const char *what)
{
    if (ioctl(control, request, of))
        fail("%s of %s: %s", what, of->ifr_name, strerror(errno));
}

static void set_address(int control, unsigned long request, const char *name, const char *address)
{
    struct ifreq of = { 0 };
    struct sockaddr_in *to = (struct sockaddr_in *)&of.ifr_addr;

    strncpy(of.ifr_name, name, IFNAMSIZ - 1);
    to->sin_family = AF_INET;
    inet_aton(address, &to->sin_addr);
    set(control, request, &of, address);
}

void tap_start(const char *name)
{
    struct ifreq of = { .ifr_flags = IFF_TAP | IFF_NO_PI };
    int control = socket(AF_INET, SOCK_DGRAM, 0);

    strncpy(of.ifr_name, name, IFNAMSIZ - 1);
    descriptor = open("/dev/net/tun", O_RDWR | O_NONBLOCK | O_CLOEXEC);
    if (descriptor < 0)
        fail("/dev/net/tun: %s", strerror(errno));
    set(descriptor, TUNSETIFF, &of, "TUNSETIFF");
    set_address(control, SIOCSIFADDR, name, "10.0.0.2");
    set_address(control, SIOCSIFNETMASK, name, "255.255.255.0");
    memset(&of.ifr_ifru, 0, sizeof of.ifr_ifru);
    of.ifr_flags = IFF_UP | IFF_RUNNING;
    set(control, SIOCSIFFLAGS, &of, "IFF_UP");
    close(control);
}

int tap_descriptor(void)
{
    return descriptor;
}

bool tap_read(void)
{
    uint8_t frame[2048];
    ssize_t size = read(descriptor, frame, sizeof frame);

    if (size <= 0)
        return false;
    wire_receive(frame, (uint32_t)size, 0);
    return true;
}

bool tap_write(const uint8_t *frame, uint32_t size)
{
    if (write(descriptor, frame, size) < 0 && errno != EIO)
        report("a frame for the TAP device: %s", strerror(errno));
    return true;
}
