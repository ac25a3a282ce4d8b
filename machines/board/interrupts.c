#include "interrupts.h"

#include <errno.h>
#include <poll.h>
#include <stdint.h>
#include <stdio.h>
#include <string.h>
#include <sys/socket.h>
#include <sys/un.h>
#include <unistd.h>

#include "adapter.h"
#include "configuration.h"
#include "report.h"
#include "trace.h"

enum {
    PATIENCE = 5000, /* milliseconds */
    PINS = 24        /* of the interrupt controller */
};

static const char *path;
static int connection = -1;
static bool level;    /* of the pin */
static unsigned owed; /* answers that QEMU hasn't sent yet */

void interrupts_start(const char *socket_path)
{
    path = socket_path;
}

static void connect_to_qemu(void)
{
    struct sockaddr_un address = { .sun_family = AF_UNIX };

    strncpy(address.sun_path, path, sizeof address.sun_path - 1);
    connection = socket(AF_UNIX, SOCK_STREAM | SOCK_CLOEXEC, 0);
    if (connection < 0 || connect(connection, (struct sockaddr *)&address, sizeof address))
        fail("QEMU's socket for qtest, %s: %s", path, strerror(errno));
}

int interrupts_socket(void)
{
    return connection;
}

/* Each line from QEMU is an answer. */
void interrupts_answers(void)
{
    char text[512];
    ssize_t count = read(connection, text, sizeof text);

    if (count <= 0)
        return;
    if (memmem(text, count, "FAIL", 4) || memmem(text, count, "ERR", 3))
        fail("QEMU's qtest: %.*s", (int)count, text);
    for (ssize_t at = 0; at < count; at++)
        owed -= text[at] == '\n';
}

static void wait_for_answers(void)
{
    struct pollfd wait = { connection, POLLIN, 0 };

    while (owed > 0) {
        if (poll(&wait, 1, PATIENCE) != 1)
            fail("QEMU doesn't answer over qtest");
        if (wait.revents & (POLLHUP | POLLERR) && !(wait.revents & POLLIN))
            return; /* QEMU has ended */
        interrupts_answers();
    }
}

void interrupts_update(bool waits)
{
    bool asserted = adapter_line(), now = asserted && !configuration_disables_interrupt();
    char text[128];
    int size;

    configuration_set_interrupt(asserted);
    if (now == level)
        return;
    if (connection < 0)
        connect_to_qemu();
    size = snprintf(text, sizeof text, "set_irq_in /machine/i440fx/ioapic unnamed-gpio-in %u %d\n",
                    configuration_interrupt() % PINS, now);
    if (write(connection, text, size) != size)
        return; /* QEMU has ended */
    level = now;
    owed++;
    trace_line(now);
    if (waits)
        wait_for_answers();
}
