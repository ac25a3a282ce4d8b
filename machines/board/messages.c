#include "messages.h"

#include <errno.h>
#include <inttypes.h>
#include <stdint.h>
#include <string.h>
#include <sys/socket.h>
#include <unistd.h>

#include "adapter.h"
#include "configuration.h"
#include "guest_memory.h"
#include "interrupts.h"
#include "io_window.h"
#include "registers.h"
#include "report.h"

enum command {
    SYNC_MEMORY,
    RETURN,
    CONFIGURATION_WRITE,
    CONFIGURATION_READ,
    BAR_WRITE,
    BAR_READ,
    SET_INTERRUPT,
    RESET
};

enum { MOST_FILES = 8 };

struct header {
    int32_t command, unused;
    uint64_t size;
};

struct memory_message {
    uint64_t addresses[MOST_FILES], sizes[MOST_FILES];
    int64_t offsets[MOST_FILES];
};

struct configuration_message {
    uint32_t offset, value;
    int32_t size;
};

struct bar_message {
    uint64_t address, value;
    uint32_t size;
    uint8_t is_memory;
};

static union {
    struct memory_message memory;
    struct configuration_message configuration;
    struct bar_message bar;
} message;

static int files[MOST_FILES];
static unsigned file_count;

/* Stores the file descriptors that came with a message. */
static void take_files(struct msghdr *from)
{
    struct cmsghdr *control = CMSG_FIRSTHDR(from);

    file_count = 0;
    if (control == NULL || control->cmsg_type != SCM_RIGHTS)
        return;
    file_count = (control->cmsg_len - CMSG_LEN(0)) / sizeof(int);
    memcpy(files, CMSG_DATA(control), file_count * sizeof(int));
}

/* Reads the rest of `size` bytes, of which `had` are there. Returns false if the connection ends before. */
static bool read_rest(int connection, void *into, size_t had, size_t size)
{
    return had == size || recv(connection, (char *)into + had, size - had, MSG_WAITALL) == (ssize_t)(size - had);
}

static bool read_message(int connection, struct header *header)
{
    union {
        char bytes[CMSG_SPACE(MOST_FILES * sizeof(int))];
        struct cmsghdr alignment;
    } control;
    struct iovec place = { header, sizeof *header };
    struct msghdr from = {
        .msg_iov = &place, .msg_iovlen = 1, .msg_control = &control, .msg_controllen = sizeof control
    };
    ssize_t count = recvmsg(connection, &from, MSG_CMSG_CLOEXEC);

    if (count <= 0)
        return false;
    take_files(&from);
    if (!read_rest(connection, header, count, sizeof *header))
        return false;
    if (header->size > sizeof message)
        fail("QEMU's message %d has %" PRIu64 " bytes: is this QEMU 7.2?", header->command, header->size);
    memset(&message, 0, sizeof message);
    return read_rest(connection, &message, 0, header->size);
}

static void answer(int connection, uint64_t value)
{
    struct {
        struct header header;
        uint64_t value;
    } reply = { { RETURN, 0, sizeof value }, value };

    interrupts_update(true);
    if (write(connection, &reply, sizeof reply) != sizeof reply && errno != EPIPE)
        fail("an answer to QEMU: %s", strerror(errno));
}

static void share_memory(void)
{
    const struct memory_message *shared = &message.memory;

    guest_memory_clear();
    for (unsigned number = 0; number < file_count; number++)
        guest_memory_add(shared->addresses[number], shared->sizes[number], files[number],
                         (uint64_t)shared->offsets[number]);
}

static void close_files(void)
{
    while (file_count > 0)
        close(files[--file_count]);
}

/* Whether an access has four aligned bytes in the region from `begin`: of registers, or of the I/O window. Stores its
 * offset in the region. Other reads return 0, and other writes change nothing. */
static bool is_register(const struct bar_message *access, uint32_t begin, uint32_t size, uint32_t *offset)
{
    *offset = (uint32_t)access->address - begin;
    return access->size == 4 && access->address >= begin && access->address - begin < size && *offset % 4 == 0;
}

static uint32_t read_bar(void)
{
    const struct bar_message *access = &message.bar;
    uint32_t offset;

    if (access->is_memory && is_register(access, configuration_registers(), REGISTER_BYTES, &offset))
        return registers_read(offset);
    if (!access->is_memory && is_register(access, configuration_window(), WINDOW_BYTES, &offset))
        return io_window_read(offset);
    return 0;
}

static void write_bar(void)
{
    const struct bar_message *access = &message.bar;
    uint32_t offset;

    if (access->is_memory && is_register(access, configuration_registers(), REGISTER_BYTES, &offset))
        registers_write(offset, (uint32_t)access->value);
    else if (!access->is_memory && is_register(access, configuration_window(), WINDOW_BYTES, &offset))
        io_window_write(offset, (uint32_t)access->value);
}

/* Does what a message asks for. Returns the value of the answer. */
static uint64_t perform(int command)
{
    const struct configuration_message *access = &message.configuration;

    switch (command) {
    case CONFIGURATION_READ:
        return configuration_read(access->offset, (uint32_t)access->size);
    case CONFIGURATION_WRITE:
        configuration_write(access->offset, access->value, (uint32_t)access->size);
        return 0;
    case BAR_READ:
        return read_bar();
    case BAR_WRITE:
        write_bar();
        return 0;
    case RESET:
        registers_reset();
        return 0;
    default:
        fail("QEMU's message %d isn't known: is this QEMU 7.2?", command);
    }
}

bool messages_answer(int connection)
{
    struct header header;

    if (!read_message(connection, &header))
        return false;
    if (header.command == SYNC_MEMORY)
        share_memory();
    else if (header.command != SET_INTERRUPT)
        answer(connection, perform(header.command));
    close_files();
    return true;
}
