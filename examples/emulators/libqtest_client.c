/* libqtest_client.h describes the calls. The client listens on two sockets, starts the program, and accepts its connections:
 * one for requests, and one for QEMU's machine protocol (QMP), over which only the handshake goes. */
#define _DEFAULT_SOURCE
#include "libqtest_client.h"

#include <inttypes.h>
#include <signal.h>
#include <stdarg.h>
#include <stdio.h>
#include <stdlib.h>
#include <string.h>
#include <sys/socket.h>
#include <sys/time.h>
#include <sys/un.h>
#include <sys/wait.h>
#include <unistd.h>

enum { INTERRUPTS = 256, LONGEST = 1 << 18, SECONDS = 60 };

struct QTestState {
    FILE *requests, *answers, *monitor;
    pid_t program;
    bool raised[INTERRUPTS];
    char folder[80], line[LONGEST];
};

static pid_t started; /* the program that ends with the test */

static void fail(const char *what, const char *detail)
{
    fprintf(stderr, "libqtest_client: %s: %s\n", what, detail);
    if (started > 0)
        kill(started, SIGTERM);
    exit(1);
}

/* The connections */

static int listen_at(const char *folder, const char *name)
{
    struct sockaddr_un address = { .sun_family = AF_UNIX };
    struct timeval limit = { .tv_sec = 1 };
    int end = socket(AF_UNIX, SOCK_STREAM | SOCK_CLOEXEC, 0);

    snprintf(address.sun_path, sizeof address.sun_path, "%s/%s", folder, name);
    if (end < 0 || bind(end, (struct sockaddr *)&address, sizeof address) || listen(end, 1))
        fail("no socket", address.sun_path);
    setsockopt(end, SOL_SOCKET, SO_RCVTIMEO, &limit, sizeof limit);
    return end;
}

/* Waits until the program has connected to a socket. */
static int accept_at(int end, const char *folder, const char *name)
{
    char path[sizeof(struct sockaddr_un)];
    int connection = -1;

    for (unsigned turn = 0; connection < 0; turn++) {
        connection = accept(end, NULL, NULL);
        if (connection < 0 && (turn == SECONDS || waitpid(started, NULL, WNOHANG) != 0))
            fail("the program didn't connect to its socket", name);
    }
    close(end);
    snprintf(path, sizeof path, "%s/%s", folder, name);
    unlink(path);
    return connection;
}

static void start(QTestState *s, const char *extra_args)
{
    const char *program = getenv("QTEST_QEMU_BINARY");
    char command[4096];

    if (!program)
        fail("the variable QTEST_QEMU_BINARY", "it isn't set");
    snprintf(command, sizeof command,
             "exec %s -qtest unix:%s/qtest -qtest-log /dev/null -chardev socket,path=%s/qmp,id=char0 "
             "-mon chardev=char0,mode=control -display none %s -accel qtest",
             program, s->folder, s->folder, extra_args ? extra_args : "");
    started = s->program = fork();
    if (s->program == 0) {
        execl("/bin/sh", "sh", "-c", command, (char *)0);
        _exit(127);
    }
}

/* Reads a message of the machine protocol, which must have this text in it. */
static void expect_message(QTestState *s, const char *text)
{
    if (!fgets(s->line, LONGEST, s->monitor) || !strstr(s->line, text))
        fail("no message of QMP with", text);
}

QTestState *qtest_init(const char *extra_args)
{
    const char *temporary = getenv("TMPDIR");
    QTestState *s = calloc(1, sizeof *s);
    int requests, monitor, end;

    if (!s)
        fail("no memory", "for a test");
    snprintf(s->folder, sizeof s->folder, "%s/qtest-XXXXXX", temporary ? temporary : P_tmpdir);
    if (!mkdtemp(s->folder))
        fail("no folder", s->folder);
    requests = listen_at(s->folder, "qtest");
    monitor = listen_at(s->folder, "qmp");
    start(s, extra_args);
    end = accept_at(requests, s->folder, "qtest");
    s->answers = fdopen(end, "r");
    s->requests = fdopen(dup(end), "w");
    end = accept_at(monitor, s->folder, "qmp");
    s->monitor = fdopen(end, "r+");
    rmdir(s->folder);
    expect_message(s, "\"QMP\"");
    fprintf(s->monitor, "{\"execute\": \"qmp_capabilities\"}\n");
    fflush(s->monitor);
    expect_message(s, "\"return\"");
    return s;
}

QTestState *qtest_initf(const char *format, ...)
{
    char words[2048];
    va_list values;

    va_start(values, format);
    vsnprintf(words, sizeof words, format, values);
    va_end(values);
    return qtest_init(words);
}

void qtest_quit(QTestState *s)
{
    int status;

    kill(s->program, SIGTERM);
    if (waitpid(s->program, &status, 0) < 0 || !WIFEXITED(status) || WEXITSTATUS(status) != 0)
        fail("the program", "it didn't end with status 0");
    started = 0;
    fclose(s->requests);
    fclose(s->answers);
    fclose(s->monitor);
    free(s);
}

/* Requests and answers */

/* Returns the words of the next answer after OK. Notes the lines of interrupts before it. */
static const char *answer(QTestState *s)
{
    unsigned number;
    char level[8];

    fflush(s->requests);
    while (fgets(s->line, LONGEST, s->answers)) {
        if (sscanf(s->line, "IRQ %7s %u", level, &number) == 2 && number < INTERRUPTS) {
            s->raised[number] = strcmp(level, "raise") == 0;
            continue;
        }
        if (strncmp(s->line, "OK", 2) != 0)
            fail("the answer to a request is", s->line);
        return s->line + 2;
    }
    fail("the program", "it has ended");
    return NULL;
}

static uint64_t number_of(QTestState *s)
{
    return strtoull(answer(s), NULL, 0);
}

#define IN(name, type) \
    type qtest_##name(QTestState *s, uint16_t port) \
    { \
        fprintf(s->requests, #name " 0x%x\n", port); \
        return number_of(s); \
    }
#define OUT(name, type) \
    void qtest_##name(QTestState *s, uint16_t port, type value) \
    { \
        fprintf(s->requests, #name " 0x%x 0x%" PRIx32 "\n", port, (uint32_t)value); \
        answer(s); \
    }
#define READ(name, type) \
    type qtest_##name(QTestState *s, uint64_t address) \
    { \
        fprintf(s->requests, #name " 0x%" PRIx64 "\n", address); \
        return number_of(s); \
    }
#define WRITE(name, type) \
    void qtest_##name(QTestState *s, uint64_t address, type value) \
    { \
        fprintf(s->requests, #name " 0x%" PRIx64 " 0x%" PRIx64 "\n", address, (uint64_t)value); \
        answer(s); \
    }

IN(inb, uint8_t)
IN(inw, uint16_t)
IN(inl, uint32_t)
OUT(outb, uint8_t)
OUT(outw, uint16_t)
OUT(outl, uint32_t)
READ(readb, uint8_t)
READ(readw, uint16_t)
READ(readl, uint32_t)
READ(readq, uint64_t)
WRITE(writeb, uint8_t)
WRITE(writew, uint16_t)
WRITE(writel, uint32_t)
WRITE(writeq, uint64_t)

void qtest_memread(QTestState *s, uint64_t address, void *data, size_t size)
{
    const char *digits;
    uint8_t *bytes = data;

    if (size == 0)
        return;
    fprintf(s->requests, "read 0x%" PRIx64 " 0x%zx\n", address, size);
    digits = answer(s);
    if (strlen(digits) != 4 + 2 * size)
        fail("the answer to a read has another size", s->line);
    for (digits += 3; size--; digits += 2)
        *bytes++ = strtoul((char[]){ digits[0], digits[1], 0 }, NULL, 16);
}

void qtest_memwrite(QTestState *s, uint64_t address, const void *data, size_t size)
{
    const uint8_t *bytes = data;

    if (size == 0)
        return;
    fprintf(s->requests, "write 0x%" PRIx64 " 0x%zx 0x", address, size);
    while (size--)
        fprintf(s->requests, "%02x", *bytes++);
    fprintf(s->requests, "\n");
    answer(s);
}

void qtest_memset(QTestState *s, uint64_t address, uint8_t pattern, size_t size)
{
    fprintf(s->requests, "memset 0x%" PRIx64 " 0x%zx 0x%02x\n", address, size, pattern);
    answer(s);
}

void qtest_irq_intercept_in(QTestState *s, const char *path)
{
    fprintf(s->requests, "irq_intercept_in %s\n", path);
    answer(s);
}

void qtest_irq_intercept_out(QTestState *s, const char *path)
{
    fprintf(s->requests, "irq_intercept_out %s\n", path);
    answer(s);
}

bool qtest_get_irq(QTestState *s, int number)
{
    qtest_inb(s, 0); /* its answer comes after the lines of interrupts until now */
    return number >= 0 && number < INTERRUPTS && s->raised[number];
}

int64_t qtest_clock_step(QTestState *s, int64_t step)
{
    fprintf(s->requests, "clock_step %" PRId64 "\n", step);
    return number_of(s);
}
