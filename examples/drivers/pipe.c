/* Accesses of a driver over pipes to `nicbench serve` (docs/SERVE.md). usage: first PROGRAM */
#include <inttypes.h>
#include <stdio.h>
#include <stdlib.h>
#include <string.h>
#include <unistd.h>

static FILE *to, *from;

/* Starts the server. */
static void start(const char *program)
{
    int requests[2], answers[2];

    if (pipe(requests) || pipe(answers))
        exit(1);
    if (fork() == 0) {
        dup2(requests[0], 0);
        dup2(answers[1], 1);
        close(requests[1]);
        close(answers[0]);
        execl(program, program, "serve", "--seed", "7", (char *)0);
        _exit(127);
    }
    close(requests[0]);
    close(answers[1]);
    to = fdopen(requests[1], "w");
    from = fdopen(answers[0], "r");
}

/* Returns the number in the answer to a request. Prints the lines before the answer. */
static uint64_t answer(void)
{
    char line[131300];

    fflush(to);
    while (fgets(line, sizeof line, from)) {
        if (strncmp(line, "OK", 2) == 0)
            return strtoull(line + 2, 0, 0);
        fputs(line, stdout); /* IRQ raise 0, ERR ..., after `events on` also frame ... */
        if (strncmp(line, "ERR", 3) == 0 || strncmp(line, "FAIL", 4) == 0)
            break;
    }
    exit(1);
}

static uint32_t readl(uint64_t address)
{
    fprintf(to, "readl 0x%" PRIx64 "\n", address);
    return answer();
}

static void writel(uint64_t address, uint32_t value)
{
    fprintf(to, "writel 0x%" PRIx64 " 0x%" PRIx32 "\n", address, value);
    answer();
}

int main(int argc, char **argv)
{
    start(argv[1]);
    writel(0xFEB000D0, 0x80);             /* IMS: unmask RXT0 */
    writel(0xFEB000C8, 0x80);             /* ICS: record RXT0 */
    printf("%08" PRIx32 "\n", readl(0xFEB000C0));
    return argc != 2;
}
