/* Lines of a test for `nicbench serve`, answered in process. Before the second read of ICR, an offered frame arrives, and
 * the adapter takes all its steps. So the line rises before the answer to this read. */
#include <inttypes.h>
#include <nic82540em.h>
#include <stdio.h>
#include <string.h>

static const char *const lines[] = {
    "writel 0xFEB02800 0x1000", "writel 0xFEB02808 128", "writel 0xFEB02818 7", "writel 0xFEB00100 0x8002",
    "writel 0xFEB000D0 0x80", "choose 5", "offer ffffffffffff0200000000010800" "0000000000000000000000000000000000000000"
    "0000000000000000000000000000000000000000000000000000", "readl 0xFEB000C0", "readl 0xFEB000C0", "read 0x1008 5", "bogus",
};

static struct nic82540em_server server;
static char text[256], again[256], name[128];

/* Prints the place at which a line comes. Returns whether it is a second read of ICR. */
static bool comes(const char *line)
{
    static int reads;
    const uint64_t before = nic82540em_server_digest(&server, 1);
    struct nic82540em_coming coming;
    const size_t length = nic82540em_comes(&server, line, strlen(line), &coming, name, sizeof name);

    if (coming.kind == NIC_COMES_NOTHING)
        printf("no place:");
    else
        printf("%" PRIu32 ".%" PRIu32 " %.*s:", coming.round, coming.access, (int)length, name);
    if (coming.kind == NIC_COMES_CHOOSE)
        nic82540em_answers(&server, 3);
    if (nic82540em_server_digest(&server, 1) != before)
        printf(" the adapter changed");
    reads += coming.kind == NIC_COMES_READ && strcmp(line, lines[7]) == 0;
    return reads == 2 && strcmp(line, lines[7]) == 0;
}

/* Lets offered frames arrive, and the adapter take steps, until there is nothing to do. Returns the number of both. */
static int deviate(void)
{
    int done = 0;
    uint32_t can, kind;

    while ((can = nic82540em_can(&server)) != 0) {
        for (kind = 0; kind < NIC_OFFERED && !(can >> kind & 1);)
            kind++;
        done += nic82540em_deviate(&server, kind);
    }
    return done;
}

int main(void)
{
    const struct nic82540em_options options = NIC82540EM_DEFAULTS;
    struct nic82540em nic = NIC82540EM_NONE;

    if (!nic82540em_serve(&server, &options, 0xFEB00000, 0))
        return 1;
    for (size_t place = 0; place < sizeof lines / sizeof *lines; place++) {
        if (comes(lines[place]))
            printf(" %d steps and arrivals,", deviate());
        const size_t size = nic82540em_answer(&server, lines[place], strlen(lines[place]), text, sizeof text);

        if (nic82540em_told(&server, again, sizeof again) != size || memcmp(text, again, size) != 0)
            return 1;
        for (size_t byte = 0; byte < size; byte++)
            printf("%s%.1s", byte == 0 || text[byte - 1] == '\n' ? " " : "", text[byte] == '\n' ? ";" : &text[byte]);
        puts("");
    }
    nic82540em_close(&server);
    /* In process, the calls have no lines, but the same names. */
    if (!nic82540em_new(&nic, &options))
        return 1;
    printf("%.*s\n", (int)nic82540em_name(&nic, NIC_COMES_READ, NIC_ICR, name, sizeof name), name);
    nic82540em_free(&nic);
    return 0;
}
