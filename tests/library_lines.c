/* Makes each call of rattle_alloc and rattle_realloc fail in turn, with a heap in place of heap.c. A server of
 * libnic82540em that was refused memory answers nothing more, also if there is memory again. After
 * nic82540em_close, no block may be left. */
#include <nic82540em.h>
#include <stdio.h>
#include <stdlib.h>
#include <string.h>

struct tried {
    bool ok;
    void *block;
};

static char nothing;
static long left, live; /* allocations until one fails, and blocks that aren't freed */

static struct tried tried(void *block)
{
    struct tried result = { block != NULL, block != NULL ? block : &nothing };

    return result;
}

struct tried rattle_alloc(size_t size, size_t align);
struct tried rattle_realloc(void *block, size_t kept, size_t size, size_t align);
void rattle_dealloc(void *block);

struct tried rattle_alloc(size_t size, size_t align)
{
    void *block = left-- == 0 ? NULL : malloc(size != 0 ? size : align);

    live += block != NULL;
    return tried(block);
}

struct tried rattle_realloc(void *block, size_t kept, size_t size, size_t align)
{
    (void)kept;
    return tried(left-- == 0 ? NULL : realloc(block, size != 0 ? size : align));
}

void rattle_dealloc(void *block)
{
    live--;
    free(block);
}

#define CHECK(fact) ((fact) ? (void)0 : (fprintf(stderr, "%s is false\n", #fact), exit(1)))

static struct nic82540em_server server;
static char told[4096], name[128];

static bool answers(const char *line)
{
    return nic82540em_answer(&server, line, strlen(line), told, sizeof told) != 0;
}

/* Lines, looks and deviations that need memory. Returns whether all were answered. */
static bool run(void)
{
    static const char *const lines[] = {
        "log targets", "memset 0x1000 32 0", "writel 0xfeb02800 0x1000", "writel 0xfeb02808 128", "writel 0xfeb02818 1",
        "writel 0xfeb00100 0x8002", "save",
        "arrive ffffffffffff010203040506070801020304050607080102030405060708010203040506070801020304050607080102030405"
        "06070801020304", "offer 00", "choose 7", "events on", "read 0x1000 16", "restore", "bogus",
    };
    struct nic82540em_coming coming;
    size_t k;

    for (k = 0; k < sizeof lines / sizeof *lines; k++) {
        nic82540em_comes(&server, lines[k], strlen(lines[k]), &coming, name, sizeof name);
        nic82540em_deviate(&server, NIC_RXDATA);
        nic82540em_deviate(&server, NIC_OFFERED);
        if (!answers(lines[k]))
            return false;
    }
    return true;
}

int main(void)
{
    struct nic82540em_options options = NIC82540EM_DEFAULTS;
    struct nic82540em_coming coming;
    long refused, made = -1;
    bool done = false;

    options.memory = 8192;
    for (refused = 0; !done; refused++) {
        left = refused;
        if (!nic82540em_serve(&server, &options, 0xFEB00000, 0)) {
            CHECK(live == 0 && !server.held);
            continue;
        }
        made = made < 0 ? refused : made;
        done = run();
        CHECK(done == (left >= 0));
        left = -1; /* there is memory again */
        if (!done) {
            CHECK(!answers("line") && nic82540em_told(&server, told, sizeof told) == 0 && nic82540em_can(&server) == 0);
            CHECK(nic82540em_comes(&server, "settle", 6, &coming, name, sizeof name) == 0);
            CHECK(coming.kind == NIC_COMES_NOTHING);
            CHECK(!nic82540em_deviate(&server, NIC_PHY) && !nic82540em_answers(&server, 1));
            CHECK(nic82540em_server_digest(&server, 1) == 0 && !nic82540em_serve(&server, &options, 0, 0));
        }
        nic82540em_close(&server);
        CHECK(live == 0 && !server.held);
    }
    CHECK(made > 5 && refused > made + 20);
    puts("a server is dead after each refusal, and no block is left");
    return 0;
}
