/* Stores in the host's memory that no access has told, such as those of inline assembly: in one run, the memory is
 * compared at each place with a copy, which is made whenever the test goes on. Stores above the address of one that was
 * told, before the next place, are taken for a part of it. Loads can't be seen. */
#include "inside.h"
#include <string.h>

#define S xi_state

bool xi_watches_host;
static uint8_t *copy;
static uint64_t told[2]; /* the store by a pointer that is about to happen: of the driver, and of the handler */
static bool has_told[2], is_asked, is_copied;
static char found[64];

/* The test is about to store by a pointer, or doesn't. */
void xi_tell_store(bool is_store, uint64_t address)
{
    has_told[S->handlers > 0] = is_store, told[S->handlers > 0] = address;
}

/* The test has come to a place. */
void xi_stop_host(void)
{
    int level = S->handlers > 0;
    const uint8_t *host;
    uint64_t size, at = 0;
    struct place here;
    char name[32], before;

    if (!is_copied)
        return;
    before = xi_pause(), is_copied = false; /* so that memcpy of the hooks tells nothing */
    host = xi_host(&size);
    if (!found[0] && memcmp(copy, host, size)) {
        while (copy[at] == host[at])
            at++;
        here = xi_place(), xi_name(name, sizeof name, &here);
        if (!has_told[level] || at < told[level])
            snprintf(found, sizeof found, "%#llx before %s", (unsigned long long)at, name);
    }
    has_told[level] = false;
    xi_resume(before);
}

/* The test goes on, and has asked for the address of the host's memory if `asks` is true. */
void xi_go_host(bool asks)
{
    const uint8_t *host;
    uint64_t size;
    char before;

    is_asked |= asks;
    if (!xi_watches_host || !is_asked || is_copied)
        return;
    before = xi_pause();
    host = xi_host(&size);
    if (!copy && !(copy = xi_map(size)))
        xi_die("memory is refused");
    memcpy(copy, host, size), is_copied = true;
    xi_resume(before);
}

/* The first such store that was found, such as `0x1000 before read ICR`, or NULL */
const char *xi_untold(void)
{
    return found[0] ? found : NULL;
}
