/* The schedules and seeds that fail, and their kinds: the same actions before the same accesses, in any rounds and
 * slots. A kind that contains all actions of a smaller kind belongs to the smaller kind, whose actions fail alone.
 */
#include "inside.h"
#include <stdio.h>
#include <stdlib.h>
#include <string.h>

enum { MOST_KINDS = 512, MOST_SHOWN = 20 };
static struct kind {
    char *name, *first; /* of its first schedule */
    unsigned size;      /* its number of deviations */
    uint64_t count, larger; /* of its schedules; of those with more deviations */
} kinds[MOST_KINDS];
static unsigned kind_count;
static uint64_t failed, unlisted; /* all that failed; schedules of kinds for which there is no room */
static FILE *list; /* what failed, for --json */
static char *list_text;
static size_t list_size;

/* Adds a text to one that is allocated. */
static void append(char **text, const char *more)
{
    size_t size = *text ? strlen(*text) : 0;

    *text = realloc(*text, size + strlen(more) + 1);
    if (!*text)
        xi_die("memory is refused");
    strcpy(*text + size, more);
}

/* Leaves the slot out of the name of a place, or writes `memory` in place of an address. */
void xi_without_slot(char *name)
{
    char *slot = strchr(name, '['), *end = slot ? strchr(slot, ']') : NULL, *address = strstr(name, " 0x");

    if (end)
        memmove(slot + 1, end, strlen(end) + 1);
    else if (address)
        strcpy(address, " memory");
}

/* A schedule on one line, or its kind */
static char *line_of(const struct deviation *path, unsigned count, bool is_kind)
{
    char *line = NULL, text[80], name[32];

    append(&line, count ? "" : "no deviation");
    for (unsigned n = 0; n < count; n++) {
        xi_name(name, sizeof name, &path[n].before);
        xi_without_slot(name);
        if (is_kind)
            snprintf(text, sizeof text, "%s before %s", xi_actions[path[n].action], name);
        else
            xi_text(text, sizeof text, &path[n]);
        append(&line, n ? "; " : "");
        append(&line, text);
    }
    return line;
}

/* Counts a schedule or a seed that fails. With --json, begins its entry in the list, and returns true. */
static bool begin_failed(const char *fault)
{
    failed++;
    if (!xi_given.json)
        return false;
    if (!list && !(list = open_memstream(&list_text, &list_size)))
        xi_die("memory is refused");
    fputs(failed > 1 ? ", {\"fault\": " : "{\"fault\": ", list);
    xi_print_string(list, fault);
    return true;
}

void (*xi_takes_failed)(const struct deviation *path, unsigned count, const char *fault);

/* A schedule fails: prints it, and counts its kind. */
void xi_add_failed(const struct deviation *path, unsigned count, const char *fault)
{
    char *name, *line;
    unsigned n = 0;

    if (xi_takes_failed) {
        xi_takes_failed(path, count, fault);
        return;
    }
    name = line_of(path, count, true), line = line_of(path, count, false);
    if (begin_failed(fault))
        fputs(", \"schedule\": ", list), xi_print_lines(list, path, count), fputc('}', list);
    xi_say("%s: %s\n", line, fault);
    while (n < kind_count && strcmp(kinds[n].name, name))
        n++;
    if (n == kind_count && n < MOST_KINDS)
        kinds[kind_count++] = (struct kind){ name, line, count, 0, 0 }, name = line = NULL;
    if (n < MOST_KINDS)
        kinds[n].count++;
    else
        unlisted++;
    free(name), free(line);
}

/* The run of a seed fails: prints the seed, and counts it. */
void xi_add_seed(uint64_t seed, const char *fault)
{
    if (begin_failed(fault))
        fprintf(list, ", \"seed\": %llu}", (unsigned long long)seed);
    xi_say("seed %llu: %s\n", (unsigned long long)seed, fault);
}

/* Prints the schedules and seeds that fail as a list of JSON. */
void xi_print_failed(void)
{
    if (list)
        fflush(list);
    fprintf(xi_out, "[%s]", list ? list_text : "");
}

/* Whether a kind has all deviations of another one, in their order */
static bool contains(const char *kind, const char *part)
{
    while (*part) {
        size_t size = strcspn(part, ";"), here;
        for (;; kind += here + strspn(kind + here, "; ")) {
            here = strcspn(kind, ";");
            if (!here)
                return false;
            if (here == size && !memcmp(kind, part, size))
                break;
        }
        kind += here + strspn(kind + here, "; "), part += size + strspn(part + size, "; ");
    }
    return true;
}

/* The order of kinds: the smallest ones first, and of the same size, the most frequent ones first */
static int by_size(const void *one, const void *two)
{
    const struct kind *a = one, *b = two;

    if (a->size != b->size)
        return a->size < b->size ? -1 : 1;
    return a->count != b->count ? (a->count < b->count ? 1 : -1) : strcmp(a->name, b->name);
}

/* Prints the deviations of the first kind that all kinds have, if there are at least two kinds. */
static void print_common(unsigned count)
{
    char *one = kinds[0].name;

    for (size_t size; count > 1 && *one; one += size + strspn(one + size, "; ")) {
        char part[80];
        unsigned n = 0;
        size = strcspn(one, ";");
        snprintf(part, sizeof part, "%.*s", (int)size, one);
        while (n < count && contains(kinds[n].name, part))
            n++;
        if (n == count)
            xi_say("all have %s\n", part);
    }
}

/* Prints a line for each of the first 20 kinds that contain no smaller one, and the number of the others. */
void xi_print_kinds(void)
{
    unsigned count = 0;

    qsort(kinds, kind_count, sizeof *kinds, by_size);
    for (unsigned n = 0; n < kind_count; n++) {
        unsigned m = 0;
        while (m < count && (kinds[m].size == kinds[n].size || !contains(kinds[n].name, kinds[m].name)))
            m++;
        if (m == count)
            kinds[count++] = kinds[n];
        else
            kinds[m].larger += kinds[n].count;
    }
    print_common(count);
    for (unsigned n = 0; n < count && n < MOST_SHOWN; n++) {
        xi_say("%llu of %s, such as %s", (unsigned long long)kinds[n].count, kinds[n].name, kinds[n].first);
        if (kinds[n].larger)
            xi_say("; %llu with others, too", (unsigned long long)kinds[n].larger);
        xi_say("\n");
    }
    if (count > MOST_SHOWN)
        xi_say("and %u kinds more\n", count - MOST_SHOWN);
    if (unlisted)
        xi_say("and %llu schedules of other kinds\n", (unsigned long long)unlisted);
    kind_count = count;
}

uint64_t xi_failed(void)
{
    return failed;
}
