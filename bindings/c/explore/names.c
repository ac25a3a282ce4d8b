/* Schedules as text, in the form of tools/races. */
#include "inside.h"
#include <stdio.h>
#include <stdlib.h>
#include <string.h>
#include <sys/stat.h>
#include <unistd.h>

static const char *const events[] = { "read", "write", "read", "write", "touch", "choose", "line", "variable", "interrupts off",
                                      "interrupts on", "handler off", "handler on", "handler", "settle", "arrive",
                                      "step", "settle", "offer" };

struct place (*xi_place_here)(void);

/* The access or the request at which the run is. */
struct place xi_place(void)
{
    struct place place = { xi_book->event, 0, xi_book->address, NULL };

    if (xi_place_here)
        return xi_place_here();
    for (int ring = 0; ring < 2 && (place.event == LOAD || place.event == STORE); ring++) {
        const uint32_t *at = xi_book->rings[ring];
        uint64_t from = xi_book->address - (at[0] | (uint64_t)at[1] << 32);
        if (from < at[2])
            return (struct place){ place.event, 1 + ring, from, NULL };
    }
    return place;
}

/* The name of an access or a request */
void xi_name(char *into, size_t room, const struct place *place)
{
    enum event event = place->event;
    unsigned slot = (unsigned)(place->address / 16), byte = (unsigned)(place->address % 16);

    if (place->text)
        snprintf(into, room, "%s", place->text);
    else if (event >= TOUCH)
        snprintf(into, room, "%s", event == ENDED ? "the end" : events[event]);
    else if (event <= WRITE)
        snprintf(into, room, "%s %s", events[event], xi_register((uint32_t)place->address));
    else if (!place->ring && xi_memory_name(place->address))
        snprintf(into, room, "%s %s", events[event], xi_memory_name(place->address));
    else if (!place->ring)
        snprintf(into, room, "%s %#llx", events[event], (unsigned long long)place->address);
    else if (byte)
        snprintf(into, room, "%s %cx[%u]+%u", events[event], "rt"[place->ring - 1], slot, byte);
    else
        snprintf(into, room, "%s %cx[%u]", events[event], "rt"[place->ring - 1], slot);
}

/* A deviation as a line of a schedule */
void xi_text(char *into, size_t room, const struct deviation *one)
{
    char name[32], sub[16] = "", choice[16] = "";

    xi_name(name, sizeof name, &one->before);
    if (one->sub)
        snprintf(sub, sizeof sub, "+%u", one->sub);
    if (one->action >= CHOICE)
        snprintf(choice, sizeof choice, " %d", one->action - CHOICE + 1);
    snprintf(into, room, "%u.%u%s %s%s before %s", one->round, one->access, sub, xi_actions[one->action], choice, name);
}

void xi_print(FILE *file, const struct deviation *path, unsigned count)
{
    for (unsigned n = 0; n < count; n++) {
        char text[80];
        xi_text(text, sizeof text, &path[n]);
        fprintf(file, "%s\n", text);
    }
}

static _Noreturn void refuse(const char *path, unsigned line, const char *why)
{
    fprintf(stderr, "%s: %s: line %u: %s\n", xi_program, path, line, why);
    exit(USAGE);
}

/* Reads a number in decimal digits, and moves `at` after it. Returns false if there is none, or if it is above 2^32 - 1.
 */
static bool read_number(const char **at, unsigned *into)
{
    uint64_t value = 0;
    const char *first = *at;

    while (**at >= '0' && **at <= '9' && value <= UINT32_MAX)
        value = 10 * value + (uint64_t)(*(*at)++ - '0');
    *into = (unsigned)value;
    return *at > first && value <= UINT32_MAX;
}

/* Reads a place such as 4.6 or 4.6+1, and the spaces after it. */
static bool read_place(const char **at, struct deviation *into)
{
    into->sub = 0;
    if (!read_number(at, &into->round) || *(*at)++ != '.' || !read_number(at, &into->access))
        return false;
    if (**at == '+' && (++*at, !read_number(at, &into->sub)))
        return false;
    if (**at != ' ')
        return false;
    *at += strspn(*at, " ");
    return true;
}

/* Reads what is done, such as rx, late irq or choose 2. Returns what is wrong, or NULL. */
static const char *read_action(const char *text, struct deviation *into)
{
    size_t size = strlen(xi_actions[CHOICE]);
    const char *number = text + size + 1;
    unsigned answer;

    if (!strncmp(text, xi_actions[CHOICE], size) && text[size] == ' ' && read_number(&number, &answer) && !*number &&
        answer) {
        into->action = CHOICE + (int)(answer < MOST_ANSWERS ? answer : MOST_ANSWERS) - 1;
        return into->action < ACTIONS ? NULL : "an answer is at most 15";
    }
    for (into->action = 0; into->action < CHOICE && strcmp(text, xi_actions[into->action]);)
        into->action++;
    return into->action < CHOICE ? NULL : "it has no deviation, such as rx";
}

/* Reads one deviation in a line such as 4.6 rx before read ICR. Returns what is wrong, or NULL. */
static const char *read_deviation(char *line, struct deviation *into)
{
    char *before = strstr(line, " before ");
    const char *at = line, *wrong;

    if (!read_place(&at, into))
        return "it doesn't begin with a place, such as 4.6, of numbers up to 4294967295";
    if (!before)
        return "no access is named: end the line with one, such as 'before read ICR'";
    *before = 0;
    if ((wrong = read_action(before < at ? "" : at, into)) != NULL)
        return wrong;
    into->before = (struct place){ ENDED, 0, 0, strdup(before + strlen(" before ")) };
    return NULL;
}

static bool is_before(const struct deviation *one, const struct deviation *other)
{
    if (one->round != other->round)
        return one->round < other->round;
    return one->access != other->access ? one->access < other->access : one->sub < other->sub;
}

/* Skips the rest of a line. */
static void skip_line(FILE *file)
{
    for (int c = fgetc(file); c != EOF && c != '\n';)
        c = fgetc(file);
}

static _Noreturn void refuse_file(const char *path)
{
    fprintf(stderr, "%s: %s: it can't be read\n", xi_program, path);
    exit(USAGE);
}

enum { LONGEST_LINE = 255, NO_LINE = -1 };

/* Reads a line of at most 255 characters without its end. Returns NO_LINE at the end of the file, or else the number of
 * its characters, which is above 255 if it is longer. `has_zero` becomes true if one of them is a zero byte. */
static int read_line(FILE *file, char *into, bool *has_zero)
{
    int c = fgetc(file), count = 0;

    if (c == EOF)
        return NO_LINE;
    for (; c != EOF && c != '\n' && count <= LONGEST_LINE; c = fgetc(file)) {
        *has_zero |= c == 0;
        if (count < LONGEST_LINE)
            into[count] = (char)c;
        count++;
    }
    into[count < LONGEST_LINE ? count : LONGEST_LINE] = 0;
    return count;
}

static unsigned lines[MOST_PATH]; /* of the deviations that were read, the numbers of their lines */

/* Ends the program because of a deviation that was read. */
_Noreturn void xi_refuse(const char *path, unsigned number, const char *why)
{
    refuse(path, lines[number], why);
}

/* Reads the deviations of a schedule. Returns their number. The program ends if the file can't be read, a line is
 * wrong, lines aren't sorted by place, or there are more than 1,024 deviations. */
int xi_read_schedule(const char *path, struct deviation *into)
{
    FILE *file = fopen(path, "r");
    struct stat kind;
    char line[LONGEST_LINE + 1];
    bool has_zero = false;
    int count = 0, size;

    if (!file)
        refuse_file(path);
    if (fstat(fileno(file), &kind) || (S_ISCHR(kind.st_mode) && !isatty(fileno(file)) && strcmp(path, "/dev/null")) ||
        S_ISBLK(kind.st_mode))
        refuse(path, 1, "it is a device");
    for (unsigned number = 1; (size = read_line(file, line, &has_zero)) != NO_LINE; number++) {
        char *comment = line[0] == '#' ? line : strstr(line, " #");
        const char *wrong;
        if (has_zero)
            refuse(path, number, "it has a zero byte, so it isn't text");
        if (size > LONGEST_LINE && !comment)
            refuse(path, number, "it has more than 255 characters");
        if (size > LONGEST_LINE)
            skip_line(file);
        if (comment)
            *comment = 0;
        for (size_t end = strlen(line); end && (unsigned char)line[end - 1] <= ' ';)
            line[--end] = 0;
        if (!line[0] || !strncmp(line, "options", 7))
            continue;
        if (count == MOST_PATH)
            refuse(path, number, "there are more than 1,024 deviations");
        if ((wrong = read_deviation(line, &into[count])) != NULL)
            refuse(path, number, wrong);
        if (count && is_before(&into[count], &into[count - 1]))
            refuse(path, number, "sort the lines by place");
        lines[count++] = number;
    }
    if (ferror(file))
        refuse_file(path);
    fclose(file);
    return count;
}
