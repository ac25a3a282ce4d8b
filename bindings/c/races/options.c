/* The options of the adapter, as `nicbench serve` has them. */
#include "races.h"
#include <errno.h>
#include <stdlib.h>
#include <string.h>

enum { WORDS = sizeof x_options.image / sizeof *x_options.image, LONGEST_LINE = 512 };
static bool is_given; /* whether the words have one */

static _Noreturn void refuse(const char *option, const char *why)
{
    fprintf(stderr, "%s: %s: %s\nFor more information, try '--help'.\n", xi_program, option, why);
    exit(USAGE);
}

static uint64_t number_of(const char *option, const char *text, uint64_t least, uint64_t most)
{
    char *end = NULL;
    uint64_t value;

    errno = 0, value = *text >= '0' && *text <= '9' ? strtoull(text, &end, strncmp(text, "0x", 2) ? 10 : 16) : 0;
    if (!end || *end || errno || value < least || value > most)
        refuse(option, "its value isn't a number, or is out of range");
    return value;
}

static void take_address(const char *value)
{
    unsigned bytes[6];
    char rest;

    if (strlen(value) != 17 || sscanf(value, "%2x:%2x:%2x:%2x:%2x:%2x%c", &bytes[0], &bytes[1], &bytes[2], &bytes[3],
                                      &bytes[4], &bytes[5], &rest) != 6)
        refuse("--address", "its value isn't an address such as 02:00:00:00:00:01");
    for (int n = 0; n < 6; n++)
        x_options.address[n] = (uint8_t)bytes[n];
}

static void take_image(const char *path)
{
    uint8_t bytes[2 * WORDS + 1];
    FILE *file = fopen(path, "rb");
    size_t size = file ? fread(bytes, 1, sizeof bytes, file) : 0;

    if (!file || size != 2 * WORDS)
        refuse("--image", "its file can't be read, or doesn't have 128 bytes");
    fclose(file);
    for (int n = 0; n < WORDS; n++)
        x_options.image[n] = (uint16_t)(bytes[2 * n] | bytes[2 * n + 1] << 8);
    x_options.has_image = true;
}

static const char *const options[] = { "--memory", "--link",   "--rxa",      "--address",
                                       "--image",  "--missed", "--registers" };

bool xr_is_option(const char *word)
{
    for (size_t n = 0; n < sizeof options / sizeof *options; n++)
        if (!strcmp(word, options[n]))
            return true;
    return false;
}

static void take(const char *option, const char *value)
{
    size_t size = strlen(xi_options_line);

    if (!strcmp(option, "--memory"))
        x_options.memory = number_of(option, value, 0, 1 << 30);
    else if (!strcmp(option, "--link"))
        x_options.link = strcmp(value, "never") ? (uint32_t)number_of(option, value, 1, 65535) : 0;
    else if (!strcmp(option, "--rxa")) {
        x_options.rxa = (uint32_t)number_of(option, value, 2, 48);
        if (x_options.rxa % 2)
            refuse(option, "its value is an even number from 2 to 48");
    } else if (!strcmp(option, "--missed"))
        x_options.missed = (uint32_t)number_of(option, value, 0, UINT32_MAX);
    else if (!strcmp(option, "--registers"))
        xr_given.registers = number_of(option, value, 0, UINT64_MAX);
    else if (!strcmp(option, "--address"))
        take_address(value);
    else
        take_image(value);
    snprintf(xi_options_line + size, sizeof xi_options_line - size, "%s%s %s", size ? " " : "", option, value);
}

void xr_take_option(const char *option, const char *value)
{
    is_given = true;
    take(option, value);
}

/* Takes the options in a line such as `options --rxa 2`. */
static void take_line(char *line)
{
    static const char blank[] = " \t\r\n";
    char *option = strtok(line, blank), *value;

    while ((option = strtok(NULL, blank)) != NULL) {
        value = strtok(NULL, blank);
        if (!xr_is_option(option) || !value)
            refuse("options", "this line of the schedule has no options of the adapter");
        take(option, value);
    }
}

/* If the first line of a schedule that isn't a comment has options, takes them, unless the words have some. */
void xr_take_schedules_options(const char *path)
{
    char line[LONGEST_LINE];
    FILE *file = is_given || !strcmp(path, "/dev/stdin") ? NULL : fopen(path, "r");

    while (file && fgets(line, sizeof line, file))
        if (!strncmp(line, "options", 7)) {
            take_line(line);
            break;
        } else if (line[0] != '#' && line[0] != '\n')
            break;
    if (file)
        fclose(file);
}
