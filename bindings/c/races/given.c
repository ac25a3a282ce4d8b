/* The words of tools/races. Those of the search are read as the explorer's are. */
#include "races.h"
#include <stdlib.h>
#include <string.h>

static const char help[] =
    "Finds races between a driver and the modelled adapter.\n"
    "\n"
    "usage: tools/races [OPTION..] -- COMMAND..\n"
    "\n"
    "COMMAND is a test of your driver. It writes requests of `nicbench serve` to its standard output,\n"
    "and reads the answers from its standard input. A run fails if the exit status of COMMAND isn't 0,\n"
    "or if COMMAND takes too long. A schedule that fails is made smaller, and printed.\n"
    "\n"
    "  --runs N             draws N schedules (default 1000), after all of one deviation if there are few\n"
    "  --seed N             the seed of the first one (default 1); the next ones have the next seeds\n"
    "  --pct N              draws by priorities (PCT): the actor with the highest one goes first. At up\n"
    "                       to N - 1 random events, the actor of the event gets one below all first ones\n"
    "  --explore N          tries all schedules of up to N deviations instead\n"
    "  --explore every      tries every schedule, with any number of deviations: of a very small test\n"
    "  --states N           ends a search that has more states (default 20000000)\n"
    "  --all                goes on after a schedule that fails, and prints all that fail, with\n"
    "                       --explore N by kinds\n"
    "  --holds              also leaves out steps of the EEPROM and the PHY, and plays early ones\n"
    "  --jobs N             N runs at once, at most 64 (default: the number of processors)\n"
    "  --seconds N          a run that doesn't end in N seconds fails (default 10)\n"
    "  --replay FILE        plays one schedule; with --log, prints each access and each step\n"
    "  --shrink FILE        plays one schedule, and if it fails, makes it smaller\n"
    "  --out PATH           stores the schedule that was found in this file, or in schedule.txt of a\n"
    "                       folder PATH/\n"
    "  --html FILE          stores a page of the run that was found or replayed, for a browser\n"
    "  --rows near|all      the rows of the chart of this run: near the deviations, by default, or all\n"
    "  --color auto|always|never   its colors (default auto: on a terminal)\n"
    "  --json               prints one JSON object instead of the text; with --replay FILE --log, first a\n"
    "                       line of JSON for each access and step, which tools/run_chart draws\n"
    "\n"
    "The adapter, as in `nicbench serve`: --memory BYTES, --link STEPS or never, --rxa KILOBYTES,\n"
    "--address MAC, --image FILE, --missed N, --registers ADDR. A line `options` of a schedule has such\n"
    "options, too.\n"
    "\n"
    "Exit status: 0 if no schedule fails, 1 if one fails, 2 if a word or a schedule is invalid, 3 if\n"
    "COMMAND can't be run or the search can't go on, 4 if nothing was searched, 5 if a run of the\n"
    "search isn't as its schedule played from nothing. If a signal ends the search, 128 and its number:\n"
    "130 after Ctrl-C, 143 after SIGTERM.\n";

/* Options that tools/races had, or that another program has, and what to use. */
static const struct { const char *name, *instead; } gone[] = {
    { "--by-name", "schedules have places only; `nicbench serve --schedule` still plays lines with numbers" },
    { "--any-access", "a deviation is played at its place, and a replay tells the first access that has another name" },
    { "--reached", "the result has the kinds of places before which no deviation did anything" },
    { "--never", "the result has the kinds of places before which no deviation did anything" },
    { "--shard", "on several machines, give each its own --seed, or another test" },
    { "--server", "the adapter is in this program; `nicbench serve --schedule` plays a schedule by another one" },
    { "--from", "--explore tries all places" },
    { "--to", "--explore tries all places" },
    { "--first", "drawn runs begin with all schedules of one deviation; --explore 1 tries these alone" },
    { "--smaller", "all schedules with fewer deviations are tried; --seconds and Ctrl-C end a search" },
    { "--apart", "each run has a new process, unless COMMAND asks for its next run by `reset`" },
    { "--no-digest", "known states are only used where they are compared in full" },
    { "--options", "give the options of the adapter themselves, such as --rxa 2" },
    { "--check", "each run is played from nothing" },
    { "--again", "each run is played from nothing" },
    { "--serve", "the lines of COMMAND are answered by the same player" },
    { "--pipe", "COMMAND has this word: tools/races -- ./test --pipe" },
};

struct races xr_given = { .registers = 0xFEB00000, .rows = "near", .color = "auto" };

static _Noreturn void refuse(const char *word, const char *why)
{
    fprintf(stderr, "%s: %s: %s\nFor more information, try '--help'.\n", xi_program, word, why);
    exit(USAGE);
}

static void refuse_gone(const char *word)
{
    for (size_t n = 0; n < sizeof gone / sizeof *gone; n++)
        if (!strcmp(word, gone[n].name))
            refuse(word, gone[n].instead);
}

static void take_jobs(const char *value)
{
    char *end = NULL;
    unsigned long count = value && *value >= '0' && *value <= '9' ? strtoul(value, &end, 10) : 0;

    if (!end || *end || !count || count > MOST_JOBS)
        refuse("--jobs", "its value is a number from 1 to 64");
    xr_given.jobs = (unsigned)count;
}

static void append(char c)
{
    size_t size = strlen(xi_command);

    if (size + 1 < sizeof xi_command)
        xi_command[size] = c, xi_command[size + 1] = 0;
}

/* Appends a word of COMMAND, as a shell reads it. */
static void append_word(const char *word)
{
    static const char plain[] = "ABCDEFGHIJKLMNOPQRSTUVWXYZabcdefghijklmnopqrstuvwxyz0123456789%+,-./:=@_";
    bool is_plain = *word && word[strspn(word, plain)] == 0;

    if (!is_plain)
        append('\'');
    for (; *word; word++)
        if (*word == '\'')
            append('\''), append('\\'), append('\''), append('\'');
        else
            append(*word);
    if (!is_plain)
        append('\'');
}

static void name_command(void)
{
    xi_command[0] = 0;
    for (char **word = xr_given.command; *word; word++) {
        if (word != xr_given.command)
            append(' ');
        append_word(*word);
    }
}

/* Takes an option of the chart. Returns whether it is one. */
static bool is_of_chart(const char *word, const char *value)
{
    if (!strcmp(word, "--rows")) {
        if (!value || (strcmp(value, "near") && strcmp(value, "all")))
            refuse(word, "its value is near or all");
        xr_given.rows = value;
    } else if (!strcmp(word, "--color")) {
        if (!value || (strcmp(value, "auto") && strcmp(value, "always") && strcmp(value, "never")))
            refuse(word, "its value is auto, always or never");
        xr_given.color = value;
    } else
        return false;
    return true;
}

/* Takes an option that isn't one of the search, with its value. Returns whether there was one. */
static bool takes(char **words, int *n, int end)
{
    const char *word = words[*n], *value = *n + 1 < end ? words[*n + 1] : NULL;
    bool is_jobs = !strcmp(word, "--jobs"), is_shrink = !strcmp(word, "--shrink");

    refuse_gone(word);
    if (is_of_chart(word, value))
        return ++*n, true;
    if (!is_jobs && !is_shrink && !xr_is_option(word))
        return false;
    if (!value)
        refuse(word, "it has no value");
    if (is_jobs)
        take_jobs(value);
    else if (is_shrink)
        xr_given.shrink = value;
    else
        xr_take_option(word, value);
    ++*n;
    return true;
}

void xr_take_words(int count, char **words)
{
    char **others = calloc((size_t)count + 3, sizeof *others);
    int end = 1, other = 1;

    if (!others)
        xi_die("memory is refused");
    others[0] = words[0];
    while (end < count && strcmp(words[end], "--"))
        end++;
    xr_given.jobs = xr_processors(NULL);
    for (int n = 1; n < end; n++)
        if (!takes(words, &n, end))
            others[other++] = words[n];
    if (other == 1) /* so that no variable of the environment stands for options */
        others[other++] = "--seed", others[other++] = "1";
    if (strncmp(others[1], "-", 1))
        refuse(others[1], "write -- before COMMAND");
    xi_help = help;
    xi_take_words(other, others);
    if (end + 1 >= count)
        refuse("--", "COMMAND is missing");
    xr_given.command = words + end + 1;
    name_command();
    if (xr_given.shrink && (xi_given.replay || xi_given.depth != DRAWN))
        refuse("--shrink", "it goes without --replay and --explore");
    if (xi_given.replay || xr_given.shrink)
        xr_take_schedules_options(xi_given.replay ? xi_given.replay : xr_given.shrink);
}
