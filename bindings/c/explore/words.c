/* What the words of the command ask for. */
#include "inside.h"
#include <errno.h>
#include <stdio.h>
#include <stdlib.h>
#include <string.h>

static const char help[] =
    "Searches the schedules of this test: steps of the adapter between the accesses of the driver.\n"
    "\n"
    "  --explore every      tries every schedule, with any number of deviations: of a small test, in seconds\n"
    "  --explore N          tries all schedules of up to N deviations\n"
    "  --runs N             draws N schedules, after all of one deviation, and of two and three if there are few\n"
    "                       states (default 1000)\n"
    "  --seed N             the seed of the first one (default 1)\n"
    "  --pct N              draws by priorities (PCT): the actor with the highest one goes first. At up to N - 1\n"
    "                       random events, the actor of the event gets one below all first ones\n"
    "  --all                goes on after a schedule that fails, and prints all that fail, with --explore N by kinds\n"
    "  --holds              also leaves out steps of the EEPROM, the PHY and x_step, and plays early ones of the\n"
    "                       EEPROM and the PHY\n"
    "  --states N           ends a search that has more states (default 20000000)\n"
    "  --seconds N          a run that doesn't end in N seconds fails (default 60)\n"
    "  --replay FILE        plays one schedule; with --log, prints each access and each step; with --log --json, prints\n"
    "                       a line of JSON for each, from which tools/run_chart draws charts\n"
    "  --html FILE          stores a page of the schedule that was found, or of that of --replay: step through the run\n"
    "                       in a browser\n"
    "  --serve PROGRAM      also plays the schedule that is printed, or that of --replay, by PROGRAM serve: its\n"
    "                       player of schedules is proved\n"
    "  --out PATH           stores the schedule that was found in this file, or in schedule.txt of a folder PATH/\n"
    "  --json               prints one JSON object instead of the text\n"
    "  --check              plays the drawn runs from saved states and from nothing, and compares all answers\n"
    "  --again              saves no states: plays each run from nothing\n"
    "  --pipe               sends requests of `nicbench serve`, such as tools/races answers\n"
    "\n"
    "Without options, NIC_EXPLORE (N, every or draw:N), NIC_REPLAY, NIC_OUT, NIC_SERVE and NIC_HTML are used.\n"
    "Words before the first option belong to the test. Exit status: 0 if no schedule fails, 1 if one fails, 2 if a word or a\n"
    "schedule is invalid, 3 if the search can't go on, 4 if nothing was searched, 5 if a run of the search isn't as its\n"
    "schedule played from nothing. If a signal ends the search, 128 and its number: 130 after Ctrl-C, 143 after\n"
    "SIGTERM.\n";

const char *xi_program = "explore", *xi_help = help;
bool xi_has_command;
struct given xi_given = { .depth = DRAWN, .runs = 1000, .seed = 1, .states = 20000000, .seconds = 60 };
char xi_command[1024], xi_options_line[512];

static _Noreturn void refuse(const char *word, const char *why)
{
    fprintf(stderr, "%s: %s: %s\nFor more information, try '--help'.\n", xi_program, word, why);
    exit(USAGE);
}

static uint64_t number_of(const char *option, const char *word, uint64_t most)
{
    char *end = NULL;
    uint64_t value;

    errno = 0, value = word && *word >= '0' && *word <= '9' ? strtoull(word, &end, 10) : 0;
    if (!end || *end || errno || value > most)
        refuse(option, "its value isn't a number, or is too great");
    return value;
}

static int depth_of(const char *option, const char *word)
{
    return word && !strcmp(word, "every") ? EVERY : (int)number_of(option, word, DEEPEST);
}

static void from_variables(void)
{
    const char *explore = getenv("NIC_EXPLORE");

    if (explore && !strncmp(explore, "draw:", 5))
        xi_given.runs = number_of("NIC_EXPLORE", explore + 5, 1000000000);
    else if (explore)
        xi_given.depth = depth_of("NIC_EXPLORE", explore);
    xi_given.replay = getenv("NIC_REPLAY"), xi_given.out = getenv("NIC_OUT");
    xi_given.serve = getenv("NIC_SERVE"), xi_given.html = getenv("NIC_HTML");
}

static bool is_flag(const char *word)
{
    const struct { const char *name; bool *flag; } flags[] = {
        { "--holds", &xi_given.holds }, { "--json", &xi_given.json },
        { "--check", &xi_given.check }, { "--again", &xi_given.again }, { "--pipe", &xi_given.pipe },
        { "--all", &xi_given.all }, { "--log", &xi_given.log } };

    for (size_t n = 0; n < sizeof flags / sizeof *flags; n++)
        if (!strcmp(word, flags[n].name))
            return *flags[n].flag = true;
    return false;
}

static void take_value(const char *option, const char *value)
{
    static const char *const options[] = { "--explore", "--runs", "--seed", "--states", "--replay", "--out", "--pct",
                                           "--serve", "--seconds", "--html" };
    bool is_known = false;

    for (size_t n = 0; n < sizeof options / sizeof *options; n++)
        is_known |= !strcmp(option, options[n]);
    if (!is_known)
        refuse(option, "there is no such option");
    if (!value)
        refuse(option, "it has no value");
    if (!strcmp(option, "--explore"))
        xi_given.depth = depth_of(option, value);
    else if (!strcmp(option, "--runs"))
        xi_given.runs = number_of(option, value, 1000000000);
    else if (!strcmp(option, "--seed"))
        xi_given.seed = number_of(option, value, UINT64_MAX / 2);
    else if (!strcmp(option, "--states"))
        xi_given.states = number_of(option, value, UINT64_MAX / 2);
    else if (!strcmp(option, "--replay"))
        xi_given.replay = value;
    else if (!strcmp(option, "--pct")) {
        xi_given.pct = (unsigned)number_of(option, value, DEEPEST);
        if (!xi_given.pct)
            refuse(option, "its value is at least 1");
    } else if (!strcmp(option, "--seconds")) {
        xi_given.seconds = (unsigned)number_of(option, value, 1000000);
        if (!xi_given.seconds)
            refuse(option, "its value is at least 1");
    } else if (!strcmp(option, "--serve"))
        xi_given.serve = value;
    else if (!strcmp(option, "--html"))
        xi_given.html = value;
    else
        xi_given.out = value;
}

void xi_take_words(int count, char **words)
{
    size_t size = 0;
    int n = 0;

    for (int m = 1; m < count; m++)
        if (!strcmp(words[m], "--help") || !strcmp(words[m], "-h")) {
            fputs(xi_help, stdout);
            exit(PASSES);
        }
    while (n < count && strncmp(words[n], "--", 2)) {
        size += (size_t)snprintf(xi_command + size, sizeof xi_command - size, "%s%s", n ? " " : "", words[n]);
        if (size >= sizeof xi_command)
            size = sizeof xi_command - 1;
        n++;
    }
    if (n == count)
        from_variables();
    for (; n < count; n++) {
        if (!is_flag(words[n]))
            take_value(words[n], n + 1 < count ? words[n + 1] : NULL), n++;
    }
    if (xi_given.log && !xi_given.replay)
        refuse("--log", "it needs --replay");
    if (xi_given.html && xi_given.pipe)
        refuse("--html", "it goes without --pipe");
    if (xi_given.all && xi_given.depth == EVERY)
        refuse("--all", "with --explore, it needs a number: of every schedule, more may fail than can be listed");
}
