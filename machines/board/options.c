#include "options.h"

#include <getopt.h>
#include <inttypes.h>
#include <stdio.h>
#include <stdlib.h>

#include "report.h"

static const struct option all[] = { { "nicbench", required_argument, NULL, 'n' },
                                     { "memory", required_argument, NULL, 'm' },
                                     { "rom", required_argument, NULL, 'r' },
                                     { "socket", required_argument, NULL, 'q' },
                                     { "tap", required_argument, NULL, 'p' },
                                     { "seed", required_argument, NULL, 's' },
                                     { "out", required_argument, NULL, 'o' },
                                     { "echo", required_argument, NULL, 'e' },
                                     { "only", required_argument, NULL, 'y' },
                                     { "trace", required_argument, NULL, 't' },
                                     { "at-once", no_argument, NULL, 'a' },
                                     { NULL, 0, NULL, 0 } };

static uint64_t number_in(const char *word)
{
    char *end;
    uint64_t number = strtoull(word, &end, 0);

    if (*word == 0 || *end != 0)
        fail("%s isn't a number", word);
    return number;
}

static void read_rounds(struct echo_options *echo, const char *word)
{
    if (sscanf(word, "%" SCNu32 ",%" SCNu32 ",%" SCNu32 ",%" SCNu32, &echo->first, &echo->last, &echo->most,
               &echo->stop) != 4)
        fail("%s aren't four numbers", word);
}

static void read_only(struct options *options, const char *word)
{
    int length;

    if (sscanf(word, "%" SCNu32 ",%n", &options->only_round, &length) != 1)
        fail("%s isn't a round and a file", word);
    options->only = word + length;
}

static void read_option(struct options *options, int option, char *word)
{
    switch (option) {
    case 'n':
        options->nicbench = word;
        break;
    case 'm':
        options->memory = number_in(word);
        break;
    case 'r':
        options->rom = number_in(word);
        break;
    case 'q':
        options->socket = word;
        break;
    case 'p':
        options->tap = word;
        break;
    case 's':
        options->seed = (uint32_t)number_in(word);
        break;
    case 'e':
        read_rounds(&options->echo, word);
        break;
    case 'a':
        options->at_once = true;
        break;
    case 'o':
        options->folder = word;
        break;
    case 'y':
        read_only(options, word);
        break;
    case 't':
        options->trace = word;
        break;
    default:
        exit(2);
    }
}

void options_read(int count, char **words, struct options *options)
{
    int option;

    while ((option = getopt_long(count, words, "+", all, NULL)) >= 0)
        read_option(options, option, optarg);
    if (optind == count || options->socket == NULL)
        fail("--socket, or the words of QEMU, are missing");
    options->echo.seed = options->seed;
    options->qemu = words + optind;
}
