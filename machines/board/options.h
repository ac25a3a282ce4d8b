/* The words of the board's command line (board.c). */
#ifndef OPTIONS_H
#define OPTIONS_H

#include <stdbool.h>
#include <stdint.h>

#include "echo_rounds.h"

struct options {
    const char *nicbench, *socket, *tap, *folder, *trace, *only;
    char **qemu;
    uint64_t memory, rom;
    uint32_t seed, only_round;
    struct echo_options echo; /* its last round is 0 if there are no such rounds */
    bool at_once;
};

/* Reads the words. Ends the program if they are wrong. */
void options_read(int count, char **words, struct options *options);

#endif
