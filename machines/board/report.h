/* Messages of the board on standard error, and the end of the program after an error. */
#ifndef REPORT_H
#define REPORT_H

/* Prints a line that begins with `board:`. */
void report(const char *form, ...) __attribute__((format(printf, 1, 2)));

/* Prints a line, and ends the program with status 1. */
void fail(const char *form, ...) __attribute__((format(printf, 1, 2), noreturn));

#endif
