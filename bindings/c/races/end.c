/* Why a run has failed. */
#define _GNU_SOURCE
#include "races.h"
#include <stdarg.h>
#include <string.h>
#include <sys/wait.h>

enum { LONGEST_FAULT = 127 };
static char text[512];

/* The text of a fault, which remains until the next one. */
const char *xr_fault(const char *format, ...)
{
    va_list words;

    va_start(words, format);
    vsnprintf(text, sizeof text, format, words);
    va_end(words);
    for (char *at = text; *at; at++)
        if (*at == '\r' || *at == '\t')
            *at = ' ';
    text[LONGEST_FAULT] = 0;
    return text;
}

/* The last line that isn't empty. Returns its size. */
static size_t last_line(const char **errors, size_t size)
{
    const char *begin;

    while (size && (unsigned char)(*errors)[size - 1] <= ' ')
        size--;
    begin = memrchr(*errors, '\n', size);
    size -= begin ? (size_t)(begin + 1 - *errors) : 0;
    *errors = begin ? begin + 1 : *errors;
    return size;
}

/* The fault of a COMMAND that has ended with this status; NULL if it has passed. Its last line on standard error is a
 * part of it. */
const char *xr_status_fault(int status, const char *errors, size_t size)
{
    char kind[64];

    if (WIFEXITED(status) && WEXITSTATUS(status) == 0)
        return NULL;
    if (WIFEXITED(status))
        snprintf(kind, sizeof kind, "exit status %d", WEXITSTATUS(status));
    else
        snprintf(kind, sizeof kind, "%s", xi_ended_by(WTERMSIG(status)));
    size = last_line(&errors, size);
    return xr_fault(size ? "%s: %.*s" : "%s", kind, (int)size, errors);
}
