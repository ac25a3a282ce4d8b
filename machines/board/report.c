#include "report.h"

#include <stdarg.h>
#include <stdio.h>
#include <stdlib.h>

static void print(const char *form, va_list arguments)
{
    fputs("board: ", stderr);
    vfprintf(stderr, form, arguments);
    fputc('\n', stderr);
}

void report(const char *form, ...)
{
    va_list arguments;

    va_start(arguments, form);
    print(form, arguments);
    va_end(arguments);
}

void fail(const char *form, ...)
{
    va_list arguments;

    va_start(arguments, form);
    print(form, arguments);
    va_end(arguments);
    exit(1);
}
