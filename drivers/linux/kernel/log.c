#include "test.h"
#include <nic82540em_explore.h>
#include <stdio.h>
#include <stdlib.h>

void kernel_fails(const char *format, ...)
{
    va_list list;

    if (kernel.fault[0])
        return;
    va_start(list, format);
    vsnprintf(kernel.fault, sizeof kernel.fault, format, list);
    va_end(list);
}

/* What e1000_reset_task logs is an error by its level, but not a fault. */
static const char *const no_faults[] = { "Reset adapter\n" };

void kernel_log(int level, const char *format, ...)
{
    bool is_fault = level <= 4;
    va_list list;

    for (size_t n = 0; n < sizeof no_faults / sizeof *no_faults; n++)
        is_fault &= strcmp(format, no_faults[n]) != 0;
    if (is_fault)
        kernel_fails("the driver logs: %.*s", (int)strcspn(format, "\n"), format);
    if (!getenv("KERNEL_LOG"))
        return;
    va_start(list, format);
    printf("<%d> ", level), vprintf(format, list);
    va_end(list);
}
