/* The network interface, and the kernel's log. */
#ifndef INTERFACE_H
#define INTERFACE_H

#include <stdint.h>

/* The board's registers, in the memory of the interface's PCI function. Ends the program if they can't be mapped. */
volatile uint32_t *board_registers(const char *interface);

/* Takes the interface down and up, and waits for the link, at most ten seconds. */
void restart_interface(const char *interface);

/* Opens the kernel's log, and skips what is in it. */
void kernel_log_start(void);

/* Skips what is in the kernel's log. */
void kernel_log_skip(void);

/* The number of warnings and errors in the kernel's log since the last call, or since `kernel_log_skip`. */
unsigned kernel_log_warnings(void);

/* The text of the first warning or error that `kernel_log_warnings` found since `kernel_log_skip`, or an empty text. */
const char *kernel_log_first(void);

#endif
