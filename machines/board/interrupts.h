/* The interrupt line. QEMU 7.2 takes interrupts of such a function over KVM only, so the board sets the pin of the
 * machine's interrupt controller by qtest. */
#ifndef INTERRUPTS_H
#define INTERRUPTS_H

#include <stdbool.h>

/* `path` is QEMU's socket for qtest. */
void interrupts_start(const char *path);

/* Sets the pin to the level of the adapter's line, or to 0 if the guest has disabled the interrupt. If `waits`, the
 * guest has the level when the call returns. */
void interrupts_update(bool waits);

/* The descriptor of the socket, or -1 before the first change; and what to do when it can be read. */
int interrupts_socket(void);
void interrupts_answers(void);

#endif
