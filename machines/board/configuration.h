/* The configuration space of the PCI function. */
#ifndef CONFIGURATION_H
#define CONFIGURATION_H

#include <stdbool.h>
#include <stdint.h>

/* `rom` is the size of the option ROM, or 0 if there is none. The space shows the next power of 2, at least 2,048. */
void configuration_start(uint64_t rom);

/* Reads and writes up to four bytes. Bytes outside of the space read as 0. */
uint32_t configuration_read(uint32_t offset, uint32_t size);
void configuration_write(uint32_t offset, uint32_t value, uint32_t size);

/* The addresses of the registers (BAR 0) and of the I/O window (BAR 1), as the guest has set them. */
uint32_t configuration_registers(void);
uint32_t configuration_window(void);

/* Whether the guest has disabled the interrupt line. */
bool configuration_disables_interrupt(void);

/* Sets the level of the interrupt line that the status shows, also while the guest has disabled the line. */
void configuration_set_interrupt(bool level);

/* The number of the interrupt that the machine's firmware or the guest has given to the function. */
uint32_t configuration_interrupt(void);

#endif
