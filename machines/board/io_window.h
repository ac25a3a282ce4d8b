/* The I/O window (13.4.1 names it for CTRL.RST): IOADDR at 0 has the offset of a register, and IODATA at 4 is the
 * register. */
#ifndef IO_WINDOW_H
#define IO_WINDOW_H

#include <stdint.h>

enum { WINDOW_BYTES = 64 };

uint32_t io_window_read(uint32_t offset);
void io_window_write(uint32_t offset, uint32_t value);

#endif
