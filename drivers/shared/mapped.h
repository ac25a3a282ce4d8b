/* The adapter's registers as memory, for drivers that access them by readl and writel. What the explorer's adapter
 * doesn't have is here: EECD, with the EEPROM of machines/board; SWSM, which is read as it was written; and the window
 * in I/O space. A test calls eeprom_start at its start. */
#ifndef MAPPED_H
#define MAPPED_H
#include <eeprom.h>

#define MAPPED_REGISTERS ((void *)0x300000000000)
uint32_t readl(const volatile void *at);
void writel(uint32_t value, volatile void *at);
/* The window to registers in I/O space: IOADDR and IODATA. */
void outl(uint32_t value, unsigned long port);
#endif
