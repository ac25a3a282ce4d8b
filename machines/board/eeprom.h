/* EECD (13.4.3 of the manual), which the adapter doesn't have: the wires to a 93C46, over the words that the
 * adapter's EERD reads. Of the 93C46's commands, only READ does something. */
#ifndef EEPROM_H
#define EEPROM_H

#include <stdint.h>

/* Reads the words of the adapter's EEPROM, and resets the adapter after that. */
void eeprom_start(void);

uint32_t eecd_read(void);
void eecd_write(uint32_t value);

#endif
