/* The adapter that the board carries, with memory of its own. There are two implementations, and a board is linked
 * with one of them: adapter_library.c calls the library in this process, and adapter_serve.c asks `nicbench serve`.
 */
#ifndef ADAPTER_H
#define ADAPTER_H

#include <stdbool.h>
#include <stddef.h>
#include <stdint.h>

enum {
    CTRL = 0x0000,
    EECD = 0x0010,
    EERD = 0x0014,
    MDIC = 0x0020,
    RCTL = 0x0100,
    TCTL = 0x0400,
    RDBAL = 0x2800,
    RDBAH = 0x2804,
    RDLEN = 0x2808,
    RDH = 0x2810,
    RDT = 0x2818,
    TDBAL = 0x3800,
    TDBAH = 0x3804,
    TDLEN = 0x3808,
    TDH = 0x3810,
    TDT = 0x3818,
    REGISTER_BYTES = 0x20000
};

#define CTRL_RST (1u << 26)
#define ENABLE (1u << 1) /* RCTL.EN, TCTL.EN */
#define RCTL_SECRC (1u << 26)

enum { FRAME_BYTES = 1518 };

/* Steps, their outcomes and the fates of frames have the numbers of nic82540em.h (docs/ADAPTER.md, "Steps"). */
enum kind { TXTAKE, TXPUT, RXDATA, RXDONE, EEPROM, PHY, KINDS };
enum outcome { NOTHING, TOOK, PUT, WIREFULL, PART, MOVED, DONE, TICKED, FAULT, OUTCOMES };
enum fate { OFF, ILLEGAL, FILTERED, MISSED, STORED, FATES };

extern const char *const kind_names[KINDS];
extern const char *const outcome_names[OUTCOMES];
extern const char *const fate_names[FATES];

/* Starts the adapter with memory of zeros. `program` is the path of nicbench; the library needs none. */
void adapter_start(const char *program, uint64_t memory);

uint32_t adapter_read(uint32_t offset);
void adapter_write(uint32_t offset, uint32_t value);

/* Whether the adapter's memory has all these bytes. The next two calls need bytes for which this holds. */
bool adapter_holds(uint64_t address, uint64_t size);
void adapter_load(uint64_t address, void *into, uint32_t size);
void adapter_store(uint64_t address, const void *bytes, uint32_t size);

enum outcome adapter_step(enum kind kind);
enum fate adapter_arrive(const uint8_t *frame, uint32_t size);

/* Takes the oldest frame off the wire. Returns its size, or 0 if there is none. `into` has room for FRAME_BYTES. */
uint32_t adapter_take_sent(uint8_t *into);

/* Whether the interrupt line is asserted. */
bool adapter_line(void);

/* The number of requests to the adapter's process so far; 0 for the library. */
uint64_t adapter_requests(void);

#endif
