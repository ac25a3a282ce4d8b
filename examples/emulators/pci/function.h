/* A PCI function whose adapter is an 82540EM or of its kin: its registers, its configuration space, its interrupt, and
 * memory that it reaches by DMA. vfio.c or uio.c starts it. */
#ifndef FUNCTION_H
#define FUNCTION_H

#include <stdbool.h>
#include <stdint.h>

enum { REGISTER_BYTES = 0x20000, MEMORY_BYTES = 2 << 20 };

struct function {
    volatile uint8_t *registers;
    uint8_t *memory;
    uint64_t bus_address; /* where the adapter finds the first byte of the memory */
    int interrupt;        /* a file that can be read after an interrupt */
    int configuration;    /* the file of the configuration space, which begins at `configuration_begin` */
    uint64_t configuration_begin;
    bool (*await_interrupt)(int milliseconds);
};

extern struct function function;

/* Ends the program if the function can't be used: it isn't there, another kernel driver than `driver` holds it, or its
 * part is unknown. With `any`, the part may be another one than the 82540EM. */
void function_check(const char *name, const char *driver, bool any);

/* Starts the function by VFIO: an IOMMU maps the first `mapped` bytes of the memory to bus address 0. */
void vfio_start(const char *name, uint64_t mapped);

/* Starts the function by UIO: the memory is a huge page at any bus address. */
void uio_start(const char *name);

/* Two bytes of the configuration space */
enum { COMMAND = 4, STATUS = 6 };
uint16_t configuration_read(unsigned offset);
void configuration_write(unsigned offset, uint16_t value);

enum { COMMAND_MEMORY = 1 << 1, COMMAND_MASTER = 1 << 2, COMMAND_NO_INTERRUPT = 1 << 10, STATUS_INTERRUPT = 1 << 3 };

/* Sets whether the adapter may access memory from now on (bus mastering). */
void function_master(bool may);

/* Registers */
uint32_t register_read(uint32_t offset);
void register_write(uint32_t offset, uint32_t value);

/* Opens a file of the function in sysfs. */
int function_open(const char *name, const char *file);

/* Prints a message to standard error, turns bus mastering off, and ends the program with status 3. */
_Noreturn void fail(const char *form, ...) __attribute__((format(printf, 1, 2)));

#endif
