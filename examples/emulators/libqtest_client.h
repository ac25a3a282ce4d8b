/* A client of QEMU's qtest with the calls of QEMU's libqtest that tests of a PCI device need.
 *
 * A test that includes this file runs without QEMU's sources. With -DLIBQTEST='"libqtest.h"' and QEMU's libqtest the same
 * test runs on that. A call that fails prints why, and ends the test with status 1.
 */
#ifndef LIBQTEST_CLIENT_H
#define LIBQTEST_CLIENT_H

#include <stdbool.h>
#include <stddef.h>
#include <stdint.h>

typedef struct QTestState QTestState;

/* Starts the program of the variable QTEST_QEMU_BINARY with these further words of QEMU's command line. */
QTestState *qtest_init(const char *extra_args);
QTestState *qtest_initf(const char *format, ...) __attribute__((format(printf, 1, 2)));
/* Ends the program, which must end with status 0. */
void qtest_quit(QTestState *s);

/* I/O ports */
uint8_t qtest_inb(QTestState *s, uint16_t port);
uint16_t qtest_inw(QTestState *s, uint16_t port);
uint32_t qtest_inl(QTestState *s, uint16_t port);
void qtest_outb(QTestState *s, uint16_t port, uint8_t value);
void qtest_outw(QTestState *s, uint16_t port, uint16_t value);
void qtest_outl(QTestState *s, uint16_t port, uint32_t value);

/* Registers and memory */
uint8_t qtest_readb(QTestState *s, uint64_t address);
uint16_t qtest_readw(QTestState *s, uint64_t address);
uint32_t qtest_readl(QTestState *s, uint64_t address);
uint64_t qtest_readq(QTestState *s, uint64_t address);
void qtest_writeb(QTestState *s, uint64_t address, uint8_t value);
void qtest_writew(QTestState *s, uint64_t address, uint16_t value);
void qtest_writel(QTestState *s, uint64_t address, uint32_t value);
void qtest_writeq(QTestState *s, uint64_t address, uint64_t value);
void qtest_memread(QTestState *s, uint64_t address, void *data, size_t size);
void qtest_memwrite(QTestState *s, uint64_t address, const void *data, size_t size);
void qtest_memset(QTestState *s, uint64_t address, uint8_t pattern, size_t size);

/* Interrupts. qtest_get_irq returns whether the interrupt with this number is raised. */
void qtest_irq_intercept_in(QTestState *s, const char *path);
void qtest_irq_intercept_out(QTestState *s, const char *path);
bool qtest_get_irq(QTestState *s, int number);

/* Moves virtual time forward by `step` nanoseconds, and returns the new time in nanoseconds. */
int64_t qtest_clock_step(QTestState *s, int64_t step);

#endif
