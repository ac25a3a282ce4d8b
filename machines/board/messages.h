/* The messages of QEMU's x-pci-proxy-dev (QEMU 7.2: include/hw/remote/mpqemu-link.h), which passes the accesses of a
 * PCI function to another process. */
#ifndef MESSAGES_H
#define MESSAGES_H

#include <stdbool.h>

/* Reads a message from the connection, does what it asks for, and answers if QEMU waits for an answer. Returns false if
 * QEMU has ended. */
bool messages_answer(int connection);

#endif
