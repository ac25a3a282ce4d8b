/* What a student's driver gets, and the three functions that it has. */
#ifndef E1000_H
#define E1000_H
#include <stdbool.h>
#include <stddef.h>
#include <stdint.h>

enum { RX_SIZE = 16, TX_SIZE = 16 };
enum { ICR = 0xC0, RDH = 0x2810, RDT = 0x2818, TDH = 0x3810, TDT = 0x3818 }; /* offsets of registers */
enum { TX_EOP = 1, TX_RS = 8, TX_DD = 1, RX_DD = 1 };

struct tx_descriptor {
    uint64_t address;
    uint16_t length;
    uint8_t cso, command, status, css;
    uint16_t special;
};

struct rx_descriptor {
    uint64_t address;
    uint16_t length, checksum;
    uint8_t status, errors;
    uint16_t special;
};

/* The state of the driver. The rings and buffers are in the host's memory. When the adapter is initialized, each slot of
 * the transmit ring is done, and each slot of the receive ring has a buffer; RDT is 15. Keep nothing in other variables. */
struct e1000 {
    volatile struct tx_descriptor *tx_ring;
    volatile struct rx_descriptor *rx_ring;
    uint8_t *tx_buffers[TX_SIZE], *rx_buffers[RX_SIZE];
};

/* The student's functions. e1000_transmit puts a buffer in the ring and returns 0, or returns -1 if the ring is full.
 * The driver frees the buffer after the frame was sent. e1000_recv passes each received frame to net_rx, in its buffer.
 * e1000_interrupt handles an interrupt. */
int e1000_transmit(struct e1000 *e1000, uint8_t *buffer, unsigned length);
void e1000_recv(struct e1000 *e1000);
void e1000_interrupt(struct e1000 *e1000);

/* What the functions call. net_rx takes the buffer over. */
uint32_t reg_read(uint32_t offset);
void reg_write(uint32_t offset, uint32_t value);
uint8_t *buffer_alloc(void);
void buffer_free(uint8_t *buffer);
uint64_t address_of(const uint8_t *buffer);
void net_rx(uint8_t *buffer, unsigned length);

#endif
