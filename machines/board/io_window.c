#include "io_window.h"

#include "adapter.h"
#include "registers.h"

enum { IOADDR = 0, IODATA = 4 };

static uint32_t address;

uint32_t io_window_read(uint32_t offset)
{
    if (offset == IOADDR)
        return address;
    return offset == IODATA && address < REGISTER_BYTES ? registers_read(address & ~3u) : 0;
}

void io_window_write(uint32_t offset, uint32_t value)
{
    if (offset == IOADDR)
        address = value;
    else if (offset == IODATA && address < REGISTER_BYTES)
        registers_write(address & ~3u, value);
}
