/* The frames of a run, and the calls of the test that look at them. */
#include "stubs.h"
#include "inside.h"
#include <string.h>

#define S xi_state

/* Appends a frame with its fate. The program ends if there is no room. */
void xi_add_frame(struct frames *frames, const void *bytes, size_t count, uint32_t fate)
{
    uint32_t at = frames->begin[frames->count];

    if (frames->count == MOST_FRAMES || count > MOST_BYTES - at)
        xi_die("a run has more than 256 frames, or more than 128 KiB of them: compare them, and call x_forget");
    memcpy(frames->bytes + at, bytes, count);
    frames->fate[frames->count++] = (uint8_t)fate;
    frames->begin[frames->count] = at + (uint32_t)count;
}

size_t xi_take_frame(const struct frames *frames, unsigned number, void *into, size_t room)
{
    bool is_inside = x_inside();
    size_t count = number < frames->count ? frames->begin[number + 1] - frames->begin[number] : 0;

    xi_pause();
    memcpy(into, frames->bytes + frames->begin[number < frames->count ? number : 0], count < room ? count : room);
    if (is_inside)
        xi_back();
    return count;
}

/* Removes all frames, as at the start of a run. */
static void clear(struct frames *frames)
{
    memset(frames->bytes, 0, frames->begin[frames->count]);
    memset(frames->begin, 0, (frames->count + 1) * sizeof *frames->begin);
    memset(frames->fate, 0, frames->count);
    frames->count = 0;
}

unsigned x_put_count(void)
{
    return (unsigned)xi_answer(S->put.count);
}

size_t x_put(unsigned number, void *into, size_t room)
{
    xi_need(into || !room, "x_put: `into` is NULL");
    return xi_take_frame(&S->put, number, into, room);
}

unsigned x_arrived_count(void)
{
    return (unsigned)xi_answer(S->arrived.count);
}

size_t x_arrived(unsigned number, uint32_t *fate, void *into, size_t room)
{
    xi_need(fate, "x_arrived: `fate` is NULL"), xi_need(into || !room, "x_arrived: `into` is NULL");
    *fate = number < S->arrived.count ? S->arrived.fate[number] : NIC_REFUSED;
    return xi_take_frame(&S->arrived, number, into, room);
}

void x_forget(void)
{
    xi_pause();
    clear(&S->put), clear(&S->arrived);
    if (S->offered == S->offers.count)
        clear(&S->offers), S->offered = 0;
    xi_back();
}
