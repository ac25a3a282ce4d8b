/* Makes only the copies of the engines: COUNT times, it copies a frame of LENGTH bytes into a packet buffer, and from
   there into memory, in pieces of at most 256 bytes. For each piece it reads, writes back and offers a descriptor. It
   has no registers and no filter, and checks nothing.

   usage: engines LENGTH COUNT */
#include <stdint.h>
#include <stdio.h>
#include <stdlib.h>
#include <string.h>

#define FRAMES 24
#define PLACE 1518
#define SLOTS 8
#define BUFFER 256

static unsigned char buffered[FRAMES * PLACE];
static unsigned char memory[SLOTS * 16 + SLOTS * BUFFER];

int main(int count_of_words, char **words)
{
    static unsigned char frame[PLACE];
    size_t length = count_of_words > 1 ? strtoull(words[1], NULL, 10) : 0;
    unsigned long long count = count_of_words > 2 ? strtoull(words[2], NULL, 10) : 0, found = 0, bytes = 0;
    if (length == 0 || length > PLACE)
        return 1;
    memset(frame, 0xFF, sizeof frame);
    for (unsigned long long slot = 0; slot < SLOTS; slot++) {
        uint64_t address = SLOTS * 16 + slot * BUFFER;
        memcpy(memory + 16 * slot, &address, 8);
    }
    for (unsigned long long n = 0, slot = 0; n < count; n++) {
        unsigned char *volatile place = buffered + n % FRAMES * PLACE;
        memcpy(place, frame, length);
        for (size_t moved = 0; moved < length; moved += BUFFER, slot++) {
            unsigned char *volatile descriptor = memory + slot % SLOTS * 16;
            size_t left = length - moved, piece = left < BUFFER ? left : BUFFER;
            uint64_t address, report = piece | (uint64_t)(left <= BUFFER ? 3 : 1) << 32, offered = 0;
            uint16_t named;
            memcpy(&address, descriptor, 8);
            memcpy(memory + address, place + moved, piece);
            memcpy(descriptor + 8, &report, 8);
            memcpy(&named, descriptor + 8, 2);
            found += memory[address] == 0xFF && left <= BUFFER;
            bytes += named;
            memcpy(descriptor + 8, &offered, 8);
        }
    }
    printf("frames %llu bytes %llu\n", found, bytes);
    return 0;
}
