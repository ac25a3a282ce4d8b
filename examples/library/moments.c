/* A driver reads a word of the EEPROM, and gives up after 4 reads of EERD. The test chooses the word, and the moment at
 * which the EEPROM answers: never, after the write, before a read, at random, or as a schedule states. */
#include <inttypes.h>
#include <nic82540em.h>
#include <stdio.h>

enum { MOST_READS = 4, WAYS = 6 };

static const char *const ways[] = { "no steps", "ticks", "pace", "schedule", "interleave", "play" };
static const char text[] = "1.1 choose 2 before choose\n"
                           "1.3 hold eeprom before read EERD\n"
                           "1.4 hold eeprom before read EERD\n";

/* Chooses the moments of steps. Returns false if a call is refused. */
static bool choose_moments(struct nic82540em *nic, int way)
{
    switch (way) {
    case 1: nic82540em_ticks(nic, true); break;
    case 2: return nic82540em_pace(nic, 10);
    case 3: return nic82540em_schedule(nic, 3, NIC_EEPROM);
    case 4: return nic82540em_interleave(nic, 2, 7);
    case 5:
        if (nic82540em_play(nic, text, sizeof text - 1) != 0 || !nic82540em_begin_round(nic, NIC_BY_SETTLE))
            return false;
        nic82540em_settle(nic);
    }
    return true;
}

/* The driver. Prints the word, and the number of the read that returned it. */
static void read_word(struct nic82540em *nic)
{
    const uint32_t word = nic82540em_choose(nic, 3);
    uint32_t value = 0;

    nic82540em_recount(nic, 0); /* the write is access 0, and the reads are accesses 1 to 4 */
    nic82540em_write(nic, NIC_EERD, NIC_EERD_START | NIC_EERD_ADDR(word));
    while (!(value & NIC_EERD_DONE) && nic82540em_accesses(nic) <= MOST_READS)
        value = nic82540em_read(nic, NIC_EERD);
    if (value & NIC_EERD_DONE)
        printf("read %" PRIu64 " returns word %" PRIu32 ", %04" PRIx32 "\n", nic82540em_accesses(nic) - 1, word,
               NIC_EERD_DATA(value));
    else
        printf("word %" PRIu32 " isn't returned\n", word);
}

int main(void)
{
    struct nic82540em_options options = NIC82540EM_DEFAULTS;

    options.has_image = true;
    for (int place = 0; place < 64; place++)
        options.image[place] = (uint16_t)(0xE000 + place);
    for (int way = 0; way < WAYS; way++) {
        struct nic82540em nic = NIC82540EM_NONE;

        if (!nic82540em_new(&nic, &options) || !choose_moments(&nic, way))
            return 1;
        printf("%s: ", ways[way]);
        read_word(&nic);
        nic82540em_free(&nic);
    }
    return 0;
}
