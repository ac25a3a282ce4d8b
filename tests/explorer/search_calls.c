/* Calls the proved search from C, and compares its options, their law and its generator with models of its own.
 *
 * usage: search_calls options|law|generator
 *
 * Prints what was compared. The first difference is printed on standard error, and ends the program with exit status 1.
 */
#include "search_model.h"

enum { MOST = 12, TABLES = 20000 };

/* Tables */

/* Some single actions, and pairs of two of the same actor */
static void draw_table(size_t most)
{
    size_t singles = 1 + below((uint32_t)most - 2);

    table_size = 0;
    while (table_size < singles)
        add(below(4) ? below(3) : SCHEDULE_FREE, below(5), below(4) ? 1 + below(4) : SCHEDULE_NONE);
    for (uint32_t n = 0; n < 8 && table_size < most; n++) {
        uint32_t first = below((uint32_t)singles), second = below((uint32_t)singles);
        if (table[first].actor == table[second].actor)
            add_pair(first, second);
    }
}

/* Options */

static bool is_tried_after(uint32_t last, uint32_t action)
{
    if (table[last].actor == SCHEDULE_FREE || table[action].actor == SCHEDULE_FREE)
        return true;
    for (size_t pair = 0; pair < table_size; pair++)
        if (is_pair_of(pair, last, action))
            return false;
    return table[last].actor <= table[action].actor;
}

static bool is_option(uint64_t possible, uint32_t last, bool is_every, uint32_t action)
{
    if (!(possible >> action & 1))
        return false;
    if (is_every)
        return table[action].first == SCHEDULE_NONE;
    return last == SCHEDULE_NONE || is_tried_after(last, action);
}

static void compare_options(uint64_t possible, uint32_t last, bool is_every, size_t room)
{
    uint8_t into[MOST + 1];
    size_t count = 0, got;

    memset(into, 0xAA, sizeof into);
    got = schedule_search_options(table, table_size, possible, last, is_every, into, room);
    for (uint32_t action = 0; action < table_size; action++)
        if (is_option(possible, last, is_every, action)) {
            if (count < room)
                same("an option", into[count], action);
            count++;
        }
    same("the number of options", (long)got, (long)count);
    for (size_t n = count < room ? count : room; n < sizeof into; n++)
        same("a byte after the options", into[n], 0xAA);
}

static void options(void)
{
    for (int n = 0; n < TABLES; n++) {
        draw_table(MOST);
        for (uint32_t last = 0; last <= table_size; last++)
            compare_options((uint64_t)below(1 << 16) << 32 | below(1 << 16), last < table_size ? last : SCHEDULE_NONE,
                            below(4) == 0, below(MOST + 1));
    }
    table_size = 0;
    compare_options(UINT64_MAX, SCHEDULE_NONE, false, MOST);
    printf("options: %d tables\n", TABLES);
}

/* The law: each sequence becomes one that is tried, and that isn't longer. */

enum { LONGEST = 4 };
struct sequence {
    uint8_t count, action[LONGEST];
};
static struct sequence reached[4096];
static size_t reached_count;

static void reach(const struct sequence *sequence)
{
    for (size_t n = 0; n < reached_count; n++)
        if (reached[n].count == sequence->count && !memcmp(reached[n].action, sequence->action, sequence->count))
            return;
    if (reached_count == sizeof reached / sizeof *reached)
        fail("sequences", (long)reached_count, 0);
    reached[reached_count++] = *sequence;
}

static bool commute(uint8_t one, uint8_t other)
{
    return table[one].actor != SCHEDULE_FREE && table[other].actor != SCHEDULE_FREE &&
           table[one].actor != table[other].actor;
}

/* Reaches what `from` becomes by one exchange or by one join of the neighbors at `at`. */
static void reach_at(struct sequence from, size_t at)
{
    struct sequence to = from;
    uint8_t first = from.action[at], second = from.action[at + 1];

    if (commute(first, second)) {
        to.action[at] = second, to.action[at + 1] = first;
        reach(&to);
    }
    for (size_t pair = 0; pair < table_size; pair++)
        if (is_pair_of(pair, first, second)) {
            to = from, to.count--;
            to.action[at] = (uint8_t)pair;
            memmove(to.action + at + 1, from.action + at + 2, from.count - at - 2);
            reach(&to);
        }
}

static bool is_tried(const struct sequence *sequence)
{
    for (size_t at = 1; at < sequence->count; at++) {
        uint8_t into[64];
        size_t count =
            schedule_search_options(table, table_size, UINT64_MAX, sequence->action[at - 1], false, into, 64);
        if (!memchr(into, sequence->action[at], count))
            return false;
    }
    return true;
}

static void search_sequence(const struct sequence *sequence)
{
    reached_count = 0;
    reach(sequence);
    for (size_t n = 0; n < reached_count; n++) {
        if (is_tried(&reached[n]))
            return;
        for (size_t at = 0; at + 1 < reached[n].count; at++)
            reach_at(reached[n], at);
    }
    fail("a sequence is left out", sequence->action[0], sequence->action[1]);
}

static void law(void)
{
    long count = 0;

    for (int n = 0; n < 200; n++) {
        draw_table(7);
        for (uint32_t number = 0; number < 1 << 12; number++, count++) {
            struct sequence sequence = { (uint8_t)(1 + number % LONGEST), { 0 } };
            for (size_t at = 0; at < sequence.count; at++)
                sequence.action[at] = (uint8_t)below((uint32_t)table_size);
            search_sequence(&sequence);
        }
    }
    printf("law: %ld sequences\n", count);
}

/* The generator */

struct pcg {
    uint64_t state, increment;
};

static uint32_t word(struct pcg *pcg)
{
    uint32_t turn = (uint32_t)(pcg->state >> 59), bits = (uint32_t)((pcg->state >> 18 ^ pcg->state) >> 27);

    pcg->state = pcg->state * 6364136223846793005u + pcg->increment;
    return bits >> turn | bits << (-turn & 31);
}

static uint64_t two_words(struct pcg *pcg)
{
    uint64_t low = word(pcg);

    return low | (uint64_t)word(pcg) << 32;
}

/* The generator that PCG's reference code makes of a state and an increment */
static struct pcg seeded(uint64_t state, uint64_t increment)
{
    return (struct pcg){ (state + increment) * 6364136223846793005u + increment, increment };
}

/* As seed_from_u64 of rand_core does: 16 bytes of a generator with a constant increment, which advances first. Then the
 * words of the earlier runs are skipped, one by one. */
static struct pcg run_of(uint64_t seed, uint64_t number)
{
    struct pcg bytes = { seed * 6364136223846793005u + 11634580027462260723u, 11634580027462260723u }, runs;
    uint64_t state = two_words(&bytes), stream = two_words(&bytes);

    runs = seeded(state, stream | 1);
    for (uint64_t n = 0; n < 4 * number; n++)
        word(&runs);
    state = two_words(&runs), stream = two_words(&runs);
    return seeded(state, stream << 1 | 1);
}

static void generator(void)
{
    static const uint64_t numbers[] = { 0, 1, 2, 7, 1000, 123456 };
    struct schedule_drawing settings = { SCHEDULE_UNIFORM, 0, 0, 0, 0, 0 };
    struct schedule_draw draw;

    for (settings.seed = 0; settings.seed < 100; settings.seed++)
        for (size_t n = 0; n < sizeof numbers / sizeof *numbers; n++) {
            struct pcg pcg = run_of(settings.seed * settings.seed << 40 | settings.seed, numbers[n]);
            struct schedule_drawing here = settings;
            here.seed = settings.seed * settings.seed << 40 | settings.seed, here.number = numbers[n];
            schedule_search_draw(&draw, &here);
            same("the state", (long)draw.state, (long)pcg.state);
            same("the stream", (long)draw.stream, (long)(pcg.increment >> 1));
            same("the settings", memcmp(&draw.settings, &here, sizeof here), 0);
        }
    printf("generator: %zu runs\n", 100 * sizeof numbers / sizeof *numbers);
}

int main(int count, char **words)
{
    const char *what = count > 1 ? words[1] : "";

    if (!strcmp(what, "options"))
        options();
    else if (!strcmp(what, "law"))
        law();
    else if (!strcmp(what, "generator"))
        generator();
    else
        fail("usage: search_calls options|law|generator", count, 2);
}
