/* Shrinks schedules by the proved search, with tests that fail by rules of this program. Compares each schedule that is
 * tried with what may be tried, and the smallest one with all that are smaller by one change.
 *
 * usage: search_shrink
 *
 * Prints what was compared. The first difference is printed on standard error, and ends the program with exit status 1.
 */
#include "search_model.h"

enum { TAKE, PUT, DATA, DONE, TX, RX, ANSWERS, LAST = ANSWERS + 8, LONGEST = 40, TESTS = 20000 };
struct schedule {
    size_t count;
    struct schedule_deviation list[LONGEST + 1];
};
static struct schedule given;
static unsigned rule, wanted; /* by which the present test fails */
static long tries, joins, lower;

static void fixed_table(void)
{
    add(2, SCHEDULE_ENGINE, 2), add(2, SCHEDULE_ENGINE, 3);
    add(3, SCHEDULE_ENGINE, 1), add(3, SCHEDULE_ENGINE, 1);
    add_pair(TAKE, PUT), add_pair(DATA, DONE);
    for (int n = ANSWERS; n <= LAST; n++)
        add(4, SCHEDULE_ANSWER, SCHEDULE_NONE);
}

static bool is_equal(const struct schedule_deviation *one, const struct schedule_deviation *other)
{
    return !memcmp(one, other, sizeof *one);
}

static bool is_same(const struct schedule *one, const struct schedule *other)
{
    return one->count == other->count && !memcmp(one->list, other->list, one->count * sizeof *one->list);
}

/* The present test */

/* How many frames a schedule sends: pairs, and steps of fetching with a later step of putting */
static unsigned sent(const struct schedule *schedule)
{
    unsigned fetched = 0, count = 0;

    for (size_t n = 0; n < schedule->count; n++) {
        uint32_t action = schedule->list[n].action;
        if (action == TX || (action == PUT && fetched))
            count++, fetched -= action == PUT;
        fetched += action == TAKE;
    }
    return count;
}

static bool has(const struct schedule *schedule, const struct schedule_deviation *one)
{
    for (size_t n = 0; n < schedule->count; n++)
        if (is_equal(&schedule->list[n], one))
            return true;
    return false;
}

static bool has_answer(const struct schedule *schedule, uint32_t least)
{
    for (size_t n = 0; n < schedule->count; n++)
        if (schedule->list[n].action >= least)
            return true;
    return false;
}

static uint32_t hash(const struct schedule *schedule)
{
    uint32_t sum = wanted;

    for (size_t n = 0; n < schedule->count; n++) {
        const struct schedule_deviation *one = &schedule->list[n];
        sum = (sum ^ (one->round * 31 + one->access * 7 + one->action)) * 2654435761u, sum ^= sum >> 15;
    }
    return sum;
}

/* Whether a schedule fails: by frames that are sent, by deviations of the given schedule and a least answer, or by
 * chance. The given schedule fails. */
static bool fails(const struct schedule *schedule)
{
    if (is_same(schedule, &given))
        return true;
    if (rule == 0)
        return sent(schedule) >= wanted % 4;
    if (rule == 1) {
        for (size_t n = 0; n < given.count; n++)
            if ((wanted >> n % 32 & 1) && given.list[n].action < ANSWERS && !has(schedule, &given.list[n]))
                return false;
        return !has_answer(&given, ANSWERS + wanted % 5) || has_answer(schedule, ANSWERS + wanted % 5);
    }
    return hash(schedule) % 4 == 0;
}

/* Leaves out deviations that do nothing: steps of putting before the first step of fetching. */
static void keep_met(struct schedule *schedule)
{
    size_t count = 0;
    bool is_fetched = false;

    if (rule != 0)
        return;
    for (size_t n = 0; n < schedule->count; n++) {
        is_fetched |= schedule->list[n].action == TAKE;
        if (schedule->list[n].action != PUT || is_fetched)
            schedule->list[count++] = schedule->list[n];
    }
    schedule->count = count;
}

/* Smaller schedules */

static struct schedule without(const struct schedule *from, size_t at, size_t end)
{
    struct schedule to = *from;

    memmove(to.list + at, to.list + end, (to.count - end) * sizeof *to.list);
    to.count -= end - at;
    return to;
}

static bool lacks_run(const struct schedule *kept, const struct schedule *tried)
{
    for (size_t at = 0; at < kept->count; at++)
        for (size_t end = at + 1; end <= kept->count; end++) {
            struct schedule one = without(kept, at, end);
            if (is_same(&one, tried))
                return true;
        }
    return false;
}

static bool is_lower(const struct schedule *kept, const struct schedule *tried)
{
    for (size_t at = 0; at < kept->count; at++)
        for (uint32_t answer = ANSWERS; answer < kept->list[at].action; answer++) {
            struct schedule one = *kept;
            one.list[at].action = answer;
            if (is_same(&one, tried))
                return true;
        }
    return false;
}

/* The schedule in which `first` and `second` are joined, at the place of one of them */
static struct schedule joined(const struct schedule *kept, size_t first, size_t second, size_t pair, bool is_late)
{
    struct schedule one = *kept;

    one.list[is_late ? second : first].action = (uint32_t)pair;
    return is_late ? without(&one, first, first + 1) : without(&one, second, second + 1);
}

static bool is_joined(const struct schedule *kept, const struct schedule *tried)
{
    for (size_t first = 0; first < kept->count; first++)
        for (size_t second = first + 1; second < kept->count; second++)
            for (size_t pair = 0; pair < 2 * table_size; pair++) {
                struct schedule one;
                if (!is_pair_of(pair / 2, kept->list[first].action, kept->list[second].action))
                    continue;
                one = joined(kept, first, second, pair / 2, pair % 2);
                if (is_same(&one, tried))
                    return true;
            }
    return false;
}

static void check_try(const struct schedule *kept, const struct schedule *tried)
{
    tries++;
    if (lacks_run(kept, tried))
        return;
    if (is_lower(kept, tried))
        lower++;
    else if (is_joined(kept, tried))
        joins++;
    else
        fail("a schedule that may not be tried", (long)tried->count, (long)kept->count);
}

/* No deviation of the smallest schedule can be left out, no answer can be 1 or lower by 1, and no deviation can be
 * joined with the next one that completes its pair. */
static void check_smallest(const struct schedule *kept)
{
    for (size_t at = 0; at < kept->count; at++) {
        struct schedule one = without(kept, at, at + 1);
        same("a deviation that can be left out", fails(&one), false);
        one = *kept;
        for (int n = 0; n < 2 && kept->list[at].action > ANSWERS; n++) {
            one.list[at].action = n ? kept->list[at].action - 1 : ANSWERS;
            same("an answer that can be lower", fails(&one), false);
        }
        for (size_t pair = TX; pair <= RX; pair++)
            for (size_t second = at + 1; table[pair].first == kept->list[at].action && second < kept->count; second++)
                if (kept->list[second].action == table[pair].second) {
                    one = joined(kept, at, second, pair, false);
                    same("a pair that can be joined", fails(&one), false);
                    one = joined(kept, at, second, pair, true);
                    same("a pair that can be joined", fails(&one), false);
                    break;
                }
    }
}

/* The next schedule to play, in exactly as much room as `kept` has. Returns whether there is one. */
static bool next(struct schedule_shrink *state, const struct schedule *kept, struct schedule *tried)
{
    size_t room = kept->count;

    memset(tried, 0xAA, sizeof *tried);
    tried->count = schedule_search_shrink_next(state, table, table_size, kept->list, kept->count, tried->list, room);
    for (size_t n = room * sizeof *kept->list; n < sizeof tried->list; n++)
        same("a byte after the room", ((uint8_t *)tried->list)[n], 0xAA);
    return tried->count != SIZE_MAX;
}

static void shrink(void)
{
    struct schedule kept = given, tried;
    struct schedule_shrink state;
    size_t since = 0;

    schedule_search_shrink(&state, kept.count);
    while (next(&state, &kept, &tried)) {
        check_try(&kept, &tried);
        if (++since > 10 * (kept.count + 1))
            fail("tries without an end", (long)since, (long)kept.count);
        if (!fails(&tried))
            continue;
        keep_met(&tried);
        kept = tried, since = 0;
        schedule_search_shrink_fails(&state, kept.count);
    }
    for (int n = 0; n < 3; n++)
        same("a schedule after the last", next(&state, &kept, &tried), false);
    check_smallest(&kept);
}

static void draw_given(void)
{
    uint32_t round = 0, access = 0;

    memset(&given, 0, sizeof given);
    given.count = below(LONGEST + 1);
    for (size_t n = 0; n < given.count; n++) {
        if (!below(8))
            round++, access = 0;
        access += below(3);
        given.list[n] = (struct schedule_deviation){ round, access, below(2), below(LAST + 1) };
    }
    rule = below(3), wanted = below(1u << 31);
    keep_met(&given);
}

int main(void)
{
    struct schedule_shrink state;
    struct schedule into;

    fixed_table();
    for (int n = 0; n < TESTS; n++)
        draw_given(), shrink();
    schedule_search_shrink(&state, 2);
    same("too little room",
         (long)schedule_search_shrink_next(&state, table, table_size, given.list, 2, into.list, 1), -1);
    printf("shrink: %d tests, %ld tries, %ld with a lower answer, %ld with a pair\n", TESTS, tries, lower, joins);
}
