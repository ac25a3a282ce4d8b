/* Known states. A run of COMMAND can't be saved, but all that follows from a place is known if COMMAND was told the
 * same before, and the adapter and its memory are the same. So the key of a place is a hash of all lines and answers,
 * and the digest of the server. It doesn't cover frames that the server keeps until COMMAND fetches them: there are
 * none while events are on.
 *
 * A digest takes longer than a short run. So it is made only where many schedules follow: before the last deviation,
 * and shortly after an earlier one, where exchanged steps lead to equal states.
 */
#include "races.h"
#include <string.h>

#define B xi_book
#define S xi_state

enum { NEAR = 4 };
static struct digest told;
static bool has_events;
static int depth;
static unsigned path_count, places; /* of the run, where the last deviation was seen */

void xr_set_depth(int deviations)
{
    depth = deviations;
}

void xr_begin_told(void)
{
    told = (struct digest){ 0x9E3779B97F4A7C15, 0xD1B54A32D192ED03 };
    has_events = false, path_count = places = 0;
}

/* Adds a line of COMMAND, or an answer, to what is compared. */
void xr_add_told(const char *text, size_t size)
{
    for (size_t n = 0; n < size; n++) {
        told.one = (told.one ^ (unsigned char)text[n]) * 0xBF58476D1CE4E5B9, told.one ^= told.one >> 29;
        told.two = (told.two + (unsigned char)text[n] + 1) * 0x94D049BB133111EB, told.two ^= told.two >> 31;
    }
    if (size == 9 && !memcmp(text, "events on", 9))
        has_events = true;
    else if (size == 10 && !memcmp(text, "events off", 10))
        has_events = false;
}

/* Whether the place at which the run is has a key. */
bool xr_has_key(void)
{
    if (B->path_count != path_count)
        path_count = B->path_count, places = B->places;
    if (!has_events || xr_is_shown)
        return false;
    return depth == EVERY || (B->path_count && (int)B->path_count < depth && B->places - places <= NEAR);
}

/* The digest of the server, as text. What it tells before goes to COMMAND. */
static const char *digest(void)
{
    size_t size = xr_answer("digest", 6), at = size - 1;

    while (at && xr_told()[at - 1] != '\n')
        at--;
    xr_add_told(xr_told(), at);
    xr_tell(xr_told(), at);
    return xr_told() + at;
}

/* The key of the state at this place. Of jobs, the states without deviations are others: not all that follows from one
 * of them is searched by one job. */
struct digest xi_digest(void)
{
    const char *text = digest();
    struct digest kept = told, key;

    xr_add_told(text, strcspn(text, "\n"));
    key = told, told = kept;
    key.one += S->offered * 0x9E3779B97F4A7C15 + (xi_share && !B->path_count);
    return key;
}
