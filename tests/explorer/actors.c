/* Actors of a test, and variables that they share. The first word names the variant. */
#include <nic82540em_explore.h>
#include <string.h>

static int count, own, ticks = 1;
static bool is_locked;
static const char *variant = "lost";

static int read_int(const int *at)
{
    x_variable(false, at);
    return *at;
}

static void write_int(int *at, int value)
{
    x_variable(true, at);
    *at = value;
}

static bool can_tick(void)
{
    return ticks > 0;
}

/* Adds 1. One that would wait for a lock that it has interrupted can't run. */
static void tick(void)
{
    ticks--;
    if (is_locked)
        x_impossible();
    write_int(&count, read_int(&count) + 1);
}

static const char *test(void *word)
{
    int before;

    (void)word;
    x_settle();
    for (int n = 0; n < 20 && strcmp(variant, "few"); n++)
        write_int(&own, read_int(&own) + 1);
    is_locked = !strcmp(variant, "locked");
    before = read_int(&count);
    if (!strcmp(variant, "safe"))
        count++;
    else
        write_int(&count, before + 1);
    is_locked = false;
    x_settle();
    return count + ticks == 2 ? NULL : "a tick is lost";
}

int main(int words, char **given)
{
    struct x_actor actors[] = { { "tick", can_tick, tick } };
    static struct x_actor wrong[] = { { "Tick", can_tick, tick } };

    variant = words > 1 ? given[1] : variant;
    if (!strcmp(variant, "many"))
        x_actors(actors, X_ACTORS + 1);
    x_actors(!strcmp(variant, "name") ? wrong : actors, 1);
    return nic82540em_explore(words, given, test, NULL);
}
