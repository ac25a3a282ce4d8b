/* The steps of a run in JSON: an object in a line for each access, request, step, change of the interrupt line, and
 * place where the handler cuts in. `--replay FILE --log --json` prints them, and a page contains them (html.c). The
 * keys are described in docs/RACES.md, "The log of a run".
 *
 * With --log --json, the log has a first line with the command and the schedule, and its last line is what --json
 * prints alone.
 */
#define _GNU_SOURCE
#include "inside.h"
#include <string.h>
#include <unistd.h>

enum { FIRST_BYTES = 64, MOST_ZEROS = 4096, LAST_BYTES = 2, LONGEST_NAME = 192 };
#define HANDLER "the handler "
FILE *xi_steps; /* where the steps go; NULL while nobody wants them */
void (*xi_draws_chart)(const struct deviation *path, unsigned count); /* begins the log of a chart; or NULL */
bool xi_steps_are_short; /* as a page has them, with few bytes of long accesses and of frames */
static bool is_handlers, was_raised;

static const char *actor(void)
{
    return is_handlers ? "handler" : "driver";
}

/* The actor of a step that names none */
static const char *told_by(const char *action, size_t size)
{
    static const char *const actions[] = { "rxdata", "rxdone", "txtake", "txput", "eeprom", "phy", "raise", "lower", "hold",
                                           "fault", "arrive", "frame" };
    enum { COUNT = sizeof actions / sizeof *actions, OF_WIRE = COUNT - 2 };

    for (size_t n = 0; n < COUNT; n++)
        if (strlen(actions[n]) == size && !memcmp(actions[n], action, size))
            return n < OF_WIRE ? "adapter" : "wire";
    return "driver";
}

static void begin(const char *who, const char *action, size_t size)
{
    fputc('{', xi_steps);
    if (!xi_steps_are_short || strcmp(who, told_by(action, size)))
        fprintf(xi_steps, "\"actor\": \"%s\", ", who);
    fprintf(xi_steps, "\"action\": \"%.*s\"", (int)size, action);
}

static void begin_whole(const char *who, const char *action)
{
    begin(who, action, strlen(action));
}

static void print_place(void)
{
    fprintf(xi_steps, ", \"place\": \"%u.%u", xi_book->round, xi_book->access);
    fprintf(xi_steps, xi_book->sub ? "+%u\"" : "\"", xi_book->sub);
}

static void print_bytes(const uint8_t *bytes, size_t count)
{
    for (size_t n = 0; n < count; n++)
        fprintf(xi_steps, "%02x", bytes[n]);
}

static void print_data(const uint8_t *bytes, size_t count)
{
    fprintf(xi_steps, ", \"data\": \""), print_bytes(bytes, count);
    fputc('"', xi_steps);
}

static void end(const char *outcome, bool is_deviation)
{
    if (outcome)
        fprintf(xi_steps, ", \"outcome\": "), xi_print_string(xi_steps, outcome);
    fprintf(xi_steps, is_deviation ? ", \"is_deviation\": true}\n" : "}\n");
    fflush(xi_steps); /* a run may end by a signal */
}

/* Adds a step if the interrupt line was raised or lowered since the last call. */
static void add_line(void)
{
    bool is_raised = xi_device->line();

    if (is_raised != was_raised)
        begin_whole("adapter", is_raised ? "raise" : "lower"), end(NULL, false);
    was_raised = is_raised;
}

/* Begins the step of the access at which the run is. */
static void begin_access(void)
{
    char name[LONGEST_NAME], *space;
    struct place here = xi_place();

    xi_name(name, sizeof name, &here);
    space = strchr(name, ' ');
    begin(actor(), name, (size_t)(space - name)), print_place();
    fprintf(xi_steps, ", \"name\": \"%s\"", space + 1);
}

/* Adds the size of the last one of some frames, and its bytes. Of a long one, a page has the first and the last bytes. */
static void print_frame(const struct frames *all)
{
    uint32_t from = all->begin[all->count - 1], to = all->begin[all->count], size = to - from;
    uint32_t cut = xi_steps_are_short && size > FIRST_BYTES ? LAST_BYTES : 0, first = cut ? FIRST_BYTES - cut : size;

    fprintf(xi_steps, ", \"size\": %u, \"data\": \"", size);
    print_bytes(all->bytes + from, first), print_bytes(all->bytes + to - cut, cut);
    fputc('"', xi_steps);
}

/* How many bytes of an access are told: for a page the first ones, but of zeros, as of an empty ring, more */
static size_t shown(const uint8_t *bytes, size_t count)
{
    size_t zeros = 0;

    if (!xi_steps_are_short)
        return count;
    while (zeros < count && zeros < MOST_ZEROS && !bytes[zeros])
        zeros++;
    return zeros == count ? count : count < FIRST_BYTES ? count : FIRST_BYTES;
}

/* A value of a register, or the answer to x_choose */
void xi_step_value(uint32_t value)
{
    if (xi_book->event != CHOOSE) {
        begin_access();
        fprintf(xi_steps, xi_steps_are_short ? ", \"value\": %u" : ", \"size\": 4, \"value\": %u", value);
        end(NULL, false), add_line();
        return;
    }
    begin_whole(actor(), "choose"), print_place();
    fprintf(xi_steps, ", \"value\": %u, \"outcome\": \"below %llu\"", value, (unsigned long long)xi_book->address);
    end(NULL, value);
}

void xi_step_bytes(const void *bytes, size_t count)
{
    begin_access();
    fprintf(xi_steps, ", \"size\": %zu", count);
    print_data(bytes, shown(bytes, count));
    end(NULL, false), add_line();
}

/* An access by a pointer: its size isn't known. `bytes` are in memory from its address on, or NULL for a store. */
void xi_step_touch(const uint8_t *bytes, size_t count)
{
    if (xi_book->event == TOUCH) {
        begin_whole(actor(), "request"), print_place(), end("touch", false);
        return;
    }
    begin_access();
    if (bytes)
        print_data(bytes, count);
    end(NULL, false);
}

void xi_step_request(const char *result)
{
    char name[LONGEST_NAME], whole[LONGEST_NAME + 32];
    struct place here = xi_place();

    xi_name(name, sizeof name, &here);
    if (xi_book->event == ARRIVE)
        begin_whole("wire", "arrive"), print_place(), print_frame(&xi_state->arrived);
    else
        begin_whole(actor(), "request"), print_place();
    snprintf(whole, sizeof whole, result ? "%s: %s" : "%s", name, result);
    end(xi_book->event == ARRIVE ? result : whole, false);
    add_line();
}

/* A mark, such as that the handler cuts in: until the next one of the handler, what follows is the handler's. */
void xi_step_mark(const char *mark, bool is_deviation)
{
    bool is_of_handler = !strncmp(mark, HANDLER, strlen(HANDLER));

    if (is_of_handler)
        is_handlers = !strcmp(mark + strlen(HANDLER), "cuts in");
    begin_whole(is_of_handler ? "handler" : actor(), "mark"), end(mark, is_deviation);
}

/* A step of the device, or the arrival of an offered frame. A frame that is put on the wire is a step of the wire. */
void xi_step_taken(const char *action, const char *result, bool is_deviation)
{
    bool arrives = !strcmp(action, "arrive"), puts = xi_is_nic() && !strcmp(result, xi_outcomes[NIC_PUT]);

    begin_whole(arrives ? "wire" : "adapter", action);
    if (arrives)
        print_frame(&xi_state->arrived);
    end(result, is_deviation);
    if (puts && xi_state->put.count)
        begin_whole("wire", "frame"), print_frame(&xi_state->put), end(NULL, false);
    add_line();
}

/* A step that isn't taken, such as `hold eeprom` */
void xi_step_hold(const char *action)
{
    const char *space = strchr(action, ' ');

    begin("adapter", action, (size_t)(space - action)), end(space + 1, true);
}

/* Why the last step was a fault */
void xi_step_fault(const char *slot, const char *reason)
{
    begin_whole("adapter", "fault");
    fprintf(xi_steps, ", \"name\": \"%s\"", slot);
    end(reason, false);
}

/* Prints the first line of the log of a schedule. */
void xi_steps_begin(FILE *file, const struct deviation *path, unsigned count)
{
    is_handlers = was_raised = false;
    fprintf(file, "{\"format\": \"nic82540em race log\", \"version\": 2, \"command\": ");
    xi_print_string(file, xi_command);
    fprintf(file, ", \"schedule\": "), xi_print_lines(file, path, count), fprintf(file, "}\n");
}

/* With --log --json, sends the log to the standard output of this program, and what the test prints to its standard
 * error. Prints the first line. */
void xi_steps_open(const struct deviation *path, unsigned count)
{
    int own;

    if (xi_draws_chart)
        xi_draws_chart(path, count);
    if (!xi_given.log || !xi_given.json)
        return;
    fflush(stdout);
    own = dup(STDOUT_FILENO);
    xi_out = own < 0 || dup2(STDERR_FILENO, STDOUT_FILENO) < 0 ? NULL : fdopen(own, "w");
    if (!xi_out)
        xi_die("the log can't be written");
    xi_steps = xi_out;
    xi_steps_begin(xi_out, path, count);
}
