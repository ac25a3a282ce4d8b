/* Where the handler of a test cuts in: before a place, after an access, or late; and the calls that let it in. */
#include "stubs.h"
#include "inside.h"

#define B xi_book
#define S xi_state

bool xi_has_handler;

static void call_handler(bool is_deviation)
{
    unsigned before = S->runs;

    S->takes_none = true, S->is_late = false, S->has_cut_in = S->is_settling, S->runs = 1;
    xi_handler_begins();
    xi_see_handler(B->is_sending);
    xi_log_mark("the handler cuts in", is_deviation);
    xi_back();
    S->handler();
    xi_pause();
    xi_log_mark("the handler returns", false);
    S->takes_none = false, S->runs = before;
    xi_handler_ends();
}

/* Leaves the test at a place, and again each time that the handler or an actor has run before it. */
__attribute__((noinline)) void xi_at_place(enum event event, uint64_t address)
{
    for (;;) {
        xi_clean();
        xi_leave(event, address);
        if (!S->cuts_in && !S->actor)
            return;
        xi_clean();
        if (S->actor) {
            xi_run_actor();
            continue;
        }
        S->cuts_in = false;
        call_handler(true);
    }
}

/* Whether the handler may cut in before the place at which the run is */
bool xi_may_cut_in(void)
{
    return S->handler && !S->takes_none && !S->cuts_in && B->event != CALL && B->event != ENDED &&
           (S->is_late || xi_device->line());
}

/* Whether the handler is put off to the end of the next access */
static bool is_put_off(void)
{
    if (xi_is_piped || S->is_late)
        return false;
    xi_clean();
    xi_leave(CALL, 0);
    S->is_late = S->is_put_off, S->is_put_off = false;
    if (S->is_late)
        xi_log_mark("the handler is late", true);
    return S->is_late;
}

static bool line(void)
{
    return xi_is_piped ? xi_pipe_line() : xi_device->line();
}

__attribute__((noinline)) static void cut_in(void)
{
    while (S->handler && !S->takes_none && (S->is_late || line()) && !is_put_off()) {
        xi_clean();
        call_handler(false);
    }
    xi_back();
}

/* Calls the handler, if there is one, while the line is asserted, unless the handler runs already or is kept out. Ends
 * the test's call. */
void xi_cut_in(void)
{
    xi_clean();
    cut_in();
}

bool x_line(void)
{
    bool is_asserted;

    if (xi_is_piped)
        return xi_pipe_line();
    xi_at_place(LINE, 0);
    is_asserted = xi_answer(xi_device->line());
    xi_log_request(is_asserted ? "asserted" : "low");
    xi_back();
    return is_asserted;
}

void x_handler(void (*handler)(void))
{
    if (!xi_is_piped && (handler || S->handler)) {
        xi_at_place(handler ? HANDLER_ON : HANDLER_OFF, 0);
        xi_log_request(NULL);
    }
    xi_pause();
    S->handler = handler, S->is_late = false;
    xi_has_handler |= handler != NULL;
    xi_cut_in();
}

/* It is no place without a handler, or if the handler is kept out and stays so: a step before it is then as one before
 * the next place. */
bool x_interrupts(bool is_on)
{
    bool was_on = !S->takes_none;

    if (!xi_is_piped && S->handler && (is_on || was_on)) {
        xi_at_place(is_on ? INTERRUPTS_ON : INTERRUPTS_OFF, 0);
        xi_log_request(NULL);
    }
    xi_pause();
    S->takes_none = !is_on;
    xi_cut_in();
    return was_on;
}
