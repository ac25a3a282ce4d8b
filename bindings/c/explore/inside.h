/* What the sources of the explorer share. A test doesn't include this. */
#ifndef NIC82540EM_EXPLORE_INSIDE_H
#define NIC82540EM_EXPLORE_INSIDE_H

#include "nic82540em_explore.h"
#include "schedule_search.h"
#include <signal.h>
#include <stdio.h>

enum {
    PAGE = 4096, MOST_AREAS = 128, MOST_FRAMES = 256, MOST_BYTES = 1 << 17, MOST_PATH = 1024, LONGEST = 1518,
    MOST_OPTIONS = 40, MOST_ANSWERS = 16, MOST_PLACES = 100000
};
/* What may be done before an access or a request: steps of the device, by their kinds; the arrival of an offered frame;
 * pairs of steps; holds of its clocks; and what follows. From ACTOR on: the test's actors. CHOICE is the answer 1 to
 * x_choose, CHOICE + 1 the answer 2, and so on. DEFAULT is no deviation. At a place, actions are tried in the order of
 * their numbers. */
enum { PAIRS = 2, CLOCKS = 2 };
enum {
    ARRIVAL = X_KINDS, PAIR, HOLD = PAIR + PAIRS, IRQ = HOLD + CLOCKS, LATE_IRQ, HOLD_STEP, ACTOR,
    CHOICE = ACTOR + X_ACTORS, ACTIONS = CHOICE + MOST_ANSWERS - 1, DEFAULT = -1
};
/* The groups of actions in bursts and by priorities. Those of the device's steps have the numbers from 1 to X_KINDS. */
enum { DRIVER, WIRE = X_KINDS + 1, HANDLER, GROUPS };
/* The kinds of places. LINE: the test looks at the line. VARIABLE: x_variable. INTERRUPTS_OFF to HANDLER_ON: the handler
 * is kept out, let in, removed, or given. CALL: the handler is about to cut in after an access. PAUSE: in x_settle, after
 * a step that asserts the line. From LINE to PAUSE, a place has no number of its own in a round: it is counted after the
 * last access, such as 4.5+1. From ARRIVE on, requests begin rounds. */
enum event {
    READ, WRITE, LOAD, STORE, TOUCH, CHOOSE, LINE, VARIABLE, INTERRUPTS_OFF, INTERRUPTS_ON, HANDLER_OFF, HANDLER_ON, CALL,
    PAUSE, ARRIVE, STEP, SETTLE, OFFER, ENDED
};
enum { PASSES, FOUND, USAGE, NOT_RUN, NOTHING, DIFFERS };

struct digest {
    uint64_t one, two;
};

/* An access or a request. For an access of memory in a ring, `address` counts from the ring's first byte, and `ring` is
 * 1 (receive) or 2 (transmit). Otherwise, `ring` is 0. A place of a schedule from a file has only `text`. */
struct place {
    enum event event;
    int ring;
    uint64_t address;
    const char *text;
};

/* A deviation, and the place before which it is played: a round, and the number of an access in it. 0 is the request
 * that begins the round. `sub` counts the places after this access that have no number of their own. */
struct deviation {
    unsigned round, access, sub;
    int action;
    struct place before;
};

/* Frames, the oldest first. The bytes of frame `n` are those from begin[n] up to begin[n + 1]. */
struct frames {
    unsigned count;
    uint32_t begin[MOST_FRAMES + 1];
    uint8_t fate[MOST_FRAMES], bytes[MOST_BYTES];
};

/* What is saved, but isn't a part of what is compared: where the run is. */
struct book {
    unsigned round, access, sub, places;
    unsigned moves; /* steps of engines, and arrivals of offered frames, that did something */
    unsigned path_count, did; /* deviations; those that did something */
    unsigned stage;                          /* default steps so far, of the clocks of the device */
    int last;                                /* 1 + the last action at this place, or 0 */
    enum event event;
    bool is_sending; /* a transmit descriptor was stored, and TDT wasn't written since */
    uint64_t address, history; /* of the place, or how many answers it has; a hash of all answers so far */
    bool knows_possible, knows_digest; /* of the adapter, as it is now */
    unsigned possible;
    struct digest digest;
    uint32_t rings[2][3];      /* as written: of the receive and the transmit ring, RDBAL, RDBAH and RDLEN */
    struct deviation path[MOST_PATH];
};

/* Bytes of the host's memory */
struct area {
    uint32_t at, size;
};

/* What is saved and compared, in addition to the memory of the test and of the adapter. */
struct state {
    struct nic82540em nic;
    uint8_t *host; /* the host's memory of another device */
    size_t heap_used, memory_used, last_block, before_last; /* last_block: where the last one begins */
    const char *fault;
    uint64_t blocked, pending; /* signals of the test: bit 0 is for signal 1 */
    uint64_t chosen, ignored;  /* those for which the test has set whether they are ignored, and that are */
    unsigned handlers; /* that run: above 1 if a handler lets itself in */
    void *handler_frame; /* of the first of them */
    void (*handler)(void);
    bool takes_none; /* whether the handler is kept out */
    bool cuts_in;    /* the handler cuts in before this access, or between two steps of x_settle */
    bool is_held;    /* this x_step isn't played */
    bool is_put_off; /* the handler doesn't cut in after this access */
    bool is_settling, has_cut_in; /* x_settle runs; the handler has cut in meanwhile */
    bool is_late;    /* the handler cuts in after the next access, even if the line is lowered by then */
    unsigned choice; /* of x_choose: the answer that is taken */
    unsigned actor;  /* 1 + the number of the actor that runs before this place comes again, or 0 */
    unsigned runs;   /* who runs: 0 the test, 1 the handler, 2 + n actor n */
    unsigned offered; /* the number of the offered frame that arrives next */
    unsigned dead_count; /* of the areas that dead.c has noted */
    uint32_t filling; /* 1 + the address of the receive descriptor whose buffer was written, until it is written back */
    uint64_t filled;  /* the address of this buffer */
    struct area dead[MOST_AREAS];
    struct frames put, arrived, offers;
};

/* Where the explorer's memory is: the arena, the stack of the test, the test's heap, and what the explorer maps for
 * itself. Nothing else is mapped from XI_BEGIN to XI_END. */
#define XI_BEGIN ((uintptr_t)0x200000000000)
#define XI_STACK ((uintptr_t)0x201000000000)
#define XI_STACK_GAP ((uintptr_t)1 << 32) /* nothing is mapped in so many bytes below the stack */
#define XI_HEAP ((uintptr_t)0x202000000000)
#define XI_HEAP_SIZE ((size_t)1 << 30)
#define XI_OWN ((uintptr_t)0x204000000000)
#define XI_END ((uintptr_t)0x300000000000)

/* A page that some run has written, or a part of one, with a copy of it as it was before the first run. `digest` is
 * that of the copy, or 0 if it wasn't needed yet. */
struct own {
    char *at, *base;
    uint32_t size;
    struct digest digest;
};

/* A copy of all that a run has changed. */
struct saved {
    char *bytes;
    size_t room;
    int pages;
    unsigned path_count;
    void *top;
};

/* What a run has shown */
struct outcome {
    uint64_t history; /* a hash of its accesses, of all answers, and of what is wrong */
    bool fails;
    char fault[128];
};

extern struct book *const xi_book;
extern struct state *const xi_state;
extern bool xi_saves; /* whether states can be saved: else each run begins from nothing */
extern bool xi_is_history_needless; /* whether no answers of runs are compared */
extern bool xi_has_touched; /* whether the driver has said by x_touch that it accesses memory */
extern bool xi_has_handler; /* whether the test has given a handler that cuts in */
extern bool xi_has_offered, xi_has_chosen; /* whether it has offered a frame, or called x_choose */

/* memory.c: the test's memory, and what runs have written of it */
extern struct own *xi_own;
extern int xi_own_count;
void *xi_map(size_t size);
void xi_set_callers(void *frame);
void xi_watch(void *from, void *to);
void xi_watch_program(void);
bool xi_is_first_write(const void *address);
void xi_find_written(void);
void xi_to_base(void);
void xi_unwatch(void);

/* heap.c and malloc.c: memory of malloc */
extern const bool xi_has_malloc __attribute__((weak)); /* its address is NULL if another library defines malloc */
void xi_explores(bool now);
void *xi_alloc(size_t size, size_t align);
size_t xi_alloc_size(const void *block);
bool xi_alloc_is_zero(const void *block);
void xi_free(void *block);
void xi_unmap(void *at, size_t size);
void xi_watch_heap(void);

/* calls.c: system calls of the test, and signals */
extern bool xi_prints;
char xi_pause(void);
void xi_resume(char before);
void xi_at_test(bool is_test);
void xi_block_calls(void);
void xi_know_thread(void);
bool xi_is_elsewhere(int number);
void xi_on(int number, void (*handler)(int, siginfo_t *, void *), int flags);

/* states.c: the arena, saved states and digests; the library's heap */
struct tried {
    bool ok;
    void *block;
};
struct tried rattle_alloc(size_t size, size_t align);
_Noreturn void xi_fail(const char *fault);
void xi_prepare(bool may_save);
void xi_clear(void);
void xi_track(void);
void xi_save(struct saved *saved);
void xi_restore(const struct saved *saved);
struct digest xi_digest(void);
int xi_pages(void);

/* switch.c: the test runs on a stack of its own */
void xi_start(void (*function)(void));
void xi_to_test(void);
void xi_handler_begins(void);
void xi_handler_ends(void);
void xi_clear_stack(void);
void xi_clear_below(void);
void xi_to_explorer(void);
bool xi_is_test(void);
extern volatile unsigned xi_entries; /* how often the test was entered */
char *xi_stack(void **top); /* the end of the stack of the test; stores its top, if `top` isn't null */
void xi_set_stack(void *top);

/* places.c: what is done at a place, and the history of a run */
void xi_next_place(void);
unsigned xi_play(uint32_t kind);
unsigned xi_possible(void);
struct digest xi_adapter(void);
void xi_change(void);
bool xi_deviate(int action);
void xi_tick(void);
void xi_add_to_history(uint64_t value);
uint64_t xi_answer(uint64_t value);
void xi_answer_bytes(const uint8_t *at, size_t count);
struct outcome xi_outcome(void);

/* bus.c: the adapter and the places of a run */
void xi_set_test(const char *(*test)(void *), void *argument);
const char *xi_test(void);
void xi_begin(bool is_new);
void xi_leave(enum event event, uint64_t address);
void xi_back(void);
void xi_need(bool is_right, const char *fault);
_Noreturn void xi_end(const char *fault);
const char *xi_deliver_offered(void);

/* interrupts.c: where the handler cuts in */
void xi_at_place(enum event event, uint64_t address);
bool xi_may_cut_in(void);
void xi_cut_in(void);

/* actors.c: the actors of the test */
extern uint64_t xi_impossible; /* runs that the test has ended as impossible */
const char *xi_actor(unsigned number);
bool xi_may_run(unsigned number);
bool xi_take_turn(unsigned number);
void xi_run_actor(void);

/* variables.c: variables that the actors share */
extern bool xi_skips; /* whether places at which nothing is tried are only counted */

/* frames.c: the frames of a run */
void xi_add_frame(struct frames *frames, const void *bytes, size_t count, uint32_t fate);
size_t xi_take_frame(const struct frames *frames, unsigned number, void *into, size_t room);

/* device.c and nic.c: the device that is searched */
extern const struct x_device *xi_device, xi_nic;
extern unsigned xi_clocks, xi_clock[CLOCKS]; /* the kinds of the steps that are taken by default: their number, and each */
extern uint32_t xi_outcome_of_step;          /* of the adapter's last step */
const char *xi_nic_register(uint32_t offset);
bool xi_is_nic(void);
void xi_know_device(void);
void xi_start_device(void);
struct digest xi_device_digest(void);
uint8_t *xi_host(uint64_t *size);
bool xi_load(uint64_t address, void *into, size_t count);
bool xi_store(uint64_t address, const void *bytes, size_t count);
const char *xi_register(uint32_t offset);
const char *xi_memory_name(uint64_t address);

/* actions.c: the actions, and which of them would do something */
extern const char *xi_actions[ACTIONS];
extern struct schedule_action xi_table[ACTIONS];
void xi_know_actions(void);
bool xi_is_clock(int action);
bool xi_ends_place(int action);
uint64_t xi_here(bool with_holds);
uint64_t xi_next_hold(bool with_holds);

/* dead.c: what nobody uses again */
extern bool xi_reads_dead; /* whether a run may have read any of this: then nothing is cleared */
extern unsigned xi_dead_used; /* how often a run has read what was cleared */
extern bool xi_searches; /* whether schedules are searched over saved states: only then, this is cleared */
void xi_clear_dead(void);
void xi_dead_register(uint32_t offset);
void xi_dead_read(uint64_t address, uint64_t count);
void xi_dead_written(uint64_t address, uint64_t count);
void xi_dead_before(uint32_t kind);
void xi_dead_after(uint32_t kind, uint32_t outcome);

/* Clears what calls have left below the frame of this function, on the stack of the test. Functions use it before they
 * call one that may leave the test: bytes of its frame that nobody uses would make states different. */
static inline void xi_clean(void)
{
#ifdef __x86_64__
    uint64_t words = 64, zero = 0;
    char *at;

    if (xi_searches)
        __asm__ volatile("lea -512(%%rsp), %0\n rep stosq" : "=&D"(at), "+c"(words), "+a"(zero) : : "memory");
#elif defined(__aarch64__)
    __asm__ volatile("sub x9, sp, #512\n1: stp xzr, xzr, [x9], #16\n cmp sp, x9\n b.hi 1b\n" : : : "x9", "cc", "memory");
#endif
}

/* names.c: the text of schedules */
extern struct place (*xi_place_here)(void); /* what knows the place at which the run is, if it isn't a call */
struct place xi_place(void);
uint32_t xi_first_of_table(uint32_t offset);
void xi_name(char *into, size_t room, const struct place *place);
void xi_text(char *into, size_t room, const struct deviation *one);
void xi_print(FILE *file, const struct deviation *path, unsigned count);
int xi_read_schedule(const char *path, struct deviation *into);
_Noreturn void xi_refuse(const char *path, unsigned number, const char *why);

extern const char *const xi_outcomes[9], *const xi_fates[5];

/* log.c: the lines of a run that is replayed with --log */
void xi_log_value(uint32_t value);
void xi_log_bytes(const void *bytes, size_t count);
void xi_log_touch(uint64_t address);
void xi_log_request(const char *result);
void xi_log_mark(const char *mark, bool is_deviation);
void xi_log_step(const char *action, const char *result, bool is_deviation);
void xi_log_hold(const char *action);
void xi_log_fault(const char *slot, const char *reason);

/* steps.c: the steps of a run in JSON. log.c calls these functions while xi_steps isn't NULL. */
extern FILE *xi_steps;
extern void (*xi_draws_chart)(const struct deviation *path, unsigned count);
extern bool xi_steps_are_short;
void xi_step_value(uint32_t value);
void xi_step_bytes(const void *bytes, size_t count);
void xi_step_touch(const uint8_t *bytes, size_t count);
void xi_step_request(const char *result);
void xi_step_mark(const char *mark, bool is_deviation);
void xi_step_taken(const char *action, const char *result, bool is_deviation);
void xi_step_hold(const char *action);
void xi_step_fault(const char *slot, const char *reason);
void xi_steps_begin(FILE *file, const struct deviation *path, unsigned count);
void xi_steps_open(const struct deviation *path, unsigned count);

/* html.c: the page of a run, with --html */
void xi_html_begin(void);
extern const char xi_page_head[], xi_page_middle[], xi_page_end[]; /* page.c */
int xi_html_end(int status);

/* search.c and draw.c */
enum { EVERY = -1, DEEPEST = 16 };
struct found { /* what a search has shown */
    bool fails;
    double schedules, tried[DEEPEST + 1]; /* that were tried: all, and by their numbers of deviations */
    size_t states;
    bool is_complete; /* all schedules were tried */
    bool differs; /* this run differs from that of the same schedule from nothing, which has the fault `fresh` */
    bool is_known; /* or it leads through a known state, and fails */
    unsigned count;
    struct deviation path[MOST_PATH];
    char fault[128], fresh[128];
};
extern uint64_t xi_repeated; /* runs of searches that were played again from nothing */
extern uint64_t xi_played_on; /* runs that were played on from known states */
void xi_explore(int depth, bool with_holds, bool finds_all, size_t most_states, struct found *found);
extern bool (*xi_has_key)(void); /* whether the state here can be compared, though it can't be saved; or NULL */
extern int (*xi_share)(uint8_t *actions, int count); /* what keeps the options of this process, or NULL */
void xi_count_tried(double *tried);
void xi_keep(struct found *found);
extern struct pct {
    unsigned depth, actors, events; /* the depth of PCT, or 0; events of a run without deviations, from round 1 on */
} xi_pct;
void xi_set_pct(unsigned depth);
double xi_bound(void);
void xi_draw(uint64_t seed, bool with_holds, bool is_new);
void xi_forget_first_round(void);

/* replay.c: given schedules. A lack is what doesn't agree with a run that is replayed: a text, and the first deviation
 * whose place the run doesn't reach */
struct lack {
    char text[128];
    unsigned unreached;
};
void xi_replay(const struct deviation *path, unsigned count, bool is_new, struct lack *lack);

/* shrink.c: smaller schedules that fail */
void xi_shrink(struct found *found);

/* words.c: what the words of the command ask for */
enum { DRAWN = -2 };
extern const char *xi_program, *xi_help; /* its name in messages */
extern bool xi_has_command; /* whether the test is a command, whose requests come through a pipe */
extern struct given {
    int depth; /* of an exploration, EVERY or DRAWN */
    uint64_t runs, seed, states;
    unsigned pct, seconds;
    bool holds, json, check, again, pipe, all, log;
    const char *replay, *out, *serve, *html;
} xi_given;
extern char xi_command[1024]; /* the words of the test */
extern char xi_options_line[512]; /* the options of the adapter that a command has, as words */
void xi_take_words(int count, char **words);

/* fresh.c: runs in memory as it was before the first run */
extern bool xi_is_fresh; /* whether this process plays one such run */
void xi_fresh_begin(void);
struct outcome xi_fresh_play(const struct deviation *path, unsigned count);
struct outcome xi_fresh_draw(uint64_t seed);
pid_t xi_forked(void);
struct outcome xi_fresh_apart(const struct deviation *path, unsigned count);

/* seen.c: what the runs have seen */
void xi_see_ring(bool sends, bool is_step);
void xi_see_fate(uint32_t fate);
void xi_see_handler(bool in_send);
void xi_see_place(void);
void xi_see_deviation(void);
void xi_each_kind(void (*with)(const struct place *place, bool is_later, bool has_deviation));
void xi_add_kind(const struct place *place, bool is_later, bool has_deviation);
void xi_say_seen(void);
void xi_print_seen(void);

/* untold.c: stores in the host's memory that no access has told */
extern bool xi_watches_host; /* whether they are looked for */
void xi_tell_store(bool is_store, uint64_t address);
void xi_stop_host(void);
void xi_go_host(bool asks);
const char *xi_untold(void);

/* kinds.c: schedules and seeds that fail */
extern void (*xi_takes_failed)(const struct deviation *path, unsigned count, const char *fault); /* elsewhere, or NULL */
void xi_add_failed(const struct deviation *path, unsigned count, const char *fault);
void xi_add_seed(uint64_t seed, const char *fault);
void xi_without_slot(char *name);
void xi_print_kinds(void);
void xi_print_failed(void);
uint64_t xi_failed(void);

/* searches.c: the searches of a command */
extern bool xi_is_first_short; /* whether schedules of one deviation are tried first, though no state is saved */
extern void (*xi_takes_drawn)(uint64_t seed); /* what plays the runs of seeds elsewhere, or NULL */
extern void (*xi_explores_by)(int depth, bool with_holds, bool finds_all, size_t most_states, struct found *found);
int xi_by_depth(void);
int xi_by_draws(void);
int xi_report(int least);
int xi_replay_given(void);
int xi_unsaved(const char *run);
int xi_compare_some(void);

/* result.c: the result of the command */
enum { NONE = -1 };
extern struct result {
    uint64_t runs, states, seed; /* drawn runs; states of the last search; the seed of the first run that fails, or 0 */
    int is_complete, is_smallest; /* or NONE */
    double first, schedules, tried[DEEPEST + 1]; /* schedules tried before drawing, or NONE; those of the last search */
    unsigned widths; /* of `tried` */
    struct found found;
} xi_result;
void xi_show(void);
void xi_confirm_found(void);
int xi_finish(const char *result, int status);

/* tell.c: what is printed, and signals */
extern FILE *xi_out, *xi_errors;
void xi_open(bool shares);
_Noreturn void xi_die(const char *why);
_Noreturn void xi_die_of(const char *what, const char *name);
void xi_say(const char *format, ...) __attribute__((format(printf, 1, 2)));
void xi_progress(const char *format, ...) __attribute__((format(printf, 1, 2)));
bool xi_is_time(void);
double xi_spent(void);
const char *xi_number(double number);
void xi_print_string(FILE *file, const char *text);
void xi_print_lines(FILE *file, const struct deviation *path, unsigned count);
void xi_listen(void);
void xi_limit_time(void);
void xi_begin_time(void);
void xi_end_time(void);
bool xi_is_late(void);
int xi_stopped(void);
void xi_stop(int number);
extern bool xi_is_cut; /* whether a signal has ended the last run, which then shows nothing */
const char *xi_why(void);

/* signals.c: names of signals, and those that the test sends to itself */
const char *xi_signal(int number);
const char *xi_ended_by(int number);
void xi_know_action(int number, const void *handler);
long xi_send_signal(long number);
long xi_mask_call(const long *words);
bool xi_is_action_known(const long *words);
long xi_action_call(const long *words);

/* confirm.c: schedules that are played by `nicbench serve` */
const char *xi_confirm(const char *program, const struct deviation *path, unsigned count, char *fault, size_t room);

/* pipe.c: the calls of the test as requests of `nicbench serve` */
extern bool xi_is_piped;
int xi_pipe(void);
uint32_t xi_pipe_read(uint32_t offset);
void xi_pipe_write(uint32_t offset, uint32_t value);
void xi_pipe_load(uint64_t address, void *into, size_t count);
void xi_pipe_store(uint64_t address, const void *bytes, size_t count);
uint32_t xi_pipe_request(enum event event, uint32_t kind, const void *frame, size_t count);
bool xi_pipe_line(void);
unsigned xi_pipe_choose(unsigned count);
void xi_pipe_mark(const char *text);

#endif
