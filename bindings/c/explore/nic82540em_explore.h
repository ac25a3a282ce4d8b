/* Searches the schedules of a driver's test, in the process of the test.
 *
 * A test is a function. It lets frames arrive, calls a driver, and returns NULL, or a text that states what is wrong.
 * Before each access of the driver and each request of the test, a schedule may let the adapter take steps, and offered
 * frames arrive. The explorer runs the test with one schedule after another. If the test fails with one, the explorer
 * looks for a schedule with fewer deviations, and prints the smallest one that it has found. docs/RACES.md describes
 * the searches, and what a pass means. A call with a wrong argument, such as NULL for bytes, ends the run, which fails.
 *
 *     static const char *receives(void *word) { .. }
 *     int main(int count, char **words) { return nic82540em_explore(count, words, receives, "wrong"); }
 *
 * Rules for the test and its driver:
 *   - What they write is a part of the test's state: the stack, static and thread-local variables, memory of malloc, mmap
 *     and x_memory, the C library's own variables, what it keeps for the thread, and which signals are blocked, ignored
 *     and pending. Each run begins with this memory as it was when nic82540em_explore was called, and afterwards it is so
 *     again. What the test prints is printed only by --replay.
 *   - They use no clock, no random numbers and no input, open no file, handle no signal, and start no process and no
 *     thread. On x86-64, a system call for one of these ends the search, and is named. The process has no other thread
 *     when nic82540em_explore is called. A handler ends by a return, and not by longjmp.
 *   - The test passes without deviations, so it calls x_step or x_settle itself.
 *   - A driver that shares variables with its handler calls x_touch before it uses one, or is compiled with the hooks of
 *     pointers/hooks.c. Without both, the handler cuts in only before and after accesses and other calls, and no race
 *     between two variables is found.
 *   - Requests (x_arrive, x_offer, x_step, x_settle) are calls of the test, and not of the driver.
 */
#ifndef NIC82540EM_EXPLORE_H
#define NIC82540EM_EXPLORE_H

#include "nic82540em.h"

#ifdef __cplusplus
extern "C" {
#endif

/* Searches as the words of the command ask for: `--help` prints the options. Words before the first option belong to
 * the test. Returns the exit status, or ends the process with it. 0: no schedule fails. 1: one fails. 2: a word or a
 * schedule is invalid. 3: the explorer can't go on. 4: nothing was searched. 5: a run of the search isn't as its schedule
 * played from nothing, or fails behind a state from which all have passed, so the search is wrong. If a signal has ended the search, the status is 128 plus its number. */
int nic82540em_explore(int count, char **words, const char *(*test)(void *argument), void *argument);

/* The options of the adapter: NIC82540EM_DEFAULTS, unless they are changed before nic82540em_explore is called. */
extern struct nic82540em_options x_options;

/* A device, whose steps the search plays between the accesses of its driver. The 82540EM is one. Another one is a model
 * that a test gives to x_use before it calls nic82540em_explore: docs/DEVICES.md has an example. Its state is in static
 * variables, which the explorer saves and compares as it does those of the test. Its functions make no system call, use
 * no memory of malloc, and call nothing of this header but x_host. */
struct x_device {
    const char *name;
    uint64_t memory;               /* the size of the host's memory, in bytes: at most 16 MiB, zeros at first */
    unsigned kinds;                /* of steps: 1 to X_KINDS. A step changes what nobody else can see half done */
    const char *const *steps;      /* their words in schedules */
    const unsigned *engines;       /* the number of the engine that takes steps of each kind, from 0, below X_KINDS. Steps of
                                    * two engines can be exchanged: they read and write other memory */
    unsigned clocks;               /* bit n: a step of kind n is taken before each access if it is possible, unless a schedule
                                    * holds it. At most 2 kinds */
    struct x_pair {
        const char *name;          /* NULL: there is no such pair */
        unsigned first, second;    /* kinds of steps of one engine, which are also played as one deviation */
    } pairs[2];
    void (*reset)(void);           /* as after power on: each run begins with it */
    unsigned (*possible)(void);    /* bit n: a step of kind n would do something now */
    const char *(*step)(unsigned kind);              /* takes a step that is possible. Returns what it did, in a word */
    uint32_t (*read)(uint32_t offset);               /* the driver reads a register */
    void (*write)(uint32_t offset, uint32_t value);  /* the driver writes a register. Only steps write the host's memory */
    bool (*line)(void);                              /* whether the interrupt line is asserted */
    const char *(*name_of)(uint32_t offset);         /* the name of a register, or NULL */
    const char *(*name_memory)(uint64_t address);    /* a name of these bytes of memory, such as ring[1], or NULL. Both names
                                                      * depend on the argument alone */
    uint32_t (*arrive)(const void *frame, size_t count); /* a frame arrives; returns its fate. NULL: none can */
};
enum { X_KINDS = 8 };
void x_use(const struct x_device *device);

/* The accesses of the driver, as nic82540em_read, _write, _load and _store. Before each access, the EEPROM and the PHY
 * each take a step if they have work, unless the schedule holds this step. Then deviations may be played. A load or
 * store of bytes outside memory ends the test, which fails. */
uint32_t x_read(uint32_t offset);
void x_write(uint32_t offset, uint32_t value);
void x_load(uint64_t address, void *into, size_t count);
void x_store(uint64_t address, const void *bytes, size_t count);

/* The driver is about to access memory by a pointer, or a variable that it shares with its handler (address 0: `touch`
 * in schedules). Before
 * it, steps and deviations may be played as before x_load or, if `is_store` is true, x_store. x_host returns the
 * address of the host's memory, and stores its size in bytes. */
void x_touch(bool is_store, uint64_t address);
uint8_t *x_host(uint64_t *size);

/* For compilers' hooks, as those of pointers/hooks.c: the driver is about to access memory by a pointer. An access of the
 * host's memory is a place, and so is one of a variable that the handler may share, while a handler may cut in. */
void x_access(bool is_store, const void *at);

/* As x_access for a variable outside of the host's memory, with or without a handler. The handler doesn't cut in after it,
 * except by `irq` before a later place. The search notes who uses each 8 bytes: the test, the handler, and each actor. It
 * tries deviations only before accesses of those that two of them use and one stores in, and begins again when it finds
 * more of these: what is done before another access can as well be done before the next place. */
void x_variable(bool is_store, const void *at);

/* The requests of the test. Each begins a round, as with `nicbench serve`. Before each, deviations may be played.
 * Frames have no checksum. */
uint32_t x_arrive(const void *frame, size_t count); /* a frame arrives; returns its fate */
void x_offer(const void *frame, size_t count);      /* a frame arrives by the schedule, or in the next x_settle */
uint32_t x_step(uint32_t kind); /* a step of the adapter; returns its outcome, or NIC_REFUSED if there is no such kind. Of
                                 * another device: 1 if the step did something, or else 0 */
uint64_t x_settle(void); /* all offered frames arrive, and then cycles are played until one does nothing. Returns the
                          * number of frames that arrived, and of steps with another outcome than NIC_NOTHING or
                          * NIC_WIREFULL, and 1 more if the handler has cut in, or is late. So after it returns 0,
                          * nothing is left */

/* Returns whether the interrupt line is asserted. Before it looks, deviations may be played. */
bool x_line(void);

/* A choice of the test: returns 0, or by a deviation another number below `count`, which is 1 to 16. So a test can decide
 * whether a timer fires, the driver is closed, or memory is refused. */
unsigned x_choose(unsigned count);

/* Actors of the test: other code than the one that runs, such as a timer, a second processor's work, or a user. Before each
 * access, request, x_touch and other place, a schedule may let one of them run whose `ready` returns true: the deviation
 * has its name (`watchdog before read CTRL`). The code that it interrupts goes on when `run` returns, so an actor runs to
 * its end on the stack of what it interrupts. While it runs, the handler and other actors may cut in. `ready` reads only the
 * test's own memory, and calls nothing of this header. Call x_actors before nic82540em_explore, with at most 8 actors and
 * names of at most 24 characters. --pct lets no actor run. */
struct x_actor {
    const char *name;
    bool (*ready)(void);
    void (*run)(void);
};
enum { X_ACTORS = 8 };
void x_actors(const struct x_actor *actors, unsigned count);

/* Ends the run, which passes, since it can't happen: for example, because an actor would have to wait for one that it has
 * interrupted. The runs that were ended so are counted apart (`impossible`). */
void x_impossible(void);

/* The frames that were put on the wire, and those that arrived, with any fate, each from number 0 on. x_put and
 * x_arrived copy up to `room` bytes of a frame into `into`, and return the frame's length in bytes. If no frame has
 * this number, they return 0. x_arrived stores the frame's fate in `fate`, or NIC_REFUSED if there is no such frame. */
unsigned x_put_count(void);
size_t x_put(unsigned number, void *into, size_t room);
unsigned x_arrived_count(void);
size_t x_arrived(unsigned number, uint32_t *fate, void *into, size_t room);

/* Forgets the frames that were put and those that arrived: the next ones have the numbers from 0 on. Call x_forget
 * after the frames were compared: then runs that put the same frames in another order come to the same state. Between
 * two calls of x_forget, at most 256 frames may be put, and at most 256 may arrive. The frames that are put have at
 * most 128 KiB together, and so have the frames that arrive. */
void x_forget(void);

/* From now on, this handler cuts in after each access, request, x_touch and x_interrupts(true) that leaves the line
 * asserted, unless it runs or is kept out; at once, if the line is asserted now. By a deviation, it cuts in before an
 * access or another call if the line is asserted there (`irq`), or between two steps of x_settle. By another one, it is
 * late: it cuts in after the next access, even if the line is lowered by then (`late irq`). With NULL, no handler cuts
 * in. If the line is still asserted when the handler returns, the handler runs again. x_interrupts keeps the handler
 * out, or, if `is_on` is true, lets it in again, and returns whether it was let in before. A handler that is let in
 * while the line is asserted, or late, cuts in at once. Before both calls, deviations may be played (`handler on` and
 * `handler off`, `interrupts on` and `interrupts off` in schedules), except before an x_interrupts without a handler, or
 * one that keeps out what is kept out. */
void x_handler(void (*handler)(void));
bool x_interrupts(bool is_on);

/* Returns `size` bytes of zeros. Call x_memory in the test, and not in main. All calls of a run have at most 1 MiB. */
void *x_memory(size_t size);

/* Returns whether the test runs now, on its own stack, and not the explorer. */
bool x_inside(void);

#ifdef __cplusplus
}
#endif
#endif
