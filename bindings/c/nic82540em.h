/* An Intel 82540EM and its host's memory in the process of a driver.
 *
 * The adapter takes steps only during calls: in nic82540em_step, _settle and _begin_round, and in accesses and
 * nic82540em_arrive. nic82540em_interleave, _schedule, _ticks and _play choose the steps before accesses, _pace those
 * after them, and _play those of _begin_round. docs/LIBRARY.md describes the calls, and docs/ADAPTER.md the registers
 * and the steps.
 *
 * Rules for all calls:
 *   - Begin with a `struct nic82540em` of zeros, such as NIC82540EM_NONE. Don't read, change or copy its members.
 *   - Don't pass a null pointer, also not for 0 bytes.
 *   - The areas that two pointers of one call point to must not overlap.
 *   - Make all calls for one adapter in one thread.
 *
 * Only these calls request memory: nic82540em_new, _copy, _offer and _play; _serve, _answer, _comes and _deviate.
 *
 * The handle `nic` has no adapter before nic82540em_new and after nic82540em_free. Then each call but nic82540em_new
 * changes nothing. If the call has a result, the result is 0, false or NIC_REFUSED. nic82540em_print is no such call.
 * The same holds of the handle `server` with nic82540em_serve and nic82540em_close.
 *
 * The code of these calls is proved, except in a library of `tools/library --quick`. This header, heap.c and your
 * program are trusted.
 */
#ifndef NIC82540EM_H
#define NIC82540EM_H

#include <stdbool.h>
#include <stddef.h>
#include <stdint.h>
#include <stdio.h>

#ifdef __cplusplus
extern "C" {
#endif

/* A handle of an adapter. */
struct nic82540em {
    bool held;
    void *state;
};

/* A handle without an adapter. */
#define NIC82540EM_NONE { false, NULL }

/* What a new adapter is made of. */
struct nic82540em_options {
    uint64_t memory;    /* the size of the host's memory in bytes; memory begins at address 0 */
    uint32_t link;      /* the number of NIC_PHY steps from the start of negotiation until the link is up, at most
                         * 65,535; 0: the link is never up */
    uint32_t rxa;       /* PBA.RXA, the size of the receive packet buffer in kilobytes: an even number from 2 to 48 */
    uint8_t address[6]; /* the Ethernet address in the EEPROM, unless `image` is the EEPROM's contents */
    bool has_image;     /* whether `image` is the EEPROM's contents */
    uint32_t missed;    /* MPC, the number of missed packets, at the start */
    uint16_t image[64]; /* all words of the EEPROM, if `has_image` is true, also with a wrong checksum; words 0 to 2 are
                         * the address */
};

/* The options that `nicbench serve` has by default. */
#define NIC82540EM_DEFAULTS { 1 << 20, 1, 48, { 0x02, 0, 0, 0, 0, 0x01 }, false, 0, { 0 } }

/* The result of nic82540em_step, _arrive or _play if the handle has no adapter. nic82540em_step and _play return it in
 * other cases, too. */
#define NIC_REFUSED 0xFFFFFFFFu

/* The kinds of steps (docs/ADAPTER.md, "Steps"). */
enum {
    NIC_TXTAKE, /* take a frame from the transmit ring */
    NIC_TXPUT,  /* put a frame on the wire */
    NIC_RXDATA, /* write a piece of a received frame to memory */
    NIC_RXDONE, /* write back the descriptor of the piece */
    NIC_EEPROM, /* complete a read of the EEPROM */
    NIC_PHY     /* advance negotiation, and complete an MDIC command */
};

/* The outcomes of steps (docs/ADAPTER.md, "Steps"). */
enum {
    NIC_NOTHING,  /* there was nothing to do, or the step's engine is stopped */
    NIC_TOOK,     /* a frame was taken from the transmit ring */
    NIC_PUT,      /* a frame was put on the wire */
    NIC_WIREFULL, /* a frame is to be put, but 64 frames wait on the wire, or nic82540em_fill_wire filled it; nothing
                   * changed */
    NIC_PART,     /* a piece of a received frame was written, and more of the frame is left */
    NIC_MOVED,    /* the last piece of a received frame was written; it may be the only one */
    NIC_DONE,     /* a receive descriptor was written back */
    NIC_TICKED,   /* the EEPROM or the PHY did something */
    NIC_FAULT     /* the step can't be done, for one of the reasons below; steps of this kind then do nothing until a
                   * write of CTRL with RST */
};

/* The fates of frames that arrive: the first that applies. */
enum {
    NIC_OFF,      /* the receiver is off: RCTL.EN is clear */
    NIC_ILLEGAL,  /* the frame has fewer than 60 or more than 1,518 bytes */
    NIC_FILTERED, /* the receive filter rejects the frame */
    NIC_MISSED,   /* the receive packet buffer has no room for the frame */
    NIC_STORED    /* the frame was stored in the receive packet buffer */
};

/* The reasons of faults (docs/REQUESTS.md, "Faults"): the first that applies. */
enum {
    NIC_NO_FAULT,         /* there is no fault */
    NIC_FAULT_RING,       /* the ring has no descriptors, or head or tail isn't the index of one */
    NIC_FAULT_DESCRIPTOR, /* the descriptor isn't inside memory */
    NIC_FAULT_DEXT,       /* DEXT is set in a transmit descriptor */
    NIC_FAULT_EOP,        /* EOP is clear in a transmit descriptor */
    NIC_FAULT_LENGTH,     /* the length in a transmit descriptor is 0 or above 1,518 */
    NIC_FAULT_BUFFER,     /* some bytes that the step reads or writes at the address in the descriptor aren't inside
                           * memory */
    NIC_FAULT_BSEX        /* RCTL.BSEX is set, at NIC_RXDATA; this reason comes after NIC_FAULT_RING */
};

/* What an event is. */
enum {
    NIC_STEPPED, /* a step had another outcome than NIC_NOTHING */
    NIC_ARRIVED, /* a frame arrived */
    NIC_LINE     /* the interrupt line changed */
};

/* An event. */
struct nic82540em_event {
    uint32_t what;   /* NIC_STEPPED, NIC_ARRIVED or NIC_LINE */
    uint32_t kind;   /* the kind of the step, or 0 if `what` isn't NIC_STEPPED */
    uint32_t value;  /* the outcome of the step, the fate of the frame, or whether the line is asserted: 1 or 0 */
    uint32_t reason; /* the reason if the event is a step with the outcome NIC_FAULT, else NIC_NO_FAULT */
    uint32_t index;  /* TDH or RDH, the index of the descriptor, if the event is such a step, else 0 */
};

/* Makes an adapter, with memory of zeros and an empty wire. Returns false, and changes nothing, if the handle has an
 * adapter, a number of the options is out of range, or memory is refused. */
bool nic82540em_new(struct nic82540em *nic, const struct nic82540em_options *options);

/* Frees the adapter of the handle. The handle may then be used for another adapter. */
void nic82540em_free(struct nic82540em *nic);

/* Accesses of a driver: nic82540em_read, _write, and each nic82540em_load and _store that returns true. An access is
 * counted. Steps may be played before it (nic82540em_ticks, _schedule, _interleave, _play), and cycles of steps after
 * it (nic82540em_pace). */

/* Reads the register at an offset in bytes. Returns 0 at an offset without a register. */
uint32_t nic82540em_read(struct nic82540em *nic, uint32_t offset);

/* Writes the register at an offset in bytes. Does nothing at an offset without a register. */
void nic82540em_write(struct nic82540em *nic, uint32_t offset, uint32_t value);

/* Loads `count` bytes of the host's memory from an address on into `into`. Returns false if `address` + `count` is
 * above the size of memory; then nothing changed, and no access is counted. */
bool nic82540em_load(struct nic82540em *nic, uint64_t address, void *into, size_t count);

/* Stores `count` bytes in the host's memory from an address on. Returns false if `address` + `count` is above the size
 * of memory; then nothing changed, and no access is counted. */
bool nic82540em_store(struct nic82540em *nic, uint64_t address, const void *bytes, size_t count);

/* Returns the number of accesses so far, up to UINT64_MAX. This is the number of the next access; the first access has
 * number 0. nic82540em_recount sets this number. */
uint64_t nic82540em_accesses(struct nic82540em *nic);
void nic82540em_recount(struct nic82540em *nic, uint64_t accesses);

/* Return the numbers of received frames and of frames to be sent in the packet buffer. A received frame is there until
 * its last piece is written to memory, and a frame to be sent until it is put on the wire. */
uint32_t nic82540em_waiting_received(struct nic82540em *nic);
uint32_t nic82540em_waiting_transmit(struct nic82540em *nic);

/* Stores the address of the first byte of the host's memory in `into`, if memory isn't empty, and returns the size of
 * memory in bytes. Use the address for rings and buffers that your driver accesses by pointers. The address stays the
 * same until nic82540em_free. What the driver reads and writes there isn't counted, and no step is played before it. */
uint64_t nic82540em_memory(struct nic82540em *nic, void **into);

/* Stores the value of the register at an offset in `into`, and returns true. This is the value that a read would return
 * now, without steps before the read. Nothing else changes: the call isn't an access, and clears no register. */
bool nic82540em_peek(struct nic82540em *nic, uint32_t offset, uint32_t *into);

/* What the adapter and the wire do. */

/* Makes the adapter take a step of this kind. Returns the outcome, or NIC_REFUSED if there is no such kind. */
uint32_t nic82540em_step(struct nic82540em *nic, uint32_t kind);

/* Returns the kinds of steps that have something to do now. Bit `kind` is set if and only if the outcome of a step of
 * this kind would not be NIC_NOTHING. Nothing changes. */
uint32_t nic82540em_possible(struct nic82540em *nic);

/* Delivers a frame of `count` bytes, without its checksum, to the adapter. Cycles may follow (nic82540em_pace). Returns
 * the frame's fate. */
uint32_t nic82540em_arrive(struct nic82540em *nic, const void *frame, size_t count);

/* Offers a frame of `count` bytes, without its checksum, to the adapter: the frame waits after those that were offered
 * before. The oldest waiting frame may arrive before an access (nic82540em_interleave, _play) or before a request
 * (nic82540em_begin_round). The frames that still wait at the next nic82540em_settle arrive then. Events report the
 * fates. Returns false, and changes nothing, if memory is refused. */
bool nic82540em_offer(struct nic82540em *nic, const void *frame, size_t count);

/* From now on, the wire is full if `full` is true: no frame is put on the wire, even if fewer than 64 wait. If `full`
 * is false, the wire is full only while 64 frames wait. */
void nic82540em_fill_wire(struct nic82540em *nic, bool full);

/* Takes the oldest frame off the wire, and stores it in `into`, if the frame has at most `room` bytes. Returns the
 * frame's length in bytes, or 0 if no frame waits. If the result is greater than `room`, the frame is still on the
 * wire, and `into` is unchanged. A frame has at most 1,518 bytes. */
size_t nic82540em_take_put(struct nic82540em *nic, void *into, size_t room);

/* Returns whether the interrupt line is asserted. */
bool nic82540em_line(struct nic82540em *nic);

/* Lets all offered frames arrive, and plays cycles, each with one step of each kind. Stops after a cycle in which no
 * step did anything, or after 131,072 cycles. Returns the number of steps of the cycles that did something: all but
 * those with the outcome NIC_NOTHING or NIC_WIREFULL. */
uint64_t nic82540em_settle(struct nic82540em *nic);

/* From now on, up to `count` random steps and arrivals of offered frames are played before each access. While a
 * schedule of nic82540em_play is played, none are. The seed determines them: they are those of `nicbench serve --seed
 * SEED` after its first `interleave COUNT`. Returns false, and changes nothing, if `count` is above 65,535. */
bool nic82540em_interleave(struct nic82540em *nic, uint32_t count, uint64_t seed);

/* From now on, cycles are played after each access and each nic82540em_arrive until one does nothing, up to `count`
 * cycles. They are those of nic82540em_settle, but offered frames don't arrive. Returns false, and changes nothing, if
 * `count` is above 65,535. */
bool nic82540em_pace(struct nic82540em *nic, uint32_t count);

/* Returns a number below `limit`, or 0 if `limit` is 0. While random steps are played before accesses
 * (nic82540em_interleave), the number is random, and the seed determines it. Otherwise, it is the number that the
 * schedule of nic82540em_play has for this call, if this number is below `limit`, or else 0. A test may choose its next
 * packet by this call, as by `choose` of `nicbench serve`. */
uint32_t nic82540em_choose(struct nic82540em *nic, uint32_t limit);

/* Adds a step of this kind to the end of the list of scheduled steps. Before each access, the first steps of the list
 * are removed and played, up to a step whose `access` is above the access's number. Random steps come after them. So
 * add steps in the order of their accesses. Returns false, and changes nothing, if there is no such kind, or 4,096
 * steps wait. */
bool nic82540em_schedule(struct nic82540em *nic, uint64_t access, uint32_t kind);

/* From now on, if `on` is true, a step NIC_EEPROM and then a step NIC_PHY are played before each access, before the
 * scheduled steps. If `on` is false, they aren't. With them, an EEPROM read or an MDIC command ends before the next
 * access, and negotiation goes on at each access. A new adapter has no such steps. */
void nic82540em_ticks(struct nic82540em *nic, bool on);

/* Schedules: what happens before accesses and requests of a test, as text (finder/README.md, "A schedule"). */

/* From now on, plays the schedule in these `count` bytes, in place of another one, as `nicbench serve --schedule` does.
 * Before each access, the EEPROM and the PHY each take a step if they have work, unless the schedule holds this step.
 * The deviations of the access follow, and then the steps of nic82540em_ticks and _schedule. There are no random steps,
 * and nic82540em_choose returns the schedule's numbers. A line `options` has no effect. Returns 0. If a line is faulty,
 * returns the number of the first faulty line, from 1 on. Returns NIC_REFUSED if the text isn't UTF-8, memory is
 * refused, or this number is above 0xFFFFFFFE. Unless the result is 0, nothing changes. */
uint32_t nic82540em_play(struct nic82540em *nic, const void *text, size_t count);

/* The requests that begin a round. */
enum {
    NIC_BY_ARRIVE, /* nic82540em_arrive */
    NIC_BY_OFFER,  /* nic82540em_offer */
    NIC_BY_STEP,   /* nic82540em_step */
    NIC_BY_SETTLE  /* nic82540em_settle */
};

/* Begins a round of the schedule with this request: plays the deviations before the request. Call
 * nic82540em_begin_round before each such call of the test. Without a schedule, nothing happens. Returns false, and
 * changes nothing, if there is no such request, and true otherwise. */
bool nic82540em_begin_round(struct nic82540em *nic, uint32_t request);

/* Events: what happened in calls, also in steps before and after accesses. */

/* From now on, new events are kept if `on` is true, and aren't kept if `on` is false. While 4,096 events wait, a
 * further event isn't kept. A new adapter keeps no events. */
void nic82540em_events(struct nic82540em *nic, bool on);

/* Removes the oldest event that waits, stores it in `into`, and returns true. Returns false, and changes nothing, if no
 * event waits. */
bool nic82540em_take_event(struct nic82540em *nic, struct nic82540em_event *into);

/* States of an adapter. */

/* Copies the adapter of `nic` into the handle `into`, which must have no adapter. The copy has the same memory, wire,
 * offered frames, schedules, settings, generator, events and number of accesses. The same calls on both adapters have
 * the same results, except that nic82540em_memory stores other addresses. Returns false, and changes nothing, if `nic`
 * has no adapter, if `into` has one, or if memory is refused. */
bool nic82540em_copy(struct nic82540em *nic, struct nic82540em *into);

/* Returns a digest of the adapter's state and of its host's memory, as `digest` of `nicbench serve`. It doesn't cover
 * the EEPROM's words, the wire, offered frames, events, schedules, the generator, settings, or the number of accesses.
 * Equal states have equal digests, and different states nearly always have different ones. The call takes time in
 * proportion to the size of memory. */
uint64_t nic82540em_digest(struct nic82540em *nic);

/* Returns a digest of the adapter's state: its registers, PHY, frames in packet buffers, and work in progress.
 * Adapters with the same state have equal digests for each seed. The digest covers neither the host's memory nor what
 * nic82540em_digest doesn't cover. */
uint64_t nic82540em_state_digest(struct nic82540em *nic, uint64_t seed);

/* Returns the length of the name by which schedules name what an access reaches, and copies the first `room` bytes of
 * the name to `into`: a register as ICR, a byte of a descriptor as rx[1]+8, or a byte of memory as 0x10000. If `before`
 * is 1 or 2, `address` is the offset of a register; if it is 3 or 4, an address in the host's memory. Nothing changes.
 * Returns 0 for another number, or an offset above 0xFFFFFFFF. A name has at most 128 bytes. */
size_t nic82540em_name(struct nic82540em *nic, uint32_t before, uint64_t address, void *into, size_t room);

/* Lines of `nicbench serve`, answered in process (docs/SERVE.md): a test in another program writes the lines, and this
 * program answers each of them, and lets the adapter take steps before it. */

/* A handle of a served adapter. It begins with zeros, as `struct nic82540em`. */
struct nic82540em_server {
    bool held;
    void *state;
};

/* Makes an adapter as nic82540em_new does, and its server. `registers` is the address of the first register, and `seed`
 * the seed of `interleave` (0xFEB00000 and 0 by default in `nicbench serve`). Returns false, and changes nothing, in
 * the cases of nic82540em_new. */
bool nic82540em_serve(struct nic82540em_server *server, const struct nic82540em_options *options, uint64_t registers,
                      uint64_t seed);

/* Frees the server of the handle. The handle may then be used for another server. */
void nic82540em_close(struct nic82540em_server *server);

/* Answers a line of `length` bytes, without its line feed: changes the server as `nicbench serve` would, and returns
 * the number of bytes that it would write. The first `room` of these bytes are copied to `into`; nic82540em_told copies
 * them again. They begin with what nic82540em_deviate told since the answer before.
 *
 * Returns 0 if memory was refused. The server is then dead: from now on, each call of it returns 0 or false, and does
 * nothing, until nic82540em_close. */
size_t nic82540em_answer(struct nic82540em_server *server, const void *line, size_t length, void *into, size_t room);

/* Returns the number of bytes of the last answer, and copies the first `room` of them to `into`. */
size_t nic82540em_told(struct nic82540em_server *server, void *into, size_t room);

/* What a line is in a schedule. */
enum {
    NIC_COMES_NOTHING, /* no place of a schedule: the line is refused, looks, changes a setting, or sets the clock */
    NIC_COMES_READ,    /* a read of a register or of memory */
    NIC_COMES_WRITE,   /* a write of a register or of memory */
    NIC_COMES_ARRIVE,  /* `arrive` */
    NIC_COMES_OFFER,   /* `offer` */
    NIC_COMES_STEP,    /* `step` */
    NIC_COMES_SETTLE,  /* `settle` */
    NIC_COMES_CHOOSE   /* `choose` */
};

/* The place of a line in a schedule. */
struct nic82540em_coming {
    uint32_t kind;    /* NIC_COMES_NOTHING .. NIC_COMES_CHOOSE; the other members are 0 if it is NIC_COMES_NOTHING */
    uint32_t round;   /* the number of the round */
    uint32_t access;  /* the number of the access in the round, from 1; 0: the line begins the round */
    uint64_t address; /* the address of a read or a write, else 0 */
    uint32_t limit;   /* the limit of `choose`, else 0 */
};

/* Stores in `coming` what a line would be if it came now. Returns the length of its name in schedules, such as ICR,
 * rx[1]+8 or settle, and copies the first `room` bytes of the name to `name`. The line isn't answered, and nothing
 * changes. If memory was refused, stores NIC_COMES_NOTHING and returns 0, and the server is dead. */
size_t nic82540em_comes(struct nic82540em_server *server, const void *line, size_t length,
                        struct nic82540em_coming *coming, void *name, size_t room);

/* Returns what nic82540em_deviate would do something for now: bit `kind` for a step of this kind, and bit 31 if an
 * offered frame waits. */
uint32_t nic82540em_can(struct nic82540em_server *server);

/* The number by which nic82540em_deviate lets the oldest offered frame arrive. */
#define NIC_OFFERED 6u

/* Makes the adapter take a step of the kind `action`, or lets the oldest offered frame arrive if `action` is
 * NIC_OFFERED. Returns whether this did something. What the server would write about it comes before the text of the
 * next answer: a new level of the interrupt line, and lines of the log and of events. Returns false, and does nothing,
 * for another number. If memory was refused, returns false, and the server is dead. */
bool nic82540em_deviate(struct nic82540em_server *server, uint32_t action);

/* Sets the number that answers the next request `choose`, if the number is below its limit. Otherwise the answer is 0.
 * While steps are random (`interleave`), the answer is random. Returns true, or false if the server is dead. */
bool nic82540em_answers(struct nic82540em_server *server, uint32_t number);

/* Returns nic82540em_state_digest of the served adapter. */
uint64_t nic82540em_server_digest(struct nic82540em_server *server, uint64_t seed);

#ifdef __cplusplus
}
#endif

/* Registers: their offsets in bytes ("Register Descriptions", chapter 13 of Intel's Software Developer's Manual). */
/* generated by tools/pages --tables: offsets */
enum {
    NIC_CTRL = 0x0000,
    NIC_STATUS = 0x0008,
    NIC_EERD = 0x0014,
    NIC_MDIC = 0x0020,
    NIC_VET = 0x0038,
    NIC_ICR = 0x00C0,
    NIC_ICS = 0x00C8,
    NIC_IMS = 0x00D0,
    NIC_IMC = 0x00D8,
    NIC_RCTL = 0x0100,
    NIC_TCTL = 0x0400,
    NIC_PBA = 0x1000,
    NIC_RDBAL = 0x2800,
    NIC_RDBAH = 0x2804,
    NIC_RDLEN = 0x2808,
    NIC_RDH = 0x2810,
    NIC_RDT = 0x2818,
    NIC_TDBAL = 0x3800,
    NIC_TDBAH = 0x3804,
    NIC_TDLEN = 0x3808,
    NIC_TDH = 0x3810,
    NIC_TDT = 0x3818,
    NIC_MPC = 0x4010,
    NIC_GPRC = 0x4074,
    NIC_GPTC = 0x4080,
    NIC_RNBC = 0x40A0,
    NIC_MTA = 0x5200,  /* 128 words, 4 bytes apart */
    NIC_RAL = 0x5400,  /* 16 entries, 8 bytes apart */
    NIC_RAH = 0x5404,  /* 16 entries, 8 bytes apart */
    NIC_VFTA = 0x5600  /* 128 words, 4 bytes apart */
};
/* end of offsets */

/* CTRL (13.4.1) */
#define NIC_CTRL_FD (1u << 0)
#define NIC_CTRL_ASDE (1u << 5)
#define NIC_CTRL_SLU (1u << 6)
#define NIC_CTRL_RST (1u << 26)
#define NIC_CTRL_VME (1u << 30)

/* STATUS (13.4.2) */
#define NIC_STATUS_FD (1u << 0)
#define NIC_STATUS_LU (1u << 1)

/* EERD (13.4.4) */
#define NIC_EERD_START (1u << 0)
#define NIC_EERD_DONE (1u << 4)
#define NIC_EERD_ADDR(word) ((uint32_t)(word) << 8)
#define NIC_EERD_DATA(value) ((uint32_t)(value) >> 16)

/* MDIC (13.4.7) */
#define NIC_MDIC_DATA(value) ((uint32_t)(value) & 0xFFFFu)
#define NIC_MDIC_REGADD(place) ((uint32_t)(place) << 16)
#define NIC_MDIC_PHYADD(phy) ((uint32_t)(phy) << 21)
#define NIC_MDIC_OP_WRITE (1u << 26)
#define NIC_MDIC_OP_READ (2u << 26)
#define NIC_MDIC_R (1u << 28)
#define NIC_MDIC_I (1u << 29)
#define NIC_MDIC_E (1u << 30)

/* Interrupt causes: ICR, ICS, IMS, IMC (13.4.17, 13.4.19 to 13.4.21) */
/* generated by tools/pages --tables: causes */
#define NIC_TXDW (1u << 0)
#define NIC_TXQE (1u << 1)
#define NIC_LSC (1u << 2)
#define NIC_RXDMT0 (1u << 4)
#define NIC_RXO (1u << 6)
#define NIC_RXT0 (1u << 7)
#define NIC_MDAC (1u << 9)
/* end of causes */

/* RCTL (13.4.22) */
#define NIC_RCTL_EN (1u << 1)
#define NIC_RCTL_UPE (1u << 3)
#define NIC_RCTL_MPE (1u << 4)
#define NIC_RCTL_LPE (1u << 5)
#define NIC_RCTL_RDMTS(value) ((uint32_t)(value) << 8)
#define NIC_RCTL_MO(value) ((uint32_t)(value) << 12)
#define NIC_RCTL_BAM (1u << 15)
#define NIC_RCTL_BSIZE(value) ((uint32_t)(value) << 16)
#define NIC_RCTL_VFE (1u << 18)
#define NIC_RCTL_BSEX (1u << 25)
#define NIC_RCTL_SECRC (1u << 26)

/* TCTL (13.4.33) */
#define NIC_TCTL_EN (1u << 1)
#define NIC_TCTL_PSP (1u << 3)
#define NIC_TCTL_CT(value) ((uint32_t)(value) << 4)
#define NIC_TCTL_COLD(value) ((uint32_t)(value) << 12)

/* RAH */
#define NIC_RAH_AV (1u << 31)

/* Receive descriptors (3.2.3): the address in bytes 0 to 7, the length in bytes 8 and 9, the status in byte 12. */
#define NIC_RXD_DD (1u << 0)
#define NIC_RXD_EOP (1u << 1)

/* Legacy transmit descriptors (3.3.3): address in bytes 0 to 7, length in 8 and 9, command in 11, status in 12. EOP,
 * IFCS and RS are bits of the command, DD of the status. */
#define NIC_TXD_EOP (1u << 0)
#define NIC_TXD_IFCS (1u << 1)
#define NIC_TXD_RS (1u << 3)
#define NIC_TXD_DD (1u << 0)

/* The state of an adapter as text. */

/* A register and its name. */
struct nic82540em_register {
    const char *name;
    uint32_t offset;
};

/* Prints the registers of the table below, the numbers of frames in the packet buffer, and the interrupt line (1 if
 * asserted) into `into`. As with snprintf, these are at most `room` bytes, the last of which is a null byte. Returns
 * the number of bytes that the whole text has without the null byte. Nothing changes in the adapter. Without one, all
 * values are 0. */
static inline size_t nic82540em_print(struct nic82540em *nic, char *into, size_t room)
{
    static const struct nic82540em_register table[] = {
        { "CTRL", NIC_CTRL },   { "STATUS", NIC_STATUS }, { "EERD", NIC_EERD },   { "MDIC", NIC_MDIC },
        { "VET", NIC_VET },     { "ICR", NIC_ICR },       { "IMS", NIC_IMS },     { "RCTL", NIC_RCTL },
        { "TCTL", NIC_TCTL },   { "PBA", NIC_PBA },       { "RDBAL", NIC_RDBAL }, { "RDBAH", NIC_RDBAH },
        { "RDLEN", NIC_RDLEN }, { "RDH", NIC_RDH },       { "RDT", NIC_RDT },     { "TDBAL", NIC_TDBAL },
        { "TDBAH", NIC_TDBAH }, { "TDLEN", NIC_TDLEN },   { "TDH", NIC_TDH },     { "TDT", NIC_TDT },
        { "MPC", NIC_MPC },     { "GPRC", NIC_GPRC },     { "GPTC", NIC_GPTC },   { "RNBC", NIC_RNBC },
        { "RAL0", NIC_RAL },    { "RAH0", NIC_RAH },
    };
    size_t size = 0, place;
    uint32_t value;
    int count;

    for (place = 0; place < sizeof table / sizeof *table; place++) {
        value = 0;
        nic82540em_peek(nic, table[place].offset, &value);
        count = snprintf(size < room ? into + size : NULL, size < room ? room - size : 0, "%-6s %08lx\n",
                         table[place].name, (unsigned long)value);
        size += count > 0 ? (size_t)count : 0;
    }
    count = snprintf(size < room ? into + size : NULL, size < room ? room - size : 0,
                     "packet buffer: received %lu, transmit %lu\nline   %d\n",
                     (unsigned long)nic82540em_waiting_received(nic), (unsigned long)nic82540em_waiting_transmit(nic),
                     (int)nic82540em_line(nic));
    return size + (count > 0 ? (size_t)count : 0);
}

#endif
