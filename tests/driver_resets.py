"""Tests resets of the drivers in examples/drivers: their accesses, the slots that they offer, and runs with random
steps.
"""

import resets
import sweep
from adapter import REGISTERS, Adapter
from driver import CTRL, ICR, IMC, IMS, MPC, MTA, PBA, RAL, RCTL, TCTL, VFTA
from driver import RDBAL, RDBAH, RDH, RDLEN, RDT, TDBAH, TDBAL, TDH, TDLEN, TDT
from driver import DESCRIPTOR, QUEUE, RECEIVE_RING, RIGHT, SLOTS, SPARE_BUFFERS, TRANSMIT_RING, driver_of
from traffic import OTHER, SELF, STEPS, frame_of

BUFFERS = SLOTS + SPARE_BUFFERS
SEEDS = 20
# The accesses of a reset, in order: registers by their offsets, and places in memory
ORDER = [*(("register", register) for register in (RCTL, MPC, CTRL, IMC, ICR, PBA, CTRL)),
         *(("register", table + 4 * n) for table, size in ((MTA, 128), (VFTA, 128), (RAL, 32)) for n in range(size)),
         *(("register", register) for register in (RDBAL, RDBAH, RDLEN, RDH, RDT)),
         *(("memory", RECEIVE_RING + DESCRIPTOR * slot) for slot in range(SLOTS)), ("register", RDT),
         ("register", RCTL), ("memory", TRANSMIT_RING),
         *(("register", register) for register in (TDBAL, TDBAH, TDLEN, TDH, TDT, TCTL, IMS))]


def accesses(log):
    """Yields the accesses in a log: the place, and the value. The value is None for a read of a register, and a text
    for an access of memory.
    """
    for words in map(str.split, log):
        if words[1] in ("readl", "writel"):
            yield ("register", int(words[2], 0) - REGISTERS), int(words[3], 0) if words[1] == "writel" else None
        elif words[1] in ("read", "write"):
            yield ("memory", int(words[2], 0)), words[-1]


def reset_with(server, name, held):
    """Resets a driver that has received this many frames of one slot each. Returns the accesses of the reset, with
    their values.
    """
    with Adapter(server.program) as adapter:
        driver = driver_of(name, adapter)
        adapter.interleave(STEPS)
        driver.bring_up()
        adapter.interleave(0)
        for number in range(held):
            adapter.arrive(frame_of(number, SELF, OTHER, 60))
            adapter.settle()
            sweep.handle(adapter, driver)
        adapter.log(True)
        driver.reset()
        return list(accesses(adapter.told))


def all_accesses(server):
    """Each driver without a bug makes the accesses of ORDER. The last write of RDT writes the number of offered slots.
    `queue` clears the descriptors of the other slots.
    """
    for name, held, offered in [*((name, 3, SLOTS - 1) for name in RIGHT),
                                *(("queue", held, min(SLOTS - 1, BUFFERS - held))
                                  for held in (0, 3, 5, 6, BUFFERS - 1, BUFFERS))]:
        got = reset_with(server, name, held)
        server.check(f"resets: accesses of {name} that holds {held} frames", [place for place, _ in got], ORDER)
        tail = [value for place, value in got if place == ("register", RDT)]
        server.check(f"resets: RDT of {name} that holds {held} frames", tail, [0, offered])
        empty = [place[1] for place, value in got
                 if place[0] == "memory" and place[1] < TRANSMIT_RING and int(value, 0) == 0]
        wanted = [RECEIVE_RING + DESCRIPTOR * slot for slot in range(offered, SLOTS)] if name in QUEUE else []
        server.check(f"resets: cleared descriptors of {name} that holds {held} frames", empty, wanted)


def random_steps(server):
    """With random steps before each access, the drivers without a bug pass. Each of the two bugs in resets is first
    found by the expected seed.
    """
    for name, wanted in [*((name, None) for name in (*RIGHT, *QUEUE)), ("mpc", 9), ("offers-queued", 1)]:
        failed = sweep.first_to_fail(server.program, SEEDS, name, resets.resets, False)
        server.check(f"resets: random steps, {name}", failed and failed[0], wanted)


def all_cases(server):
    for part in [all_accesses, random_steps]:
        part(server)
