"""Tests the driver in Python with rings of 4,096 descriptors, over `nicbench serve` and over the C library: both rings
are filled, and wrap.
"""

from driver import RDBAL, RDH, RDLEN, RDT, TDBAL, TDH, TDLEN, driver_of
from traffic import OTHER, SELF, STEPS, fault_of, frame_of

SLOTS = 4096
OFFERED = SLOTS - 1
# The most frames of 60 bytes in a receive packet buffer of 48 KB
MOST_BUFFERED = 614
OPTIONS = "--memory", str(10 << 20), "--seed", "1"
MIXED = 300
LENGTHS = 60, 257, 1518, 60, 256, 512


def handle(adapter, driver):
    """Calls the handler while the interrupt line is asserted. Then empties the driver's queue."""
    while adapter.line:
        driver.interrupt()
    driver.empty_queue()


def settle(adapter):
    """Lets the adapter do all its work: calls `settle` until it does nothing. In process, a call of `settle` also ends
    when the wire is full.
    """
    while adapter.settle():
        pass


def fill_transmit_ring(adapter, driver):
    """Sends frames until the ring is full, and then lets the adapter send them. Returns the frames that the driver
    accepted.
    """
    sent = [frame for frame in (frame_of(number % 251, OTHER, SELF, 60) for number in range(SLOTS))
            if driver.send(frame)]
    settle(adapter)
    return sent


def fill_receive_ring(adapter):
    """Lets frames arrive until each offered slot is finished, and one more frame. The driver doesn't run. Returns the
    frames, and the set of their fates.
    """
    came = [frame_of(number % 251, SELF, OTHER, 60) for number in range(SLOTS)]
    fates = set()
    for number, frame in enumerate(came):
        fates.add(adapter.arrive(frame))
        if number % MOST_BUFFERED == 0:
            settle(adapter)
    settle(adapter)
    return came, fates


def exchange(adapter, driver):
    """Fills both rings, twice, then plays frames of the lengths LENGTHS with steps between accesses. Returns the values
    that are compared, by their names.
    """
    found, came, sent = {}, [], []
    adapter.interleave(STEPS)
    driver.bring_up()
    adapter.interleave(0)
    found["registers"] = [adapter.read(register) for register in (RDLEN, TDLEN, RDBAL, TDBAL, RDT)]
    for turn in range(2):
        sent += fill_transmit_ring(adapter, driver)
        found[f"sent, turn {turn}"] = len(sent) - turn * OFFERED
        more, fates = fill_receive_ring(adapter)
        came += more
        # One frame is left in the packet buffer: the adapter has taken all slots.
        found[f"dry, turn {turn}"] = fates, adapter.read(RDH) - adapter.read(RDT), len(driver.received) - turn * SLOTS
        for _ in range(2):
            handle(adapter, driver)
            settle(adapter)
    found["heads"] = adapter.read(RDH), adapter.read(TDH)
    adapter.interleave(STEPS)
    for number in range(MIXED):
        length = LENGTHS[number % len(LENGTHS)]
        frame, other = frame_of(number % 251, SELF, OTHER, length), frame_of(number % 251, OTHER, SELF, length)
        if adapter.arrive(frame) == "stored":
            came.append(frame)
        if driver.send(other):
            sent.append(other)
        handle(adapter, driver)
    for _ in range(2):
        settle(adapter)
        handle(adapter, driver)
    found["mixed"] = len(came) - 2 * SLOTS, len(sent) - 2 * OFFERED
    found["faults"] = fault_of("received", came, driver.received), fault_of("sent", sent, adapter.wire)
    return found


def wanted():
    """What `exchange` must return."""
    turns = {name: value for turn in range(2)
             for name, value in ((f"sent, turn {turn}", OFFERED), (f"dry, turn {turn}", ({"stored"}, 0, 0)))}
    heads = 2 * SLOTS % SLOTS, 2 * OFFERED % SLOTS
    return {"registers": [0x10000, 0x10000, 0, 0x10000, OFFERED], **turns, "heads": heads, "mixed": (MIXED, MIXED),
            "faults": (None, None)}


def all_cases(check, place, adapter_of, *names):
    """Plays each of these drivers on an adapter of its own, which `adapter_of` makes with the options OPTIONS of
    `serve`.
    """
    for name in names:
        with adapter_of(*OPTIONS) as adapter:
            check(f"{place}: the driver {name} with rings of {SLOTS}",
                  exchange(adapter, driver_of(name, adapter, SLOTS)), wanted())
