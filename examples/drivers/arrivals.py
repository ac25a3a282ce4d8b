"""Tests of arrivals: frames that a schedule lets arrive at any access, frames to groups, and missed frames.

They have the same interface as `exchange` in sweep.py. The README explains what they find.
"""

from functools import partial

from driver import PBA
from stages import Fault, Traffic
from traffic import OTHER, SELF, fault_of, frame_of

# Two groups whose bit of MTA is the same, and another group
GROUPS = bytes.fromhex("01005e001001"), bytes.fromhex("01005e011001"), bytes.fromhex("01005e001002")
# A group whose bit is in the same word of MTA as that of the last group
NEIGHBOR = bytes.fromhex("01005e002002")
ROUNDS_OF_MISSES = 3
# The receive buffers of a frame, and of another for which 2 KB have no room while the first is in the packet buffer
LONG, NEXT = 6, 3
# MPC at the start of the test `misses`, by the option --missed of the server
MISSED = 4_294_967_295


class Arrivals(Traffic):
    """Traffic in which frames are offered: they arrive at the next `settle`, or earlier by a schedule or a random step.
    """

    def __init__(self, adapter, driver, is_offered=True):
        super().__init__(adapter, driver)
        self.is_offered = is_offered
        self.missed = driver.missed  # the number of missed frames before the test

    def offer(self, slots):
        """Offers a frame, or lets it arrive at once if frames aren't offered."""
        if self.is_offered:
            self.adapter.offer(self.frame(SELF, OTHER, slots))
        else:
            self.arrive(slots)

    def stored(self):
        """Returns the frames that the adapter has stored, and that the driver must receive."""
        return [frame for fate, frame in self.adapter.arrived if fate == "stored"]

    def finish(self):
        """Lets the adapter do all that is left. Then all stored frames must be received, and all missed ones
        counted.
        """
        self.settle()
        self.check(fault_of("received", self.stored(), self.driver.received))
        missed = self.missed + sum(fate == "missed" for fate, _ in self.adapter.arrived)
        if self.driver.missed != missed:
            raise Fault(f"{self.driver.missed} missed frames were counted instead of {missed}")


def offers(adapter, driver, is_offered=True):
    """When the handler is called, some offered frames may not have arrived yet. Returns the first fault, or None.

    In the first rounds, the packet buffer has room for these frames; in the last rounds, there is too little room after
    a long frame. Without `is_offered`, the frames arrive before the call.
    """
    run = Arrivals(adapter, driver, is_offered)
    try:
        for count in range(1, 7):
            run.arrive(1)
            adapter.settle()
            run.offer(count)
            run.offer(1)
            run.finish()
        adapter.write((PBA, 2))  # room for one long frame, and only short ones after it
        for _ in range(ROUNDS_OF_MISSES):
            run.arrive(LONG)
            run.arrive(NEXT)
            run.offer(NEXT)
            run.finish()
    except Fault as fault:
        return str(fault)
    return None


class GroupFrames(Arrivals):
    """Frames to groups."""

    def next_to(self, group):
        """Returns the next frame, which is to this group."""
        self.number += 1
        return frame_of(self.number, group, OTHER, 60)

    def check_fate(self, group, fate, wanted):
        if fate != wanted:
            raise Fault(f"frame {self.number} to {group.hex(':')} was {fate} instead of {wanted}")

    def arrive_to(self, wanted, *groups):
        """Lets a frame to each of these groups arrive. Each must have this fate."""
        for group in groups:
            self.check_fate(group, self.adapter.arrive(self.next_to(group)), wanted)
        self.finish()

    def offer_to(self, group, change):
        """Offers a frame to a joined group, and changes other groups. The frame arrives at any time during the change,
        or after it, and must be stored.
        """
        self.adapter.offer(self.next_to(group))
        change()
        self.finish()
        self.check_fate(group, self.adapter.arrived[-1][0], "stored")


def groups(adapter, driver):
    """Joins and leaves groups, and checks which frames to groups are stored. Returns the first fault, or None."""
    run = GroupFrames(adapter, driver)
    first, second, other = GROUPS
    try:
        run.arrive_to("filtered", *GROUPS)
        for group in GROUPS:
            driver.join(group)
        run.arrive_to("stored", *GROUPS)
        driver.leave(first)
        run.arrive_to("stored", second, other)
        driver.leave(second)
        run.arrive_to("filtered", first, second)
        run.arrive_to("stored", other)
        run.offer_to(other, partial(driver.join, NEIGHBOR))
        run.offer_to(other, partial(driver.leave, NEIGHBOR))
    except Fault as fault:
        return str(fault)
    return None


def misses(adapter, driver):
    """The driver has counted MISSED frames, and then a frame is missed. Returns the first fault, or None."""
    if driver.missed != MISSED:
        return f"the driver has read {driver.missed} from MPC: start the server with --missed {MISSED}"
    run = Arrivals(adapter, driver)
    adapter.write((PBA, 2))
    try:
        run.arrive(LONG)
        run.arrive(NEXT)
        run.finish()
    except Fault as fault:
        return str(fault)
    return None
