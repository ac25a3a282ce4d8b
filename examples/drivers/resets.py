"""A test of resets in a run, for the finder. It has the same interface as `exchange` in sweep.py.

The README explains what it finds.
"""

from arrivals import LONG, NEXT, Arrivals
from driver import PBA
from stages import Fault
from traffic import fault_of

# The receive buffers of frames that arrive after a reset: more than the driver has
AFTER_RESET = 6, 6, 1


class Resets(Arrivals):
    """Traffic in which the adapter is reset. At a reset, the driver gives up the frames that are in the adapter and in
    the rings.
    """

    def __init__(self, adapter, driver):
        super().__init__(adapter, driver)
        self.given_up = []  # frames that were stored, but are never received

    def stored(self):
        return [frame for frame in super().stored() if frame not in self.given_up]

    def reset(self):
        """Resets the adapter. Frames that the driver has taken aren't given up."""
        self.driver.disable_receiver()
        self.given_up += self.stored()[len(self.driver.received) + len(self.driver.queue):]
        self.driver.begin_again()
        del self.sent[len(self.adapter.wire):]

    def settle(self):
        """Lets the adapter do all that is left, and empties the queue whenever nothing else is left."""
        super().settle()
        while self.driver.queue:
            self.driver.empty_queue()
            super().settle()

    def finish(self):
        super().finish()
        self.check(fault_of("sent", self.sent, self.adapter.wire))


def fill(run, slots):
    """One frame is taken. Another one lacks only its last write-back, and one waits. Two frames are to be sent, one of
    which is fetched.
    """
    run.arrive(1)
    run.adapter.settle()
    run.handle()
    run.arrive(slots)
    run.move(slots)
    run.arrive(1)
    run.send_next()
    run.send_next(slots)
    run.adapter.step("txtake")


def resets(adapter, driver):
    """Resets the adapter while it has frames, and while a frame may be missed. Returns the first fault, or None."""
    run = Resets(adapter, driver)
    try:
        for slots in (1, 3):
            fill(run, slots)
            run.reset()
            for count in AFTER_RESET:
                run.arrive(count)
            run.send_next(slots)
            run.finish()
        adapter.write((PBA, 2))
        run.arrive(LONG)
        run.offer(NEXT)  # it is missed if it arrives before the reset
        run.reset()
        run.finish()
    except Fault as fault:
        return str(fault)
    return None
