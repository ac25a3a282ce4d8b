"""Tries other orders of the steps of each `settle`: each leads to the same state, frames on the wire and faults.

The condition for this is that the adapter reads no memory that it writes in the same `settle`. The drivers of
examples/drivers meet this condition, so the finder of races needs no deviations inside a `settle`. A driver that
doesn't meet this condition has a race that a deviation before the `settle` shows.
"""

import random

from adapter import Adapter
from driver import RIGHT, driver_of
from sweep import TESTS

KINDS = "txtake", "txput", "rxdata", "rxdone", "eeprom", "phy"
SEEDS, ORDERS = 2, 3  # runs of each driver and test; other orders of each settle


class AnyOrder(Adapter):
    """An adapter that also plays the steps of each `settle` in random orders, from the same state."""

    def __init__(self, program, *options, seed):
        super().__init__(program, *options)
        self.random, self.settles, self.longest, self.differences = random.Random(seed), 0, 0, []

    def state(self):
        """The digest of the state, whether the interrupt line is asserted, and the frames and faults that were reported
        since the last `save`.
        """
        return self.ask("digest")[0], self.line, self.wire[self.seen:], self.faults[self.fault:]

    def settle(self):
        """Plays several orders, first that of the request `settle`. A handler can cut in only after all of these
        orders. Returns how many steps of the request did something.
        """
        with self.interrupts_off():
            return self.settle_in_orders()

    def settle_in_orders(self):
        self.seen, self.fault = len(self.wire), len(self.faults)
        self.ask("save")
        wanted = super().settle(), *self.state()
        for _ in range(ORDERS):
            self.ask("restore")
            del self.wire[self.seen:], self.faults[self.fault:]
            got = self.settle_by_steps(), *self.state()
            if got != wanted:
                self.differences.append((self.settles, wanted, got))
        self.settles += 1
        self.longest = max(self.longest, wanted[0])
        return wanted[0]

    def settle_by_steps(self):
        """Plays steps in a random order until no step does anything. Returns how many steps did something."""
        count, left = 0, set(KINDS)
        while left:
            kind = self.random.choice(sorted(left))
            if self.step(kind) == "nothing":
                left.remove(kind)
            else:
                count, left = count + 1, set(KINDS)
        return count


def settle_in_any_order(server):
    """Each `settle` of the drivers without a bug has the same result in each order that is tried. Random steps are
    played before accesses.
    """
    for name in RIGHT:
        for test, play in TESTS.items():
            settles, longest, differences = 0, 0, []
            for seed in range(1, SEEDS + 1):
                with AnyOrder(server.program, "--seed", str(seed), seed=seed) as adapter:
                    adapter.interleave(3)
                    driver = driver_of(name, adapter)
                    driver.bring_up()
                    server.check(f"settle: {name}, {test}: the driver passes", play(adapter, driver), None)
                    differences += adapter.differences
                    settles, longest = settles + adapter.settles, max(longest, adapter.longest)
            server.check(f"settle: {name}, {test}: each order has the same result", differences[:1], [])
            server.check(f"settle: {name}, {test}: there are settles of several steps", settles > 5 and longest > 2,
                         True)
