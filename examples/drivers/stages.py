"""Tests in which a step of the adapter, or the handler, can cut in between accesses on which races depend.

`stages` and `cuts` have the same interface as `exchange` in sweep.py. The README explains the windows of `stages`.
"""

from traffic import OTHER, SELF, STEPS, fault_of, frame_of, freed_fault

# The windows of `stages` that can be left out
WINDOWS = "work", "one-way", "dry", "full", "lengths"
# A length for each number of receive buffers, from 1 to 6
LENGTHS = 60, 257, 640, 1000, 1280, 1518
# The EtherType of answers
ANSWER = b"\x88\xb6"
# The most frames that are sent until the transmit ring must be full
MOST_IN_RING = 64
# The frames that are sent instead if a schedule may play steps meanwhile: one more than the ring of driver.py holds
SCHEDULED_IN_RING = 8
# The most times that a handler is called, that the adapter settles, and that a frame is sent, before the test fails
PATIENCE = 1000


class Fault(Exception):
    """Something is wrong with a run."""


class Traffic:
    """The frames of a run in both directions, and the requests of a test."""

    def __init__(self, adapter, driver, without=None, is_scheduled=False):
        self.adapter, self.driver, self.without, self.is_scheduled = adapter, driver, without, is_scheduled
        self.came, self.sent = [], []
        self.number = 0  # the number of the newest frame

    @staticmethod
    def check(fault):
        if fault:
            raise Fault(fault)

    def frame(self, to, source, slots):
        """Returns the next frame. It takes this number of receive buffers."""
        self.number += 1
        return frame_of(self.number, to, source, LENGTHS[slots - 1])

    def slots(self, count):
        """Returns the number of receive buffers of a frame: `count`, or 1 if all frames have the same length."""
        return 1 if self.without == "lengths" else count

    def arrive(self, slots):
        """Lets a frame arrive, and notes it if the adapter stores it."""
        frame = self.frame(SELF, OTHER, slots)
        if self.adapter.arrive(frame) == "stored":
            self.came.append(frame)

    def move(self, slots):
        """Plays the steps that receive a frame in these slots, except the write-back of the last descriptor."""
        for kind in ["rxdata", "rxdone"] * (slots - 1) + ["rxdata"]:
            self.adapter.step(kind)

    def put_one(self):
        """Plays the steps that put a frame onto the wire."""
        for kind in "txtake", "txput":
            self.adapter.step(kind)

    def send(self, frame):
        """Sends a frame. Returns whether the driver accepts it."""
        is_accepted = self.driver.send(frame)
        if is_accepted:
            self.sent.append(frame)
        self.check(freed_fault(self.driver, self.adapter))
        return is_accepted

    def send_next(self, slots=1):
        return self.send(self.frame(OTHER, SELF, slots))

    def handle(self):
        """Calls the handler while the interrupt line is asserted."""
        for _ in range(PATIENCE):
            if not self.adapter.line:
                return
            self.driver.interrupt()
        raise Fault(f"the line is still asserted after {PATIENCE} calls of the handler")

    def settle(self):
        """Lets the adapter do all that is left. Only interrupts call the handler."""
        self.handle()
        for _ in range(PATIENCE):
            if self.adapter.settle() == 0 and not self.adapter.line:
                break
            self.handle()

    def finish(self):
        """Lets the adapter do all that is left. Then all frames must have arrived."""
        self.settle()
        self.check(fault_of("received", self.came, self.driver.received))
        self.check(fault_of("sent", self.sent, self.adapter.wire))


def work_is_left(run):
    """In each round, the handler is called when one frame is finished, and another waits or lacks only one step."""
    for count in range(1, 7):
        run.arrive(1)
        run.adapter.settle()
        run.arrive(run.slots(count))
        if run.without == "one-way":
            run.send_next()
        if run.without == "work":
            run.adapter.settle()
        elif count % 2:
            run.move(run.slots(count))
        run.finish()


def receive_ring_is_dry(run):
    """The frames that arrive need 27 slots. When the adapter has used all offered slots, the other frames wait."""
    for count in (1, 2, 3, 4, 5, 6, 1, 1, 1, 1, 1, 1):
        run.arrive(run.slots(count))
        if run.without == "one-way":
            run.send_next()
        if run.without == "dry":
            run.finish()
    run.adapter.settle()
    run.finish()


def fill_transmit_ring(run):
    """Sends frames until one is rejected. The adapter takes no step meanwhile, unless a schedule plays it."""
    run.adapter.interleave(0)
    most = SCHEDULED_IN_RING if run.is_scheduled else MOST_IN_RING
    is_full = not all(run.send_next(run.slots(1 + count % 6)) for count in range(most))
    if not is_full and not run.is_scheduled:
        raise Fault(f"{most} frames were accepted, but no frame was taken")
    run.adapter.interleave(STEPS)


def transmit_ring_is_full(run):
    """The transmit ring is filled. After that, each frame is sent until it is accepted."""
    if run.without != "full":
        fill_transmit_ring(run)
    for count in (1, 2, 3, 4, 5, 6, 1, 2, 3):
        frame = run.frame(OTHER, SELF, run.slots(count))
        for _ in range(PATIENCE):
            run.handle()
            if run.send(frame):
                break
            if run.is_scheduled:
                run.put_one()
        else:
            raise Fault(f"a frame was rejected {PATIENCE} times")
    run.finish()


def stages(adapter, driver, without=None, is_scheduled=False):
    """Runs the stages, without one of the WINDOWS if one is given. Returns the first fault, or None.

    With `is_scheduled`, only the test and a schedule of tools/races play steps, and no random steps are played.
    """
    run = Traffic(adapter, driver, without, is_scheduled)
    try:
        work_is_left(run)
        receive_ring_is_dry(run)
        transmit_ring_is_full(run)
    except Fault as fault:
        return str(fault)
    return None


class Answers(Traffic):
    """Traffic in which the handler sends an answer to each received frame."""

    def __init__(self, adapter, driver):
        super().__init__(adapter, driver)
        self.answers = []
        driver.receiver = self.answer

    def answer(self, frame):
        answer = frame[6:12] + frame[:6] + ANSWER + frame[14:]
        if self.driver.send(answer):
            self.answers.append(answer)

    def finish(self):
        """Lets the adapter do all that is left. The frames of the test and the answers may be mixed on the wire.

        Repeats `settle` until it does nothing and the handler sends no answer, at most PATIENCE times.
        """
        for _ in range(PATIENCE):
            count = len(self.answers)
            if self.adapter.settle() == 0 and len(self.answers) == count:
                break
        on_wire = {True: [], False: []}
        for frame in self.adapter.wire:
            on_wire[frame[12:14] == ANSWER].append(frame)
        self.check(fault_of("received", self.came, self.driver.received))
        self.check(fault_of("sent", self.sent, on_wire[False]))
        self.check(fault_of("sent as an answer", self.answers, on_wire[True]))


def cuts(adapter, driver):
    """The handler cuts in after any request that raises the line, unless the driver keeps it out. Returns the first
    fault, or None.
    """
    run = Answers(adapter, driver)
    adapter.handler = run.handle
    try:
        for count in range(1, 7):
            run.arrive(count)
            run.move(count)
            run.send_next(1)
            run.send_next(7 - count)
            run.finish()
    except Fault as fault:
        return str(fault)
    return None
