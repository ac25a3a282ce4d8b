#!/usr/bin/env python3
"""A driver with a queue that is stopped and woken, and its test, for `tools/races`.

usage: queue_test.py right|prefetch|txstop

The driver is that of driver.py, with a handler that cuts in. While few slots are free, the driver stops its queue: then
no frame is sent until the handler wakes it. With `prefetch`, the driver loads a buffer before the status of its slot,
as a processor may do without a barrier. With `txstop`, it doesn't look again for free slots after it has stopped the
queue. Requests go to standard output, and answers come from standard input. The exit status is 0 if the driver passes.
Otherwise it is 1, and the fault is on standard error.
"""

import sys

sys.dont_write_bytecode = True
from adapter import Refused  # noqa: E402
from driver import RECEIVE_BUFFER, DeviceError, Driver  # noqa: E402
from stages import PATIENCE, Fault, Traffic  # noqa: E402
from streams import Streams, play  # noqa: E402
from traffic import fault_of  # noqa: E402

NAMES = "right", "prefetch", "txstop"
STATUS = 0x0008
ROOM = 5  # the queue is stopped while fewer slots are free
ROUNDS = 4
IN_A_ROUND = 5  # frames that are sent in a round


class QueueDriver(Driver):
    """The driver with a queue of frames to be sent."""

    def __init__(self, adapter, name):
        super().__init__(adapter, name)
        self.is_stopped = False
        self.early = {}  # by slots, what was loaded from their buffers before their status

    # Receiving

    def finished(self, slot):
        if self.bug == "prefetch":
            self.early[slot] = self.adapter.load(self.buffer_of(slot), RECEIVE_BUFFER)
        return super().finished(slot)

    def take(self, slot, length):
        data = super().take(slot, length)
        return self.early[slot][:length] if self.bug == "prefetch" else data

    def interrupt(self):
        super().interrupt()
        self.reap()
        if self.is_stopped and self.free >= ROOM:
            self.is_stopped = False

    # Sending

    def has_room(self):
        """Frees the slots of frames that are on the wire. Returns whether enough slots are free."""
        with self.adapter.interrupts_off():
            self.reap()
        return self.free >= ROOM

    def transmit(self, frame):
        """Sends a frame. Stops the queue if too few slots are left for the next one."""
        self.send(frame)
        if self.has_room():
            return
        self.adapter.read(STATUS)  # lets the write of TDT reach the adapter
        self.is_stopped = True
        if self.bug != "txstop" and self.has_room():
            self.is_stopped = False


class Queue(Traffic):
    """Frames arrive, and others are sent whenever the queue isn't stopped."""

    def wait(self):
        """Lets the adapter work until the queue isn't stopped."""
        for _ in range(PATIENCE):
            if not self.driver.is_stopped:
                return
            if self.adapter.settle() == 0 and self.driver.is_stopped:
                raise Fault("the queue is stopped, and nothing is left that wakes it")
        raise Fault(f"the queue is stopped after {PATIENCE} times that the adapter settled")

    def put(self):
        self.wait()
        frame = self.frame(bytes.fromhex("020000000009"), bytes.fromhex("020000000001"), 1)
        self.driver.transmit(frame)
        self.sent.append(frame)

    def finish(self):
        """Lets the adapter do all that is left. Then all frames must have arrived, and the queue is woken."""
        for _ in range(PATIENCE):
            if self.adapter.settle() == 0:
                break
        self.wait()
        self.check(fault_of("received", self.came, self.driver.received))
        self.check(fault_of("sent", self.sent, self.adapter.wire))


def queue(adapter, driver):
    """In each round, two frames arrive, one of which is finished. Then more frames are sent than the queue takes."""
    run = Queue(adapter, driver)
    adapter.handler = run.handle
    for _ in range(ROUNDS):
        run.arrive(1)
        run.arrive(1)
        run.move(1)
        adapter.step("rxdone")
        run.finish()
        for _ in range(IN_A_ROUND):
            run.put()
        run.finish()


def fault_of_queue(name):
    """Initializes the driver with this name, and runs the test. Returns the fault, or None."""
    adapter = Streams(None)
    driver = QueueDriver(adapter, name)
    try:
        driver.bring_up()
        return queue(adapter, driver)
    except (DeviceError, Refused, Fault) as error:
        return str(error)


def main():
    if len(sys.argv) != 2 or sys.argv[1] not in NAMES:
        sys.exit(f"usage: queue_test.py {'|'.join(NAMES)}")
    play(lambda: fault_of_queue(sys.argv[1]))


main()
