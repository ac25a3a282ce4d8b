"""Tests `nicbench run` with frames that take several receive buffers of 256 bytes, and races between their pieces and
calls.
"""

from races import FINISH, INTERRUPT, RECV, Schedule, bring, counts, finish, frame, receive, row


def long_frame(mark, length=1518):
    """A frame whose pieces all differ, and that differs from a frame with another mark."""
    return frame(mark, length=15) + bytes((17 * mark + 3 * n + n // 256) % 256 for n in range(length - 15))


def handled_early(bench, one):
    """An interrupt is handled while some pieces of a frame aren't finished."""
    for done in range(6):
        row(bench, f"an interrupt after {done} of six pieces takes no frame",
            Schedule().does(bring(one), FINISH * done, INTERRUPT, RECV, FINISH * (6 - done),
                            INTERRUPT).gives(one).does(RECV), *counts(1))
    row(bench, "an interrupt after each piece, and one while it is in progress",
        Schedule().does(bring(one), [*FINISH[:1], *INTERRUPT, *FINISH[1:], *INTERRUPT, *RECV] * 5, FINISH,
                        INTERRUPT).gives(one).does(RECV), *counts(1))
    whole = long_frame(8, 300)
    row(bench, "a frame whose last piece isn't finished stays after a whole one",
        Schedule().does(bring(whole, one), finish(whole), FINISH * 4,
                        INTERRUPT).gives(whole).does(RECV, FINISH * 2, INTERRUPT).gives(one), *counts(2))
    for accesses in range(10):
        # The handler accesses ICR, MPC and the six descriptors. If the sixth slot is finished after the load of its
        # descriptor, the next interrupt takes the frame.
        late = ["interrupt b / " + "go " * accesses + "rxdata:b rxdone:b"]
        taken = Schedule().does(bring(one), FINISH * 5, late)
        if accesses <= 7:
            taken.gives(one).does(INTERRUPT, RECV)
        else:
            taken.does(RECV, INTERRUPT).gives(one).does(RECV)
        row(bench, f"the last of six pieces is finished after {accesses} accesses by the handler", taken, *counts(1))
    for done in range(1, 6):
        # The third piece records RXDMT0. If it wasn't moved before the handler reads ICR, the handler finds no cause,
        # and loads no descriptor.
        late = ["interrupt b / " + "go rxdata:b rxdone:b " * (6 - done)]
        taken = Schedule().does(bring(one), FINISH * done, late, *([] if done >= 3 else [RECV, INTERRUPT]))
        row(bench, f"after {done} of six pieces, the others are finished between the handler's accesses",
            taken.gives(one).does(INTERRUPT, RECV), *counts(1))


def around_the_ring(bench, one, two):
    """Frames of several pieces wrap around the ring of eight slots, and wait for slots and buffers."""
    frames = [long_frame(mark, length) for mark, length in enumerate([1518, 257, 60, 1281, 512, 1518, 300, 1024, 1518,
                                                                      513, 1518, 1518])]
    whole = Schedule()
    for data in frames:
        whole.does(receive(data), INTERRUPT).gives(data)
    row(bench, "frames of one to six pieces go around the ring", whole.does(RECV), *counts(len(frames)))
    row(bench, "a frame waits in part for slots, until the frame before it is taken",
        Schedule().does(bring(one, two), FINISH * 9, INTERRUPT).gives(one).does(RECV, FINISH * 5,
                                                                                INTERRUPT).gives(two).does(RECV),
        *counts(2))
    row(bench, "a frame waits in part for buffers, until the frame before it is received",
        Schedule().does(bring(one, two), finish(one), INTERRUPT, finish(two), INTERRUPT,
                        ["recv b 1"]).gives(one).does(RECV, finish(two), INTERRUPT)
        .gives(two).does(RECV), *counts(2), "buffers 8")
    short = frame(9)
    row(bench, "two frames and a half are in the ring",
        Schedule().does(receive(long_frame(3, 512), short), bring(one), FINISH * 4,
                        INTERRUPT).gives(long_frame(3, 512)).gives(short)
        .does(RECV, FINISH * 2, INTERRUPT).gives(one), *counts(3))
    row(bench, "of a frame without a socket all buffers are offered again",
        Schedule().does(*[receive(one), INTERRUPT] * 4, RECV), *counts(4, 0, unclaimed=4), "buffers 8",
        ("socket b 0806",))


def packet_buffer(bench, one, two):
    """A frame occupies its room in the packet buffer until its last piece is moved. The rest of the packet buffer has
    room for short frames.
    """
    a = {"accepted": 2, "put": 2}
    short = [frame(mark) for mark in range(3, 10)]
    for done in (0, 5):
        row(bench, f"six of seven short frames fit behind a frame of which {done} pieces are finished",
            Schedule().does(bring(one), FINISH * done, bring(*short)).drains((0, one),
                                                                             *((0, data) for data in short[:6])),
            {"accepted": 8, "put": 8},
            {"reached": 8, "stored": 7, "missed": 1, "given": 7}, "rxa 2")
    row(bench, "a frame in part fills the packet buffer",
        Schedule().does(bring(one), FINISH * 5, bring(two), FINISH, INTERRUPT).gives(one).does(RECV), a,
        {"reached": 2, "stored": 1, "missed": 1, "given": 1},
        "rxa 2")
    row(bench, "a frame whose last piece is moved doesn't",
        Schedule().does(bring(one), FINISH * 5, FINISH[:1], bring(two), FINISH[1:], INTERRUPT)
        .gives(one).does(RECV, finish(two), INTERRUPT).gives(two), *counts(2), "rxa 2")


def drained(bench, one, two):
    """A drain begins after none, some or all pieces of a frame, or with more frames than the buffers hold."""
    for done in range(7):
        row(bench, f"a drain after {done} of six pieces",
            Schedule().does(bring(one), FINISH * done).drains((0, one)).drains(), *counts(1))
    row(bench, "a drain while the third piece is in progress, with a frame behind it",
        Schedule().does(bring(one, two), FINISH * 2, FINISH[:1]).drains((0, one), (0, two)).drains(), *counts(2))
    row(bench, "a drain of frames that need more buffers than there are",
        Schedule().does(bring(one, two, long_frame(5), long_frame(6))).drains((0, one), (0, two), (0, long_frame(5)),
                                                                              (0, long_frame(6))).drains(),
        *counts(4), "buffers 8")


def all_cases(bench):
    one, two = long_frame(1), long_frame(2, 1300)
    handled_early(bench, one)
    for part in [around_the_ring, packet_buffer, drained]:
        part(bench, one, two)
