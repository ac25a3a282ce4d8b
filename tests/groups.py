"""Tests `nicbench run` with groups that are joined and left between the accesses of a call and the deliveries of
frames.
"""

import random

from races import FINISH, INTERRUPT, RECV, SOCKET, Schedule, bring, frame, row, send
from scenarios import TO_SOCKET, folder

GROUP, SAME_NUMBER, SAME_WORD, OTHER_WORD = ("01:00:5e:00:00:01", "01:00:5f:00:00:01", "01:00:5e:00:10:01",
                                             "01:00:5e:00:00:02")
INDIVIDUAL, BROADCAST = "02:00:00:00:00:01", "ff:ff:ff:ff:ff:ff"
MOST_GROUPS = 32
# Random runs: their seeds, and the number of events in each
SEEDS, EVENTS = range(1, 11), 40


def to(group, mark=1):
    """A frame to a group."""
    return frame(mark, group.replace(":", ""))


def number(group):
    """The number of a group: bits 47 to 36 of its address."""
    data = bytes.fromhex(group.replace(":", ""))
    return (data[5] << 8 | data[4]) >> 4


def waiting(*frames):
    """The lines that put each of these frames on the wire. No frame is delivered."""
    return [line for data in frames for line in send(data) + ["tick txtake:a", "tick txput:a"]]


class Groups(Schedule):
    """A schedule that counts the frames delivered to b, and those that b stores."""

    def __init__(self):
        super().__init__()
        self.reached = self.stored = 0

    def gets(self, *frames):
        """b handles an interrupt, and then returns these frames, which it has stored."""
        self.stored += len(frames)
        self.does(FINISH * len(frames), INTERRUPT)
        for data in frames:
            self.gives(data)
        return self

    def delivers(self, *frames, stored):
        """Each of these frames is sent and delivered to b, which stores all of them or none."""
        self.reached += len(frames)
        self.does(bring(*frames))
        return self.gets(*frames) if stored else self

    def cuts(self, line, *pairs):
        """Frames are delivered to b inside the call of this line, with a `go` between two deliveries. Each pair is a
        frame, and whether b stores it.
        """
        self.reached += len(pairs)
        self.does(waiting(*(data for data, _ in pairs)), [f"{line} / {' go '.join(['deliver:b'] * len(pairs))}"])
        return self.gets(*(data for data, is_stored in pairs if is_stored))

    def plays(self, bench, name, options="", setup=()):
        """Plays the schedule. At its end, b holds no frame."""
        sent = {"accepted": self.reached, "put": self.reached}
        row(bench, name, self.does(RECV), sent, {"reached": self.reached, "stored": self.stored, "given": self.stored},
            options, (SOCKET, *setup))


def changes(bench):
    """A group is joined or left: the filter changes if and only if no other joined group has its number."""
    one, two = to(GROUP, 1), to(GROUP, 2)
    joined = f"group b {GROUP}"
    Groups().delivers(one, stored=False).does([f"join b {GROUP}"]).delivers(one, stored=True).delivers(
        to(OTHER_WORD), stored=False).does([f"leave b {GROUP}"]).delivers(two, stored=False).plays(
        bench, "a group is joined and left")
    Groups().does([f"join b {GROUP}", f"join b {SAME_NUMBER}", f"leave b {GROUP}"]).delivers(one, stored=True).does(
        [f"leave b {SAME_NUMBER}"]).delivers(two, stored=False).plays(bench, "two groups with the same number are left "
                                                                             "one after the other")
    Groups().does([f"join b {SAME_WORD}",
                   f"leave b {GROUP}"]).delivers(one, stored=False).delivers(to(SAME_WORD), stored=True).plays(
        bench, "a group with a bit in the same word stays", setup=(joined,))
    Groups().does([f"leave b {GROUP}"]).delivers(one, stored=False).plays(bench, "a configured group is left",
                                                                          setup=(joined,))
    Groups().does([f"leave b {GROUP}"]).delivers(one, stored=False).plays(bench, "a group is configured twice, and "
                                                                                 "left once", setup=(joined, joined))
    Groups().does([f"leave b {GROUP}",
                   f"join a {GROUP}"]).delivers(one, stored=False).plays(bench, "another host joins the group",
                                                                         setup=(joined,))
    Groups().does([f"join b {GROUP}", f"leave b {GROUP}"]).delivers(one, two, stored=True).plays(
        bench, "a promiscuous host gets all groups", "promiscuous")
    Groups().does([f"join b {BROADCAST}", f"leave b {BROADCAST}"]).delivers(to(BROADCAST), stored=True).plays(
        bench, "the broadcast address is a group")


def between_accesses(bench):
    """A frame that is delivered before a call's write of MTA is filtered by the groups before the call. A later frame
    is filtered by the groups after the call.
    """
    one, two, three = (to(GROUP, mark) for mark in (1, 2, 3))
    joined, shared = f"group b {GROUP}", f"group b {SAME_NUMBER}"
    Groups().cuts(f"join b {GROUP}", (one, False), (two, True)).plays(bench, "a join between two deliveries")
    Groups().cuts(f"leave b {GROUP}", (one, True), (two, False)).plays(bench, "a leave between two deliveries",
                                                                       setup=(joined,))
    Groups().cuts(f"join b {GROUP}", (one, False), (two, True), (three, True)).plays(bench, "a join makes one access")
    Groups().cuts(f"leave b {GROUP}", (one, True), (two, False),
                  (three, False)).plays(bench, "a leave makes one access", setup=(joined,))
    for line in (f"join b {GROUP}", f"leave b {SAME_NUMBER}"):
        setup = (shared,) if line.startswith("join") else (joined, shared)
        Groups().cuts(line, (one, True), (two, True), (three, True)).plays(bench, f"{line} with a shared number",
                                                                           setup=setup)
    Groups().cuts(f"join a {GROUP}", (one, False), (two, False)).plays(bench, "deliveries to b inside a join of a")


def rejected(bench):
    """Joins and leaves that are rejected change nothing. Their ticks are played."""
    one, two, last = to(GROUP, 1), to(GROUP, 2), to(OTHER_WORD, 3)
    joined = f"group b {GROUP}"
    Groups().cuts(f"join b {INDIVIDUAL}", (one, False), (two, False)).delivers(to(INDIVIDUAL), stored=False).plays(
        bench, "a join of an individual address")
    Groups().cuts(f"leave b {GROUP}", (one, False), (two, False)).plays(bench, "a leave of a group that isn't joined")
    Groups().cuts(f"leave b {SAME_NUMBER}", (one, True),
                  (two, True)).plays(bench, "a leave of another group with the same number", setup=(joined,))
    Groups().cuts(f"join b {GROUP}", (one, True),
                  (two, True)).does([f"leave b {GROUP}"]).delivers(one, stored=False).plays(
        bench, "a join of a joined group", setup=(joined,))
    # 32 groups, with the numbers 40 to 71
    most = [f"01:00:5e:01:{n % 16:x}0:{n // 16:02x}" for n in range(40, 40 + MOST_GROUPS)]
    full = Groups().cuts(f"join b {OTHER_WORD}", (last, False), (last, False)).cuts(f"join b {most[0]}", (last, False),
                                                                                    (to(most[0]), True))
    full.does([f"leave b {most[1]}"]).delivers(to(most[1]),
                                               stored=False).does([f"join b {OTHER_WORD}"]).delivers(last, stored=True)
    full.plays(bench, "a join of the 33rd group", setup=[f"group b {group}" for group in most])


def passes(address, joined):
    """Whether the filter passes a frame to this address after these groups were joined."""
    return address == BROADCAST or address != INDIVIDUAL and number(address) in map(number, joined)


def changed(line, joined):
    """The groups after a join or a leave, which may be rejected."""
    kind, _, group = line.split()
    if kind == "leave":
        return joined - {group}
    return joined if group == INDIVIDUAL else joined | {group}


def drawn(bench):
    """Plays random joins and leaves. A frame is delivered before the access of each call, and another after the access,
    or after a call without access.
    """
    addresses = [GROUP, SAME_NUMBER, SAME_WORD, OTHER_WORD, INDIVIDUAL, BROADCAST]
    for seed in SEEDS:
        drawing, schedule, joined = random.Random(seed), Groups(), set()
        for mark in range(EVENTS):
            line = f"{drawing.choice(['join', 'leave'])} b {drawing.choice(addresses)}"
            pairs = []
            for groups in (joined, changed(line, joined)):
                address = drawing.choice(addresses)
                pairs.append((to(address, mark), passes(address, groups)))
            joined = changed(line, joined)
            schedule.cuts(line, *pairs)
        schedule.plays(bench, f"random joins and leaves, seed {seed}")


def counted(bench):
    """A join or a leave makes one access, or none if another group that is joined has the same number."""
    calls = [("join", GROUP, 1), ("join", SAME_NUMBER, 0), ("join", SAME_WORD, 1),
             ("leave", GROUP, 0), ("leave", SAME_NUMBER, 1), ("leave", SAME_WORD, 1)]
    bench.put("s.scenario", TO_SOCKET + "".join(f"{call} b {group}\n" for call, group, _ in calls).encode())
    folder(bench)
    ran = bench.run("run", "--events", "-", "s.scenario", "outdir")
    wanted = [f"{at} line {at + 4} {call} b ok accesses {accesses}" for at, (call, _, accesses) in enumerate(calls)]
    bench.check("accesses of joins and leaves", ran.stdout.decode().splitlines(), wanted)


def all_cases(bench):
    for part in [changes, between_accesses, counted, rejected, drawn]:
        part(bench)
