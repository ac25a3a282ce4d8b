"""Does the same requests on two emulators, and compares what they show."""

from collections import Counter
from contextlib import ExitStack, closing

from departures import departures_of
from emulators import Ended, Silent, number_in
from qemu_clock import StoodStill
from registers import table_of
from session import AREAS, Session

# The most lists of requests that are tried while one is made short. The second number is for an emulator that doesn't
# answer, which takes time in each try.
TRIES, SILENT_TRIES = 150, 6


class Difference:
    """A difference: at which request of the list, at which plain request, in what, and the two sides. If an emulator
    has ended or didn't answer, `what` is `end`, and `theirs` the reason.
    """

    def __init__(self, at, request, what, ours, theirs, is_silent=False):
        self.at, self.request, self.what, self.ours, self.theirs = at, request, what, ours, theirs
        self.is_silent = is_silent

    def rule(self):
        """The kind of request, its register, and what differs there."""
        word, *rest = self.request.split()
        return word, table_of(rest[0]) if word in ("readl", "writel") else "", self.what

    def place(self):
        """What differs, and at which kind of request."""
        word, register, what = self.rule()
        return f"{what} at {word} {register}".rstrip()

    def __str__(self):
        if self.what == "end":
            return f"{self.place()}: {self.theirs}"
        first, second = self.sides()
        return f"{self.place()}: serve {first:.200}, other {second:.200}"

    def sides(self):
        """Both sides as texts. Of two areas of memory, the first row of 16 bytes that differs, with its place."""
        if isinstance(self.ours, bytes) and isinstance(self.theirs, bytes):
            at = next(at for at in range(0, len(self.ours), 16) if self.ours[at:at + 16] != self.theirs[at:at + 16])
            return tuple(f"{at:#x}: {area[at:at + 16].hex()}" for area in (self.ours, self.theirs))
        return text_of(self.ours), text_of(self.theirs)


def text_of(side):
    """One side of a difference as a text."""
    if isinstance(side, int):
        return f"{side:#010x}"
    if isinstance(side, bytes):
        return f"{side.hex():.32}.."
    return side if isinstance(side, str) else ", ".join(side) or "nothing"


def numbers_in(*answers):
    """The numbers in answers, or the answers themselves if one has no number: leading zeros make no difference."""
    numbers = [number_in(answer) for answer in answers]
    return answers if None in numbers else numbers


class Notes:
    """What comparisons noted: known departures by their names, and the names of registers that were read, and of those
    whose values differed.
    """

    def __init__(self):
        self.departures, self.read, self.differing = Counter(), set(), set()


class Comparison:
    """Compares two emulators: lists of requests, each on new emulators. `start` has two functions that start them.

    If the first one can't be started, this isn't a difference, but an exception.
    """

    def __init__(self, start, has_link=True, with_known=False):
        self.start, self.has_link, self.with_known = start, has_link, with_known

    def differences(self, requests, notes, first=(), has_order=False):
        """Yields the differences that the requests of a list show, after the requests `first`, whose effects aren't
        compared.
        """
        with ExitStack() as stack:
            at, request = 0, "start"
            emulators = [stack.enter_context(closing(self.start[0]()))]
            try:
                emulators.append(stack.enter_context(closing(self.start[1]())))
                sessions = [Session(emulator, self.has_link, has_order) for emulator in emulators]
                for request in first:
                    for session in sessions:
                        session.do(request)
                stale = set()
                for at, request in enumerate(requests):
                    both = [session.do(request) for session in sessions]
                    yield from self.compared(at, request, *both, stale, notes)
            except (Ended, StoodStill) as error:
                yield Difference(at, request, "end", "", str(error), isinstance(error, Silent))

    def compared(self, at, request, ours, theirs, stale, notes):
        """Yields the differences in what both emulators showed at a request. `stale` has the areas of memory that
        differed before: such a difference isn't a new one.
        """
        lists = ["; ".join(seen.request for seen in side) for side in (ours, theirs)]
        if lists[0] != lists[1]:
            yield Difference(at, request, "requests", *lists)
            return
        for pair in zip(ours, theirs):
            found = list(self.parts(at, *pair, notes))
            yield from (difference for difference in found if difference.what not in stale)
            stale -= {area for area in AREAS if area in pair[0].parts}
            stale |= {difference.what for difference in found if difference.what in AREAS}

    def parts(self, at, ours, theirs, notes):
        """Yields the differences at a plain request. Known departures are counted and left out, unless they are wanted.
        """
        word, *rest = ours.request.split()
        register = {table_of(rest[0])} if word == "readl" else set()
        notes.read |= register
        for what, one in ours.parts.items():
            other = theirs.parts[what]
            if what == "answer":
                one, other = numbers_in(one, other)
            if one != other and not self.with_known:
                names, one, other = departures_of(ours.request, what, one, other)
                notes.departures.update(names)
            if one != other:
                notes.differing |= register
                yield Difference(at, ours.request, what, one, other)

    def first_difference(self, requests):
        """The first difference that a list shows, or None."""
        with closing(self.differences(requests, Notes())) as found:
            return next(found, None)

    def shortest(self, requests, difference):
        """Removes pieces of a list if its first difference is still of the same kind. Returns the list and its
        difference.
        """
        requests, tries, size = requests[:difference.at + 1], 0, difference.at // 2 + 1
        most = SILENT_TRIES if difference.is_silent else TRIES
        while size and tries < most:
            at = 0
            while at < len(requests) and tries < most:
                fewer, tries = requests[:at] + requests[at + size:], tries + 1
                found = self.first_difference(fewer)
                if found and found.rule() == difference.rule():
                    requests, difference = fewer[:found.at + 1], found
                else:
                    at += size
            size //= 2
        return requests, difference
