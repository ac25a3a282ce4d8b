"""A model of two hosts on a wire, for resets in a run: what hosts put, store, return and give up.

It plays the lines of a scenario, and returns the frames of each socket and the counts of each host. Calls other than a
reset have no ticks. Filters aren't modelled: all frames pass.
"""

RECEIVE_BUFFER, SMALLEST, TRANSMIT_ROOM, WIRE_ROOM = 256, 60, 4, 64
TXDW, RXDMT0, RXO, RXT0 = 1, 1 << 4, 1 << 6, 1 << 7
HANDLED = TXDW | RXDMT0 | RXO | RXT0
# The numbers of accesses of a reset, from 1, after which something changes. Three more such accesses come after the
# stores of receive descriptors. OTHER_ACCESSES: how many accesses a reset has besides one for each descriptor.
# BEFORE_STORES: how many of them come before the stores of receive descriptors.
STOPPED, COUNTED, RESET = 1, 2, 3
OTHER_ACCESSES, BEFORE_STORES = 309, 300


def cost(frame):
    """How many bytes of the receive packet buffer a frame occupies."""
    return -(-len(frame) // 16) * 16 + 16


class Host:
    """A host with its adapter."""

    def __init__(self, rx=8, tx=8, buffers=16, rxa=48, sockets=(None,)):
        self.rx, self.tx, self.buffers, self.rxa = rx, tx, buffers, rxa
        self.sockets = sockets  # for each socket, the EtherType of its frames, or None for all
        self.queues = [[] for _ in sockets]
        self.pool = buffers  # the number of free buffers
        self.waiting = []  # frames at this end of the wire
        self.counts = dict.fromkeys(["accepted", "put", "reached", "stored", "given", "unclaimed"], 0)
        self.missed = 0  # the sum of what reads of MPC returned
        self.refused = self.absent = 0  # sends that were refused, and receives from sockets that don't exist
        self.given_up = None  # frames to be sent, frames held, and fates Off; None before the first reset
        self.reset_adapter()
        self.offer()
        self.is_on = self.sends = True

    def reset_adapter(self):
        """Does what RST does, and forgets what the driver forgets at this access."""
        self.is_on = self.sends = False
        self.causes = self.mpc = 0
        # the frames in the receive packet buffer, and how many bytes of the oldest one were moved
        self.buffered, self.moved = [], 0
        self.used = 0  # the bytes of the receive packet buffer that its frames take
        # the number of offered slots, the piece in progress, and the finished pieces. A piece is its size, and its
        # frame if it is the last piece of this frame.
        self.offered, self.piece, self.finished = 0, None, []
        self.ring, self.taken = [], []  # frames that are offered for sending, and those in the transmit packet buffer

    # The driver

    def offer(self):
        """Offers receive slots until no buffer is free, or only one slot isn't used."""
        count = min(self.pool, self.rx - 1 - self.offered - len(self.finished) - (self.piece is not None))
        self.pool -= count
        self.offered += count

    def send(self, frame):
        if not 14 <= len(frame) <= 1518 or len(self.ring) + len(self.taken) == self.tx - 1:
            self.refused += 1
            return
        self.ring.append(frame.ljust(SMALLEST, b"\0"))
        self.counts["accepted"] += 1

    def interrupt(self, between=lambda: None):
        """Handles an interrupt; `between` is played just after the read of ICR."""
        causes, self.causes = self.causes, 0
        between()
        if not causes & HANDLED:
            return
        self.missed, self.mpc = self.missed + self.mpc, 0
        while any(frame for _, frame in self.finished):
            last = next(at for at, (_, frame) in enumerate(self.finished) if frame)
            self.receive(self.finished[last][1], last + 1)
            del self.finished[:last + 1]
        self.offer()

    def socket_of(self, frame):
        """The number of the socket that a frame goes to, or None."""
        for wanted in (frame[12:14], None):
            if wanted in self.sockets:
                return self.sockets.index(wanted)
        return None

    def receive(self, frame, pieces):
        socket = self.socket_of(frame)
        if socket is None:
            self.counts["unclaimed"] += 1
            self.pool += pieces
        else:
            self.queues[socket].append((frame, pieces))

    def recv(self, socket):
        """Returns the oldest frame in a queue; None if the queue is empty, or if the socket doesn't exist."""
        self.absent += socket >= len(self.queues)
        if socket >= len(self.queues) or not self.queues[socket]:
            return None
        frame, pieces = self.queues[socket].pop(0)
        self.counts["given"] += 1
        self.pool += pieces
        self.offer()
        return frame

    # The adapter

    def arrive(self, frame):
        self.counts["reached"] += 1
        if not self.is_on:
            self.given_up[2] += 1
        elif self.used + cost(frame) > self.rxa * 1024:
            self.mpc += 1
            self.causes |= RXO
        else:
            self.buffered.append(frame)
            self.used += cost(frame)
            self.counts["stored"] += 1

    def rxdata(self):
        if self.piece or not self.buffered or not self.offered or not self.is_on:
            return False
        frame = self.buffered[0]
        size = min(RECEIVE_BUFFER, len(frame) - self.moved)
        self.moved += size
        is_last = self.moved == len(frame)
        self.piece = size, frame if is_last else None
        if is_last:
            self.moved = 0
            self.buffered.pop(0)
            self.used -= cost(frame)
        self.offered -= 1
        if 2 * self.offered == self.rx:
            self.causes |= RXDMT0
        return True

    def rxdone(self):
        if not self.piece:
            return False
        if self.piece[1]:
            self.causes |= RXT0
        self.finished.append(self.piece)
        self.piece = None
        return True

    def txtake(self):
        if self.sends and self.ring and len(self.taken) < TRANSMIT_ROOM:
            self.taken.append(self.ring.pop(0))

    def txput(self, others):
        if self.taken and all(len(other.waiting) < WIRE_ROOM for other in others):
            frame = self.taken.pop(0)
            self.counts["put"] += 1
            self.causes |= TXDW
            for other in others:
                other.waiting.append(frame)

    def deliver(self):
        if self.waiting:
            self.arrive(self.waiting.pop(0))

    def held(self):
        """The frames that the host holds, without those in queues."""
        pieces = self.finished + ([self.piece] if self.piece else [])
        return [frame for _, frame in pieces if frame] + self.buffered

    # A reset

    def reset_access(self, number):
        """Changes what the access with this number, from 1, changes in a reset."""
        enabled = BEFORE_STORES + self.rx + 2
        if number == STOPPED:
            self.is_on = False
        elif number == COUNTED:
            self.missed, self.mpc = self.missed + self.mpc, 0
        elif number == RESET:
            self.given_up[0] += len(self.taken) + len(self.ring)
            self.given_up[1] += len(self.held())
            self.pool += self.offered + len(self.finished) + (self.piece is not None)
            self.reset_adapter()
        elif number == enabled - 1:
            self.offer()
        elif number == enabled:
            self.is_on = True
        elif number == OTHER_ACCESSES + self.rx + self.tx - 1:
            self.sends = True

    def drain(self):
        """Returns the frames of all sockets, each with its socket's number."""
        given = []
        while True:
            waiting = [socket for socket, queue in enumerate(self.queues) if queue]
            if self.rxdone():
                continue
            if self.causes & HANDLED:
                self.interrupt()
            elif waiting:
                given.append((waiting[0], self.recv(waiting[0])))
            elif not self.rxdata():
                return given


class Wire:
    """Hosts on a wire, by their names."""

    def __init__(self, **hosts):
        self.hosts = hosts
        self.given = {f"{name}.{socket}.pcap": [] for name, host in hosts.items()
                      for socket in range(len(host.sockets))}
        self.number = 0  # the number of the next event

    def tick(self, text):
        if text == "go":
            return
        kind, name = text.split(":")
        host = self.hosts[name]
        if kind == "txput":
            host.txput([other for other in self.hosts.values() if other is not host])
        elif kind in ("txtake", "rxdata", "rxdone", "deliver"):
            getattr(host, kind)()

    def give(self, name, socket, frame):
        if frame is not None:
            self.given[f"{name}.{socket}.pcap"].append((self.number, frame))

    def reset(self, name, ticks):
        """A reset, with the ticks before its accesses."""
        host = self.hosts[name]
        host.given_up = host.given_up or [0, 0, 0]
        accesses = OTHER_ACCESSES + host.rx + host.tx
        made = 0
        for tick in ticks:
            if tick == "go" and made < accesses:
                made += 1
                host.reset_access(made)
            else:
                self.tick(tick)
        for number in range(made + 1, accesses + 1):
            host.reset_access(number)

    def play(self, line):
        """Plays the line of an event. Returns this model."""
        words = line.split()
        kind, name, *rest = words
        if kind == "tick":
            self.tick(name)
        elif kind == "send":
            self.hosts[name].send(bytes.fromhex(rest[0]))
        elif kind == "interrupt":
            self.hosts[name].interrupt()
        elif kind == "recv":
            self.give(name, int(rest[0]), self.hosts[name].recv(int(rest[0])))
        elif kind == "drain":
            for socket, frame in self.hosts[name].drain():
                self.give(name, socket, frame)
        elif kind == "reset":
            self.reset(name, rest[1:])
        self.number += 1
        return self

    def warned(self):
        """How many sends were refused, and how many receives named sockets that don't exist."""
        return sum(host.refused for host in self.hosts.values()), sum(host.absent for host in self.hosts.values())

    def numbers(self, name):
        """The counts of a host, and what its resets gave up."""
        host = self.hosts[name]
        return {**host.counts, "missed": host.missed + host.mpc}, host.given_up
