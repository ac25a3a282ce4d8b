"""Tests as functions, for the finder of races: queue a frame, and look whether it was sent. `test_wrong` has a race.

usage: tools/races -- python3 -m nic82540em examples/library/searched.py:test_wrong
       (with PYTHONPATH=bindings/python, or with the package installed by pip)
       python3 examples/library/searched.py, which runs both tests once in process
"""

RING, BUFFER = 0x2000, 0x10000
ICR, TCTL, TDBAL, TDLEN, TDT = 0x00C0, 0x0400, 0x3800, 0x3808, 0x3818
TXQE = 1 << 1  # the transmit queue is empty
FRAME = bytes.fromhex("ffffffffffff02000000000188b5").ljust(60, b"\x01")


def queue(adapter):
    """Queues a frame. The adapter may send it at once."""
    descriptor = BUFFER.to_bytes(8, "little") + len(FRAME).to_bytes(2, "little") + bytes([0, 0x9, 0, 0, 0, 0])
    adapter.store((BUFFER, FRAME), (RING, descriptor))
    adapter.write((TDBAL, RING), (TDLEN, 128), (TCTL, 1 << 1), (TDT, 1))


def test_right(adapter):
    queue(adapter)
    adapter.settle()
    assert adapter.wire == [FRAME], "the frame wasn't sent"


def test_wrong(adapter):
    queue(adapter)
    assert not adapter.read(ICR) & TXQE, "the queue is empty before the test has waited"


if __name__ == "__main__":
    from nic82540em import Adapter

    for test in (test_right, test_wrong):
        with Adapter(None) as one:
            test(one)
            print(f"{test.__name__}: passes")
