"""Virtual time of a QEMU that has no accelerator `qtest`, and so no `clock_step`.

QEMU runs with `-accel tcg -icount shift=0,sleep=off`, and its processor halts. Then virtual time jumps from one timer
to the next. To let an interval pass, `step` sets a timer of the machine (HPET) to the end of the interval.
"""

import time

# The registers of the HPET: its control, its counter, the control of its first timer, and when that fires
CONTROL, COUNTER, TIMER, ALARM = 0xFED00010, 0xFED000F0, 0xFED00100, 0xFED00108
# The control of the HPET: it runs, and its first timer is interrupt 0. The control of a timer: it interrupts once.
RUNS, INTERRUPTS = 3, 4
# The nanoseconds of a tick
TICK = 10
# The most times that the counter is read
WAITS = 2000
# A ROM in which the processor halts: it begins 16 bytes before the end of the ROM, with cli; hlt
ROM = b"\xf4" * (0x20000 - 16) + b"\xfa\xf4\xeb\xfd" + b"\xf4" * 12
# The options with which virtual time jumps from one timer to the next
WORDS = ["-accel", "tcg", "-icount", "shift=0,sleep=off"]


class StoodStill(Exception):
    """Virtual time doesn't pass."""


class VirtualTime:
    """The clock of a QEMU. `lines` sends a request, and returns the lines up to its answer."""

    def __init__(self, lines):
        self.lines = lines
        self.lines(f"writeq {CONTROL:#x} {RUNS}")

    def ticks(self):
        """The counter, and the lines before the answer."""
        *told, answer = self.lines(f"readq {COUNTER:#x}")
        return int(answer[3:], 16), told

    def now(self):
        """The time in nanoseconds."""
        return TICK * self.ticks()[0]

    def step(self, nanoseconds):
        """Lets time pass. Returns the lines that came meanwhile, without those of the timer's interrupt."""
        begun, told = self.ticks()
        end = begun + nanoseconds // TICK
        told += self.lines(f"writeq {ALARM:#x} {end}")[:-1] + self.lines(f"writeq {TIMER:#x} {INTERRUPTS}")[:-1]
        for turn in range(WAITS):
            ticks, more = self.ticks()
            told += more
            if ticks >= end:
                break
            # The processor's thread runs the timers, and must get the time to do it.
            time.sleep(0.0001 if turn < WAITS // 2 else 0.01)
        else:
            raise StoodStill("virtual time stands still")
        told += self.lines(f"writeq {TIMER:#x} 0")[:-1] + self.lines("inb 0x80")[:-1]
        return [line for line in told if not line.startswith("IRQ") or line.split()[2] not in ("0", "2")]
