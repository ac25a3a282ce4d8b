"""tools/races answers `choose N` by its schedule: it explores, draws and shrinks the answers like other deviations."""

import json
import re

from race_finder import ASK, FOUND, FRAME, PASSES, USAGE, find, found_in, replay

# Chooses three numbers below 8. With the argument `fails`, the test fails if the second one is 5 and the third one is
# above 2.
NUMBERS = ASK + """
ask "readl 0xFEB00008"
ask "arrive 00"
ask "choose 8"
ask "choose 8"; second=$answer
ask "readl 0xFEB00008"
ask "choose 8"; third=$answer
case $1-${second##*0}-${third##*0} in fails-5-[3-7]) echo "the numbers are wrong" >&2; exit 1 ;; esac
"""
# After a frame has arrived, the processor takes the interrupt before, between or after two reads of RDH. The schedule
# chooses this moment. The test fails if the handler runs between these reads, and reads ICR after the frame is
# finished.
MOMENT = ASK + f"""
handler() {{ ask "readl 0xFEB000C0"; causes=$answer; }}
ask "writel 0xFEB02808 128"
ask "writeq 0 0x800"
ask "writel 0xFEB02818 1"
ask "writel 0xFEB00100 0x8002"
ask "arrive {FRAME}"
ask "choose 3"; moment=${{answer##*0}}
causes=
[ "$moment" = "" ] && handler
ask "readl 0xFEB02810"
[ "$moment" = 1 ] && handler
ask "readl 0xFEB02810"
[ "$moment" = 2 ] && handler
ask "settle"
case $moment-$causes in 1-*8?) echo "the cause was read too early" >&2; exit 1 ;; esac
"""
RACE = ["1.1 choose 1 before choose", "1.2 rx before read RDH"]
CHART = """\
   0.3    write --------> RDT 0x1
   0.4    write --------> RCTL 0x8002 EN BAM
                                                                                stored <-------- 60 bytes, ..0000
*  1.1    choose 3: 1
*                         RDH 0x1                buffer of rx[0] is written <-- rxdata moved
"""
FAILS, RIGHT = ["sh", "numbers", "fails"], ["sh", "numbers"]
SMALLEST = ["1.2 choose 5 before choose", "1.4 choose 3 before choose"]
# Requests whose limits aren't valid. The finder passes them to the server.
INVALID = ["choose", "choose 0", "choose 1 2", "choose x", "choose 4294967296"]


def explored(server):
    """All answers are tried, and the smallest numbers with which the test fails are found."""
    server.put("numbers", NUMBERS.encode())
    result = json.loads(find(server, "--explore", "1", "--json", command=RIGHT)[1])
    server.check("choices: depth 1", (result["result"], result["search"]["tried"]), ("passes", [1, 21]))
    status, _, errors = find(server, "--explore", "2", "--out", "found", command=FAILS)
    server.check("choices: explored", (status, found_in(server), errors), (FOUND, SMALLEST, ""))
    result = json.loads(find(server, "--explore", "2", "--all", "--json", command=FAILS)[1])
    failed = [one["schedule"][1] for one in result["search"]["failed"]]
    server.check("choices: all that fail", failed, [f"1.4 choose {number} before choose" for number in range(3, 8)])


def drawn(server):
    """A drawn run has numbers, and the schedule of one that fails is made as short as the explored one."""
    for name, words in [("drawn", ["--runs", "2000"]), ("PCT", ["--pct", "2", "--runs", "300"])]:
        status, _, errors = find(server, *words, "--out", "found", command=FAILS)
        second, third = found_in(server)
        server.check(f"choices: {name}", (status, second, errors), (FOUND, SMALLEST[0], ""))
        server.holds(f"choices: {name}, the third number", re.fullmatch("1.4 choose [3-7] before choose", third), third)


def replayed(server):
    """Schedules are replayed. If a number is too great, the answer is 0. Invalid schedules are refused, and another
    access is reported.
    """
    for name, text, status, last in [
            ("right", "1.2 choose 5 before choose\n1.4 choose 7 before choose\n", FOUND, "the numbers are wrong"),
            ("too great", "1.2 choose 8 before choose\n1.4 choose 7 before choose\n", PASSES, "The test passes.")]:
        got, out, errors = replay(server, text, command=FAILS)
        server.check(f"choices: replayed, {name}", (got, out.splitlines()[-1].endswith(last), errors),
                     (status, True, ""))
    for text in ("1.2 choose 0 before choose\n", "1.2 choose before choose\n"):
        status, out, errors = replay(server, text, command=RIGHT)
        server.check(f"choices: {text.strip()}", (status, out, "line 1: " in errors), (USAGE, "", True))
    status, out, errors = replay(server, "1.3 choose 1 before choose\n", command=RIGHT)
    server.check("choices: another access", "at this place, the test makes another access: read STATUS" in out, True)


def moments(server):
    """A race that needs the moment of an interrupt and a step: it is found, and has its chart."""
    server.put("moment", MOMENT.encode())
    for words in (["--runs", "500"], ["--explore", "2"]):
        status, out, errors = find(server, *words, "--out", "found", command=["sh", "moment"])
        server.check(f"choices: a moment, {words}", (status, found_in(server), errors), (FOUND, RACE, ""))
        server.check("choices: its chart", CHART in out, True)
    status, out, errors = replay(server, "".join(f"{line}\n" for line in RACE), command=["sh", "moment"])
    server.check("choices: its schedule", (status, CHART in out, errors), (FOUND, True, ""))


def invalid(server):
    """The server answers a request whose limit isn't valid, as it does without the finder."""
    for request in INVALID:
        test = (f'echo "{request}"; read -r answer; case $answer in ERR*|FAIL*) ;; *) exit 1 ;; esac\n'
                + 'echo "arrive 00"; read -r answer\n')
        server.put("invalid", test.encode())
        status, out, errors = replay(server, "", command=["sh", "invalid"])
        server.check(f"choices: {request}", (status, out.splitlines()[-1], errors), (PASSES, "   The test passes.", ""))


def all_cases(server):
    for part in (explored, drawn, replayed, moments, invalid):
        part(server)
