"""Tests tools/races: it finds bugs of examples/drivers, and small tests show what it searches, plays and prints."""

import json
import os
import re
import subprocess
import sys

from harness import TOP
from server import LIMIT, lines
from server_pages import follow, read_page

RACES = os.path.join(TOP, "tools", "races")
EXCHANGE = [sys.executable, "-S", "-E", os.path.join(TOP, "examples", "drivers", "exchange_test.py")]
FRAME = "ffffffffffff02000000000908000000".ljust(120, "0")
# A packet buffer of 2 KB has room for only one of these frames.
LONG_FRAME = FRAME.ljust(3036, "0")
PASSES, FOUND, USAGE, NOT_RUN, UNSEARCHED = range(5)
UNSEARCHED_TOLD = "nothing was searched: in no run did a deviation do anything\n"
# A driver's test in shell: `ask` sends a request, and stores its answer.
ASK = """ask() {
    echo "$1"
    while read -r answer; do
        case $answer in OK*) break ;; ERR* | FAIL*) exit 9 ;; esac
    done
}
"""
# One slot of the receive ring is offered, and a frame arrives.
ARRIVES = ASK + f"""
ask "writel 0xFEB02808 128"
ask "writeq 0 0x800"
ask "writel 0xFEB02818 1"
ask "writel 0xFEB00100 0x8002"
ask "arrive {FRAME}"
"""
# A frame arrives. Then RDH is read twice, and the status of the frame's slot twice. With `fails`, the test fails if the
# frame is moved before the second read of RDH, and finished between the reads of the status.
SMALL = ARRIVES + """ask "readl 0xFEB02810"
ask "readl 0xFEB02810"; head=$answer
ask "readb 12"; early=$answer
ask "readb 12"; late=$answer
case $1-$head-$early-$late in
    fails-*1-*0-*3) echo "finished too late" >&2; exit 1 ;;
esac
"""
# Reads a word of the EEPROM, and fails if the word isn't there at the first read of EERD.
HASTY = ASK + 'ask "writel 0xFEB00014 1"\nask "readl 0xFEB00014"\ncase $answer in *20010) ;; *) exit 1 ;; esac\n'
SMALLEST = "1.1 rxdata before read RDH\n1.4 rxdone before read rx[0]+12\n"
CHART = """\
   place  driver     registers              memory                         adapter          wire              line
   0.2    write --------------------------> rx[0] buffer 0x800
   0.3    write ---> RDT 0x1
   0.4    write ---> RCTL 0x8002 EN BAM
                                                                           stored <-------- 60 bytes, ..0000
*                    RDH 0x1                buffer of rx[0] is written <-- rxdata moved
   1.1    read <---- RDH 0x1
   1.2    read <---- RDH 0x1
   1.3    read <--------------------------- rx[0]+12 status 0x0
*                                           rx[0] is written back <------- rxdone done
   1.4    read <--------------------------- rx[0]+12 status 0x3 DD EOP
   exit status 1: finished too late
"""


def find(server, *words, command):
    """Runs tools/races with these options. Returns its exit status, its output and its errors."""
    ran = subprocess.run([RACES, *words, "--", *command], cwd=server.folder, capture_output=True, timeout=5 * LIMIT)
    return ran.returncode, ran.stdout.decode(), ran.stderr.decode()


def replay(server, text, *words, command):
    """Plays a schedule with this text. Returns what `find` returns."""
    server.put("played", text.encode())
    return find(server, "--replay", "played", *words, command=command)


def found_in(server, name="found"):
    """The deviations of a schedule that was stored."""
    return [line for line in (server.get(name) or b"").decode().splitlines() if not line.startswith("#")]


def without_rate(text):
    return re.sub(r", \d+ a second", "", text)


# For each bug: a seed from which few runs find it, the most deviations that are left, and the last deviation with its
# access.
BUGS = {"late": (10, 1, r"rx(done)? before read ICR"), "part": (1, 0, None)}


def bugs(server):
    """Each bug of BUGS is found, and its schedule is made small. The schedule shows the same fault again, and the right
    driver passes it.
    """
    for bug, (seed, most, last) in BUGS.items():
        words = ["--runs", "60", "--seed", str(seed), "--out", "found"]
        status, out, errors = find(server, *words, command=[*EXCHANGE, bug])
        server.check(f"bugs: {bug} is found", (status, errors), (FOUND, ""))
        deviations, text = found_in(server), (server.get("found") or b"").decode()
        server.check(f"bugs: {bug} needs few deviations", len(deviations) <= most, True)
        if last:
            found = deviations[-1].partition(" ")[2] if deviations else ""
            server.check(f"bugs: {bug}: its last deviation, {found!r}", re.fullmatch(last, found) is not None, True)
        fault = text.splitlines()[1:2] and text.splitlines()[1].removeprefix("# ")
        server.check(f"bugs: {bug}: its fault", (fault.startswith("exit status 1: "), out.splitlines()[-1:]),
                     (True, [f"   {fault}"]))
        status, again, errors = replay(server, text, command=[*EXCHANGE, bug])
        server.check(f"bugs: {bug} is shown by its schedule", (status, again.splitlines()[-1:], errors),
                     (FOUND, [f"   {fault}"], ""))
        server.check(f"bugs: {bug} is a race", "no race: the test fails by itself" in out, most == 0)


def page(server):
    """The session on the page of charts prints what the page shows."""
    command, wanted = re.search(r"^```\n\$ tools/races -- ([^\n]*)\n(.*?)^```$",
                                read_page("finder", "README.md"), re.M | re.S).groups()
    ran = subprocess.run([RACES, "--", *command.split()], cwd=TOP, capture_output=True, timeout=10 * LIMIT)
    got = without_rate(ran.stdout.decode())
    server.check("page: its session", (follow(got, without_rate(wanted)), ran.returncode, ran.stderr),
                 (True, FOUND, b""))


def right(server):
    """The right driver fails in none of 150 drawn runs."""
    status, out, errors = find(server, "--runs", "150", "--all", command=EXCHANGE)
    server.check("right: no run fails", (status, out.startswith("150 runs, ") and "\nno run fails\n" in out, errors),
                 (PASSES, True, ""))


def explored(server):
    """All schedules of a small test are counted: it has four accesses after the arrival, and one frame to move. So one
    has no deviation, 8 have `rxdata` or `rx`, and 6 have `rxdata` before one access, and `rxdone` before a later one.
    """
    server.put("small", SMALL.encode())
    status, out, errors = find(server, "--explore", "3", command=["sh", "small"])
    server.check("explored: a test that passes", (status, out.splitlines()[:1], errors),
                 (PASSES, ["all schedules of up to 3 deviations, without holds: none of 15 fails"], ""))
    tried = json.loads(find(server, "--explore", "3", "--json", command=["sh", "small"])[1])["search"]["tried"]
    server.check("explored: their numbers", tried, [1, 8, 6, 0])
    status, out, errors = find(server, "--explore", "2", "--out", "found", command=["sh", "small", "fails"])
    server.check("explored: a test that fails", (status, errors), (FOUND, ""))
    server.check("explored: it is smallest",
                 "\nsmallest: no schedule with fewer deviations fails, apart from holds\n" in out, True)
    server.check("explored: its schedule", (server.get("found") or b"").decode(),
                 f"# sh small fails\n# exit status 1: finished too late\n{SMALLEST}")


def drawn(server):
    """A race of two steps is drawn, made small, and printed with a chart. A seed decides."""
    server.put("small", SMALL.encode())
    status, out, errors = find(server, "--runs", "200", command=["sh", "small", "fails"])
    wanted = re.escape("\nThe schedule:\n# sh small fails\n# exit status 1: finished too late\n") + \
        r"1\.[12] rxdata before read RDH\n1\.4 rxdone before read rx\[0\]\+12\n\nTo play it again: "
    server.check("drawn: it is found", (status, re.search(wanted, out) is not None, errors), (FOUND, True, ""))
    chart = out[out.find("   place  driver "):]
    server.check("drawn: its chart", chart.endswith("\n   exit status 1: finished too late\n"), True)
    server.check("drawn: all smaller ones pass", "\nsmallest: no schedule with fewer deviations fails" in out, True)
    again = re.search("^To play it again: +(.*)$", out, re.M)[1].replace("tools/races", RACES)
    server.put("again", f"{again}\n".encode())
    server.check("drawn: to play it again", server.execute("sh", "again"), (FOUND, chart, ""))
    once = [json.loads(find(server, "--runs", "60", "--all", "--seed", seed, "--json",
                            command=["sh", "small", "fails"])[1])["search"]["failed"] for seed in ("1", "1", "2")]
    server.check("drawn: a seed decides", (once[0] == once[1], once[0][0]["seed"], once[0] == once[2]),
                 (True, 52, True))
    status, out, errors = find(server, command=["sh", "-c", ASK + 'ask "readl 0"; exit 7'])
    server.check("drawn: a test that fails by itself", (status, out.splitlines()[:4], errors),
                 (FOUND, ["without deviations: exit status 7",
                          "no race: the test fails by itself, without any deviation", "", "The schedule:"], ""))


def holds(server):
    """A driver that doesn't wait for the EEPROM passes until a step of the EEPROM is left out."""
    server.put("hasty", HASTY.encode())
    command = ["sh", "hasty"]
    for words in (["--runs", "20"], ["--explore", "2"]):
        server.check(f"holds: none without the option: {words}", find(server, *words, command=command),
                     (UNSEARCHED, UNSEARCHED_TOLD, ""))
    for name, words in [("drawn", ["--runs", "20"]), ("explored", ["--explore", "1"])]:
        status, _, errors = find(server, *words, "--holds", "--out", "found", command=command)
        server.check(f"holds: one is {name}", (status, found_in(server), errors),
                     (FOUND, ["0.2 hold eeprom before read EERD"], ""))
        server.remove("found")


def replays(server):
    """A replay fails if the schedule meets another access, and is refused if a place isn't reached."""
    small = ["sh", "small", "fails"]
    server.put("small", SMALL.encode())
    server.check("replays: the schedule of the chart", replay(server, SMALLEST, command=small), (FOUND, CHART, ""))
    status, out, _ = replay(server, "1.2 rxdata before read RDH # moved\n\n1.3 rxdone before read rx[0]+12\n",
                            command=small)
    server.check("replays: one access earlier it passes", (status, out.splitlines()[-1]),
                 (PASSES, "   The test passes."))
    other = "1.3 rx before read RDH"
    status, out, errors = replay(server, other, command=small)
    wanted = f"   {other}: at this place, the test makes another access: read rx[0]+12"
    server.check("replays: another access", (status, out.splitlines()[-1], errors), (FOUND, wanted, ""))
    server.check("replays: a place that isn't reached", replay(server, "1.5 rx before read ICR", command=small),
                 (USAGE, "", "races: played: line 1: the run doesn't reach this place\n"))
    command = ["sh", "-c", ASK + 'ask "readl 0xFEB01000"; case $answer in *3e0002) exit 5 ;; esac']
    for name, text, words, status in [("none", "", [], PASSES), ("of the schedule", "options --rxa 2\n", [], FOUND),
                                      ("of the call", "options --rxa 2\n", ["--rxa", "4"], PASSES),
                                      ("of the call alone", "", ["--rxa", "2"], FOUND)]:
        server.check(f"replays: options {name}", replay(server, text, *words, command=command)[0], status)


BAD = ["x", "4 rx before read ICR", "4.0 rx before read ICR", "4.1 rx before settle", "0.0 rx before arrive",
       "-1.2 rx before read ICR", "5.0 rx before settle\n4.9 rx before read ICR", "4.6 hold", "4.6",
       "4.6 rz before read ICR", "4.6 hold rx before read ICR", "4.6 rx", "rx before read ICR#0",
       "4.6 rx before read ICR\n3.7 rx before read ICR"]


def errors(server):
    """Texts that aren't schedules, and invalid calls, are refused with a message and an exit status."""
    more = "\nFor more information, try '--help'.\n"
    for text in BAD:
        status, out, told = replay(server, text, command=["true"])
        begin = f"races: played: line {text.count(chr(10)) + 1}: "
        server.check(f"errors: {text!r}", (status, out, told.startswith(begin)), (USAGE, "", True))
    for words, wanted in [
            (["--runs"], "--runs: it"),
            (["--runs", "x"], "--runs: its value isn't a number, or is too great"),
            (["--fly"], "--fly: there is no such option"), (["runs"], "runs: write -- before COMMAND"),
            (["--rows", "few"], "--rows: its value is near or all"),
            (["--color", "red"], "--color: its value is auto, always or never"),
            (["--jobs", "0"], "--jobs: its value is"), (["--rxa", "3"], "--rxa: its value is an even number"),
            (["--by-name"], "--by-name: schedules have places")]:
        status, out, told = find(server, *words, command=["true"])
        server.check(f"errors: {words}", (status, out, told.startswith(f"races: {wanted}"), told.endswith(more)),
                     (USAGE, "", True, True))
    status, out, told = find(server, "--replay", "nothing", command=["true"])
    server.check("errors: a schedule that isn't there", (status, out, "nothing" in told), (USAGE, "", True))
    server.check("errors: no command", find(server, "--runs", "1", command=[]),
                 (USAGE, "", f"races: --: COMMAND is missing{more}"))
    server.check("errors: a command that isn't there", find(server, command=["./nothing"]),
                 (NOT_RUN, "", "races: ./nothing: No such file or directory\n"))
    helped = subprocess.run([RACES, "--help"], capture_output=True, timeout=LIMIT)
    server.check("errors: the help", (helped.returncode, helped.stdout.startswith(b"Finds races"), helped.stderr),
                 (PASSES, True, b""))


def talks(server):
    """Without deviations, a test gets the same answers as from the server, and the log if it asks for it. Its
    `interleave` is answered, but plays no steps.
    """
    # The packet buffer has room for one long frame, so the offered one is missed, and raises the interrupt line.
    offers = [f"offer {FRAME.upper()}", "offer", "offer 0", "offer 00 00", "readb 5", "offer 00", "settle",
              "writel 0xFEB01000 2", "writel 0xFEB00100 0x8002",
              "writel 0xFEB000D0 64", f"arrive {LONG_FRAME}", f"offer {LONG_FRAME}", "settle", "readl 0xFEB000C0",
              f"offer {FRAME}"]
    requests = ["log on", "readl 0xFEB00008", "step phy", "arrive 00", "settle", "line", *offers, "wire full",
                "wire free", "wire", "log off", "interleave 3", "interleave 65536", "log maybe",
                "writel 0xFEB000C8 128", "writel 0xFEB000D0 128", "readl\t0xFEB000C0 ", "", "fly", "read 0 65537",
                "write 0 2 0x00", "readb 0x100000", "memset 0 4 1", "read 0 4", "read 0xFEB00000 4",
                "write 0xFEB000D0 4 0x01000000", "writel 0 0x1ffffffff", "readl 0\r", "read 0 65536",
                "readl 0".ljust(140_000), "writel 0xFEB00020 0x04201200", "settle", f"offer {FRAME}", "clock_step 7",
                f"offer {FRAME}", "clock_set 9", f"offer {FRAME}", "clock_step", "offer 00", "clock_step x",
                "clock_step 1 2",
                "outl 0xCF8 0x80002010", "outl 0xCFC 0xE0000000", "readl 0xE0000008", "readl 0xFEB00008", "b64read 0 4",
                "settle"]
    data = lines(requests) + b"\xff\nreadl 0\xed\xa0\x80\nendianness"
    server.put("requests", data)
    status, _, errors = replay(server, "", command=["sh", "-c", "exec 3<&0; cat requests & exec cat <&3 >answers"])
    server.check("talks: the test passes", (status, errors), (PASSES, ""))
    got = (server.get("answers") or b"").split(b"\n")
    wanted = server.serve(data.replace(b"interleave 3", b"interleave 0"))[1].split(b"\n")
    for at, line in enumerate(wanted):
        server.check(f"talks: line {at + 1} of the answers", got[at][:80] if at < len(got) else None, line[:80])
    server.check("talks: no line is left", (len(got), got == wanted), (len(wanted), True))


def all_cases(server):
    for part in [talks, replays, errors, explored, drawn, holds, bugs, page, right]:
        part(server)
