"""Tests the rules by which a page states why a run fails, with short logs in the explorer's form.

Each rule has a log in which it finds something, and a log of the same shape in which it must find nothing.
"""

from finder.log import RunLog
from harness import not_run
from page_script import logic
from text_log import run_of_text

QUIET = "quiet"

# A receive ring of 8 slots at 0x1000, all but the last one offered, with buffers of 2,048 bytes from 0x10000 on. A
# transmit ring of 8 slots at 0x2000.
BUFFERS = [f"write {0x1000 + 16 * slot:#x}, 16 bytes: {(0x10000 + 2048 * slot).to_bytes(8, 'little').hex():0<32}"
           for slot in range(8)]
SET_UP = [*BUFFERS, "write 0x2000, 128 bytes: 00000000000000000000000000000000..", "write RDBAL 0x1000",
          "write RDLEN 0x80", "write RDT 0x7", "write TDBAL 0x2000", "write TDLEN 0x80", "write RCTL 0x8002",
          "write TCTL 0x2", "write IMS 0x81"]
REFILL = "write rx[0], 16 bytes: 00000100000000000000000000000000"
FRAME, SENT = "arrive: stored", "write tx[0], 16 bytes: 00000200000000003c00000900000000"
LOADED, NEXT = "read rx[0]+8, 8 bytes: 3c00000003000000", "read rx[1]+8, 8 bytes: 3c00000003000000"
DONE = ["rxdata: moved", "rxdone: done"]
BUFFER = "read 0x10000, 4 bytes: ffffffff"
KEEP = ["write rx[7], 16 bytes: 00000100000000000000000000000000", "write RDT 0x0"]
# Another ring, of which only the first descriptor is stored, and two slots are offered
LAP = ["write CTRL 0x4000000", f"write 0x3000, 16 bytes: {'00000100':0<32}", "write RDBAL 0x3000", "write RDLEN 0x80",
       "write RDH 0x1", "write RDT 0x3", "write RCTL 0x8002"]
SENT_FRAME, OTHER_FRAME = "write 0x20000, 4 bytes: ffffffff", "write 0x20800, 4 bytes: ffffffff"
OTHER, SENT_LOADED = "write tx[1], 16 bytes: 00080200000000003c00000900000000", "read tx[0]+12, 1 bytes: 01"
CUTS = ["the handler cuts in"]
TWO_LOADS, STILL_READ = ("A descriptor is written back between two loads of it",
                         "A frame is written to a buffer that is still read")
BEFORE_STORED, CUTS_IN = "A slot is used before its descriptor is stored", "The handler cuts in on a send"
# For each case: the kind that is found or None, the heading in RACES, and the lines after SET_UP
CASES = [
    ("late", "A frame is finished while the handler runs", [FRAME, *DONE, "read ICR 0x80"]),
    (None, "", [FRAME, *DONE, "read ICR 0x80", LOADED]),
    ("late", "A frame is finished while the handler runs", [FRAME, *DONE, "write ICR 0x80"]),
    (None, "", [FRAME, *DONE, "write ICR 0x1"]),
    ("length", "A descriptor is written back between two loads of it",
     [FRAME, "read rx[0]+8, 2 bytes: 0000", *DONE, "read rx[0]+12, 1 bytes: 03"]),
    (None, "", [FRAME, *DONE, "read rx[0]+8, 2 bytes: 3c00", "read rx[0]+12, 1 bytes: 03"]),
    (None, "", [FRAME, "read rx[0]+8, 2 bytes: 0000", *DONE, "read rx[0]+8, 2 bytes: 3c00",
                "read rx[0]+12, 1 bytes: 03"]),
    ("rdh", "The head has passed a slot that is in progress", [FRAME, "rxdata: moved", "read RDH 0x1"]),
    (None, "", [FRAME, *DONE, "read RDH 0x1", LOADED]),
    ("head", "The head has passed a slot that is in progress", [FRAME, "rxdata: moved", BUFFER]),
    (None, "", [FRAME, *DONE, LOADED, BUFFER]),
    ("head", "The head has passed a slot that is in progress", [FRAME, "rxdata: moved", REFILL]),
    (None, "", [FRAME, *DONE, LOADED, REFILL]),
    ("early", "A frame is written to a buffer that is still read", [BUFFER]),
    (None, "", [FRAME, *DONE, LOADED, BUFFER, REFILL]),
    ("part", "A frame spans several descriptors",
     [FRAME, "rxdata: part", "rxdone: done", "rxdata: moved", "read rx[0]+12, 1 bytes: 01", BUFFER]),
    (None, "", [FRAME, "rxdata: part", "rxdone: done", *DONE, "read rx[0]+12, 1 bytes: 01",
                "read rx[1]+12, 1 bytes: 03", BUFFER]),
    ("rdt store", "A slot is used before its descriptor is stored",
     [FRAME, *DONE, LOADED, "write RDT 0x0", "write rx[7], 16 bytes: 00380100000000000000000000000000"]),
    (None, "", [FRAME, *DONE, LOADED, REFILL, "write RDT 0x0"]),
    ("rdt", "A slot is used before its descriptor is stored",
     [*[FRAME] * 9, *DONE * 7, "write RDT 0x1", *DONE * 2]),
    ("done", "A slot is done before it is offered",
     [FRAME, FRAME, *DONE * 2, LOADED, "write rx[0], 8 bytes: 0000010000000000", "write RDT 0x1", NEXT]),
    (None, "", [FRAME, FRAME, *DONE * 2, LOADED, REFILL, "write RDT 0x1", NEXT]),
    ("full", "A full ring looks empty", ["write RDT 0x0"]),
    (None, "", ["write RDT 0x6"]),
    ("full", "A full ring looks empty", [SENT, "write TDT 0x1", "write TDT 0x0"]),
    ("twice", "A frame is written to a buffer that is still read",
     [FRAME, FRAME, *DONE * 2, LOADED, "write rx[0], 16 bytes: 00180100000000000000000000000000", "write RDT 0x1"]),
    ("dry", "All buffers are held", [*[FRAME] * 8, *DONE * 7, *[f"read rx[{at}]+12, 1 bytes: 03" for at in range(7)]]),
    (None, "", [*[FRAME] * 7, *DONE * 7, *[f"read rx[{at}]+12, 1 bytes: 03" for at in range(7)]]),
    ("rxo", "A frame is missed while misses are counted", ["read MPC 0", "arrive: missed", "write ICR 0x40"]),
    (None, "", ["arrive: missed", "write ICR 0x40", "read MPC 0x1"]),
    ("mta", "A word of the group table is cleared for a moment",
     ["write MTA[1] 0x2", "write MTA[1] 0", "arrive: filtered", "write MTA[1] 0x6"]),
    (None, "", ["write MTA[1] 0x2", "arrive: filtered", "write MTA[1] 0x6"]),
    (None, "", ["write MTA[1] 0x2", "write MTA[1] 0", "arrive: filtered", "write MTA[1] 0x4"]),
    ("rah", "", ["write RAH[0] 0x80000100", "write RAH[0] 0", "arrive: filtered", "write RAH[0] 0x80000100"]),
    (None, "", ["write RAH[0] 0x80000100", "write RAH[0] 0", "write RAH[0] 0x80000100", "arrive: filtered"]),
    # the handler takes frames inside a driver that takes frames
    ("taken twice", "", [FRAME, *DONE, LOADED, "the handler cuts in", "read ICR 0x80", LOADED, "the handler returns"]),
    (None, "", [FRAME, *DONE, LOADED, REFILL, "write RDT 0x0", "the handler cuts in", "read ICR 0x80",
                "read rx[1]+8, 8 bytes: 0000000000000000", "the handler returns"]),
    ("mpc", "A miss is lost in a reset", ["arrive: missed", "write CTRL 0x4000000"]),
    (None, "", ["arrive: missed", "read MPC 0x1", "write CTRL 0x4000000"]),
    ("ics", "The handler wakes itself", ["write ICS 0x80"]),
    (None, "", ["write ICS 0x4"]),
    ("tdt store", "A frame is taken before it is stored", ["write TDT 0x1", SENT]),
    (None, "", [SENT, "write TDT 0x1"]),
    ("tdt", "A frame is taken before it is stored", ["write TDT 0x1", "txtake: fault"]),
    ("fault", "", [SENT, "write TDT 0x1", "txtake: fault"]),
    (None, "", [SENT, "write TDT 0x1", "txtake: took", "txput: put", "read tx[0]+12, 1 bytes: 01"]),
    ("tdh", "The head has passed a frame that isn't sent", [SENT, "write TDT 0x1", "txtake: took", "read TDH 0x1"]),
    (None, "", [SENT, "write TDT 0x1", "txtake: took", "txput: put", "read TDH 0x1"]),
    ("freed", "The head has passed a frame that isn't sent", [SENT, "write TDT 0x1", "txtake: took", SENT]),
    ("erased", "A frame is taken before it is stored", [SENT, "write TDT 0x1", "txtake: took", "txput: put", SENT]),
    (None, "", [SENT, "write TDT 0x1", "txtake: took", "txput: put", "read tx[0]+12, 1 bytes: 01", SENT]),
    ("cuts", "The handler cuts in on a send", [SENT, SENT]),
    (None, "", [SENT, SENT.replace("tx[0]", "tx[1]")]),
    ("masked", "", ["write IMC 0x80", FRAME, *DONE]),
    (None, "", ["write IMC 0x80", FRAME, *DONE, "write IMS 0x80"]),
    (None, "", ["write IMC 0x2", FRAME, *DONE]),
    # a buffer is loaded before DD: the bytes are from before the frame, or from the frame, or no frame comes
    ("look", TWO_LOADS, [BUFFER, FRAME, *DONE, LOADED, REFILL]),
    ("look", TWO_LOADS, [BUFFER, FRAME, *DONE, LOADED]),
    (None, "", [FRAME, *DONE, BUFFER, LOADED, REFILL, "write RDT 0x0"]),
    (None, "", [BUFFER, "read rx[0]+8, 8 bytes: 0000000000000000"]),
    (None, "", [BUFFER, FRAME, *DONE, LOADED, BUFFER, REFILL]),
    # a buffer is offered again before the frame in it is loaded
    ("kept", STILL_READ, [FRAME, *DONE, LOADED, REFILL, *KEEP, BUFFER]),
    ("overwritten", STILL_READ, [FRAME, FRAME, *DONE, LOADED, *KEEP, *[FRAME] * 6, *DONE * 7, BUFFER]),
    (None, "", [FRAME, *DONE, LOADED, BUFFER, *KEEP]),
    # the first descriptor of a slot is stored after the slot is offered
    ("rdt", BEFORE_STORED, [*LAP, FRAME, *DONE[:1], f"write 0x3010, 16 bytes: {'00080100':0<32}"]),
    ("rdt late", BEFORE_STORED, [*LAP, FRAME, *DONE[:1], f"write 0x3010, 16 bytes: {'00080100':0<32}"]),
    ("rdt late", BEFORE_STORED, [*LAP, FRAME, *DONE, f"write 0x3010, 16 bytes: {'00080100':0<32}"]),
    ("rdt store", BEFORE_STORED, [*LAP, f"write 0x3010, 16 bytes: {'00080100':0<32}"]),
    (None, "", [*LAP, FRAME, *DONE, LOADED.replace("rx[0]", "rx[1]"), f"write 0x3010, 16 bytes: {'00080100':0<32}"]),
    (None, "", [*LAP, FRAME, *DONE]),  # the log shows no store of this descriptor: perhaps it was by a pointer
    # the handler sends inside a send of the driver
    ("cuts frame", CUTS_IN, [SENT_FRAME, *CUTS, SENT_FRAME, SENT, "write TDT 0x1", "the handler returns"]),
    ("cuts", CUTS_IN, [SENT_FRAME, *CUTS, SENT_FRAME, SENT, "write TDT 0x1", "the handler returns", SENT]),
    ("cuts frame", CUTS_IN, [*CUTS, SENT_FRAME, SENT, "write TDT 0x1", "the handler returns", SENT_FRAME]),
    ("cuts", CUTS_IN, [SENT_FRAME, SENT, *CUTS, SENT_FRAME, SENT, "write TDT 0x1", "the handler returns"]),
    ("cuts", CUTS_IN, [*CUTS, SENT_FRAME, SENT, "write TDT 0x1", "the handler returns", "txtake: took", "txput: put",
                       SENT]),
    (None, "", [SENT_FRAME, SENT, "write TDT 0x1", *CUTS, OTHER_FRAME, OTHER, "write TDT 0x2", "the handler returns"]),
    (None, "", [*CUTS, SENT_FRAME, SENT, "write TDT 0x1", "the handler returns", "txtake: took", "txput: put",
                SENT_LOADED, SENT_FRAME, SENT]),
    ("cuts free", CUTS_IN, [SENT, "write TDT 0x1", "txtake: took", "txput: put", SENT_LOADED, *CUTS, SENT_LOADED,
                            "the handler returns"]),
    (None, "", [SENT, "write TDT 0x1", "txtake: took", "txput: put", SENT_LOADED, OTHER, *CUTS, SENT_LOADED,
                "the handler returns"]),
    ("eerd", "A word is read before it is there", ["write EERD 0x1", "read EERD 0x1", "write EERD 0x101"]),
    (None, "", ["write EERD 0x1", "read EERD 0x1", "read EERD 0x20010", "write EERD 0x101"]),
]


def text_of(lines, end="it fails"):
    """The text that the explorer prints for these lines, with places. A line that begins with a star is a deviation."""
    text, number = "", 0
    for line in lines:
        star, line = ("*", line[2:]) if line.startswith("* ") else (" ", line)
        number += 1
        if line.startswith(("read", "write", "settle", "step")):
            text += f"  1.{number:<4} {line}\n"
        else:
            text += f"{star}        {line}\n"
    return f"{text}{end}\n"


def cases(server):
    """Each rule finds the race that its log shows, and nothing in the log of the same shape without it."""
    for number, (kind, section, lines) in enumerate(CASES):
        run = run_of_text(text_of([*SET_UP, *lines]))
        found = [one for one in logic().findings(run) if one["kind"] != QUIET]
        name = f"rules: case {number}, {lines[-1]}"
        if kind:
            server.check(name, [one["section"] for one in found if one["kind"] == kind], [section])
        else:
            server.check(name, found, [])
        for one in found:
            server.check(f"{name}: the step", 0 <= one["step"] < len(run.steps), True)
        told = logic().reasons(run, run._replace(fault=None))
        server.check(f"{name}: only hints if the other run has it", [one for one in told if not one.get("isHint")], [])
        server.check(f"{name}: a run that passes", logic().reasons(run._replace(fault=None)), [])


def quiet(server):
    """A last read of ICR is a reason only if nothing else is, and the adapter has nothing left to do."""
    sent = [SENT, "write TDT 0x1", "txtake: took", "txput: put", "the line is raised"]
    read, status = ["read ICR 0x3", "the line is lowered"], "read tx[0]+12, 1 bytes: 01"
    for lines, wanted in [([*sent, *read, status], [QUIET]), ([*sent, *read, status, "write TDT 0x1"], []),
                          ([*sent, *read, FRAME], []), ([*sent, "read ICR 0x3"], []), (["read ICR 0"], []),
                          ([*sent, *read, SENT.replace("tx[0]", "tx[1]"), "write TDT 0x2"], [])]:
        run = run_of_text(text_of([*SET_UP, *lines]))
        server.check(f"quiet: {lines[-2:]}", [one["kind"] for one in logic().reasons(run)], wanted)


def unknown(server):
    """What a log doesn't show isn't stated: bytes stored by a pointer, causes of the PHY, the length of a frame."""
    lines = [*SET_UP, "write tx[0] by a pointer", FRAME, *DONE, "phy: ticked"]
    for more, causes, count in [([], ("0x80", "LSC MDAC"), 0), (["read ICR 0x84", "read ICR 0"], ("0x0", ""), 0),
                                (["read ICR 0", "read ICR 0x80", "read RDH 0x5", "read rx[0]+12, 1 bytes: 01"],
                                 None, 4)]:
        ended = logic().call("played", run_of_text(text_of([*lines, *more])))
        cells = ended["cells"]
        if causes:
            server.check(f"unknown: {more}: causes", (cells["ICR"], cells["ICR?"]), causes)
        server.check(f"unknown: {more}: what can't be is noted", len(ended["wrong"]), count)
        server.check(f"unknown: {more}: bytes", (cells["tx[0]="][:4], cells["rx[0]="][16:20]), ("..00", "...."))
    server.check("unknown: a run without steps", logic().findings(RunLog("run")), [])


def buffers(server):
    """The buffer in a descriptor isn't the one that the adapter has fetched, if the driver stores it later."""
    late = f"write 0x3010, 16 bytes: {'00080100':0<32}"
    for lines, wanted in [([], "o//?/"), ([late], "o//0x10800/"), ([FRAME, DONE[0]], "p/0/?/?"),
                          ([FRAME, DONE[0], late], "p/0/0x10800/?"), ([FRAME, DONE[0], late, DONE[1]], "f/0/0x10800/?"),
                          ([late, FRAME, *DONE], "f/0/0x10800/"), ([late, FRAME, *DONE, late], "s//0x10800/")]:
        cells = logic().call("played", run_of_text(text_of([*SET_UP, *LAP, *lines])))["cells"]
        server.check(f"buffers: {lines}", cells["rx[1]"], wanted)


def all_cases(server):
    if not logic():
        not_run("the rules of pages", "there is neither Node.js nor Chromium")
        return
    for part in [cases, quiet, unknown, buffers]:
        part(server)
