"""Tests the notes of a page on stores into buffers that the adapter owns, and on looks that were too early. Each rule
has a log in which it finds something, and a log of the same shape in which it must find nothing.
"""

from finder.log import LogError, RunLog, Step, plain_run, runs_in, short_text_of
from harness import not_run, text_of as text_of_file
from page_script import logic
from race_pages_rules import BUFFER, DONE, FRAME, LOADED, REFILL, SENT, SENT_LOADED, SET_UP, text_of
from text_log import run_of_text

TAKEN_BEFORE, STILL_READ = "A frame is taken before it is stored", "A frame is written to a buffer that is still read"
FILL, WIRE = "write 0x20000, 4 bytes: ffffff02", "frame: "
OTHER_SLOT = "write tx[1], 16 bytes: 00000200000000003c00000900000000"  # with the buffer of SENT
TAKE, PUT, OFFER = "txtake: took", "txput: put", "write TDT 0x1"
RECEIVED = "write 0x10000, 4 bytes: 00000000"
# For each case: the kinds that are found, the heading in RACES, and the lines after SET_UP
CASES = [
    # the frame is stored after TDT is written: before the adapter has fetched it, after that, and after it is sent
    (["fill early"], TAKEN_BEFORE, [SENT, OFFER, FILL, TAKE, PUT, SENT_LOADED]),
    (["fill"], TAKEN_BEFORE, [SENT, OFFER, TAKE, FILL, PUT, SENT_LOADED]),
    (["fill"], TAKEN_BEFORE, [SENT, OFFER, TAKE, PUT, FILL, SENT_LOADED]),
    (["fill"], TAKEN_BEFORE, [FILL, SENT, OFFER, TAKE, "write 0x20003, 1 bytes: 03"]),
    ([], "", [FILL, SENT, OFFER, TAKE, PUT, SENT_LOADED]),
    ([], "", [SENT, FILL, OFFER, TAKE, PUT, SENT_LOADED]),
    # the bytes after the frame aren't the adapter's, and a buffer is the driver's again after DD
    ([], "", [FILL, SENT, OFFER, "write 0x2003c, 4 bytes: 00000000", TAKE, PUT, SENT_LOADED]),
    ([], "", [FILL, SENT, OFFER, TAKE, PUT, SENT_LOADED, FILL]),
    # the buffer has the next frame, of another slot: the store of the descriptor comes later, or is before
    ([], "", [FILL, SENT, OFFER, TAKE, PUT, FILL, OTHER_SLOT, "write TDT 0x2"]),
    ([], "", [FILL, SENT, OFFER, TAKE, PUT, OTHER_SLOT, FILL, "write TDT 0x2"]),
    # the driver writes a receive buffer
    (["rx fill early"], STILL_READ, [RECEIVED, FRAME, *DONE, LOADED, REFILL]),
    (["rx fill"], STILL_READ, [FRAME, DONE[0], RECEIVED, DONE[1], LOADED, REFILL]),
    (["rx fill"], STILL_READ, [FRAME, *DONE, RECEIVED, LOADED, REFILL]),
    ([], "", [FRAME, *DONE, LOADED, RECEIVED, REFILL, "write RDT 0x0"]),
    ([], "", [FRAME, *DONE, LOADED, BUFFER, REFILL, RECEIVED, "write RDT 0x0"]),
]


def run_of(lines):
    return run_of_text(text_of([*SET_UP, *lines]))


def cases(server):
    """Each rule finds what its log shows, and nothing in a log of the same shape without it."""
    for number, (kinds, section, lines) in enumerate(CASES):
        found = [one for one in logic().findings(run_of(lines)) if one["kind"] != "quiet"]
        server.check(f"owned: case {number}", [(one["kind"], one["section"]) for one in found],
                     [(kind, section) for kind in kinds])


def first_access(server):
    """The page opens at the first store that is too late. In the run without deviations, it isn't too late."""
    other = run_of([SENT, OFFER, FILL, TAKE, PUT, SENT_LOADED])._replace(fault=None)
    run = run_of([SENT, OFFER, TAKE, FILL, PUT, SENT_LOADED])
    told = logic().reasons(run, other)
    seen = [(one["step"] - len(SET_UP), one["kind"], one.get("isHint")) for one in told]
    server.check("owned: the first access", seen, [(3, "fill", None)])
    server.check("owned: where the adapter has fetched it", [one["step"] - len(SET_UP) for one in told[0]["more"]], [2])


def other_bytes(server):
    """The notes state where the sent frame differs from what was stored, if the log shows both."""
    frame = Step("wire", "frame", size=60, data=b"\xff\xff\xff\x01" + bytes(56))
    for lines, wanted in [([SENT, OFFER, TAKE, FILL, PUT], "byte 3 is 0x1, not 0x2"),
                          ([SENT, OFFER, TAKE, PUT], None), ([SENT, FILL, OFFER, TAKE, PUT], None)]:
        run = run_of(lines)
        run = run._replace(steps=(*run.steps, frame))
        found = [one for one in logic().findings(run) if one["kind"] in ("fill", "sent before")]
        told = [wanted in one["text"] for one in found]
        server.check(f"owned: other bytes: {lines}", told, [True] * 2 if wanted else [])
        shown = logic().call("shownOf", run)["bytes"]
        last = [["on the wire", [255, 255, 255, 1]], ["now at 0x20000", [255, 255, 255, 2]]]
        server.check(f"owned: shown bytes: {lines}", [[name, its[:4]] for name, its in shown[-1]],
                     last if wanted else last[:1])
        copied = [its[:4] for one in shown for name, its in one if name == "copied"]
        server.check(f"owned: copied bytes: {lines}", copied,
                     [[255, 255, 255, 2 if wanted is None and FILL in lines else 1]])


def looks(server):
    """A cause that is cleared: the look that was too early is marked, and the frames that share the bit are named."""
    empty = "read rx[1]+8, 8 bytes: 0000000000000000"
    begin, icr = len(SET_UP), "read ICR 0x80"
    for lines, look, shared in [([FRAME, FRAME, *DONE, LOADED, empty, *DONE, icr], 5, True),
                                ([FRAME, FRAME, *DONE, LOADED, *DONE, icr], None, True),
                                ([FRAME, FRAME, *DONE, icr, LOADED, empty, *DONE, icr], 6, False)]:
        told = [one for one in logic().findings(run_of(lines)) if one["kind"] == "late"]
        server.check(f"looks: {lines}", [one["step"] - begin for one in told], [len(lines) - 1])
        server.check(f"looks: {lines}: the look", [more["step"] - begin for more in told[0]["more"]],
                     [] if look is None else [look])
        server.check(f"looks: {lines}: one bit", "RXT0 is one bit: R0 had set it" in told[0]["rest"], shared)


def cut_in(server):
    """A driver that waits: the look before the handler cuts in is marked, and where the handler cuts in."""
    look, status = "read tx[0]+12, 1 bytes: 00", "read STATUS 0x83"
    sent = [TAKE, PUT, "the line is raised"]
    handler = ["the handler cuts in", "read ICR 0x3", "the line is lowered", SENT_LOADED, "the handler returns"]
    run = run_of([FILL, SENT, OFFER, look, *sent, status, *handler])
    settle = ["settle", *handler]
    other = run_of([FILL, SENT, OFFER, look, status, *sent, *settle])._replace(fault=None)
    count = len(other.steps)
    rounds = [step._replace(place=f"2.{at - count + 5}") if at > count - 6 and step.place else step
              for at, step in enumerate(other.steps)]
    told = logic().reasons(run, other._replace(steps=tuple(rounds)))
    begin = len(SET_UP)
    server.check("cut in: the look", [(one["kind"], one["step"] - begin, one["isHint"]) for one in told],
                 [("quiet", 3, True)])
    server.check("cut in: the steps", sorted(more["step"] - begin for more in told[0]["more"]), [8, 9])
    for text in "inside the driver's call (1.", "after the driver's call (2.", "after stopping, it must check again":
        server.check(f"cut in: {text}", text in told[0]["rest"], True)
    late = logic().reasons(run_of([FILL, SENT, OFFER, status, *sent, *handler]), None)
    server.check("cut in: no look", [(one["kind"], one["step"] - begin) for one in late], [("quiet", 8)])


def lines_seen(server):
    """What the test sees of the interrupt line is compared, too. The line is that of the step that changes it."""
    runs = []
    for lines, answer in ([["the line is raised"], "asserted"], [[], "low"]):
        run = run_of([FRAME, *DONE, *lines])
        line = Step("driver", "request", "1.60", outcome=f"line: {answer}")
        runs.append(run._replace(steps=(*run.steps, line)))
    run, other = runs
    server.check("line: the first difference", logic().call("difference", run, other),
                 {"step": len(run.steps) - 1, "other": len(other.steps) - 1, "isSame": True})
    shown = logic().call("shownOf", run)
    server.check("line: asserted after the step", shown["lines"][-4:], [False, True, True, True])
    server.check("line: the cell", shown["changes"][-3].get("line"), "1")
    server.check("line: a call of the test", shown["texts"][-1], "test: line: asserted")


def short_logs(server):
    """A page has what other keys tell only once, and steps with which both runs begin, too. The log is the same."""
    steps = (Step("driver", "read", "1.1", "ICR", 4, 7), Step("handler", "write", "1.2", "RDT", 4, 7),
             Step("wire", "arrive", size=60, data=bytes(60), outcome="stored"),
             Step("adapter", "rxdone", outcome="done"), Step("driver", "read", "1.3", "EERD", 2, 1),
             Step("driver", "rxdone"), Step("adapter", "hold", outcome="phy"))
    for others in (steps, steps[:3], (), steps[1:], (*steps[:3], steps[5])):
        runs = [RunLog("x y", ("1.1 rx before read ICR",), "it \" fails", steps), RunLog("x y", (), None, others)]
        text = short_text_of(runs)
        server.check(f"short logs: {len(others)}", runs_in(text), runs)
        seen = logic().engine.call("runsIn", [text])
        server.check(f"short logs: {len(others)}: the page", [one["steps"] for one in seen],
                     [[{"size": 4, **plain} if "value" in plain else plain for plain in one["steps"]]
                      for one in map(plain_run, runs)])
    same = '{"format":"nic82540em race log","version":2,"command":"x","schedule":[]}\n'
    for bad in (f'{same}{{"same":1}}\n', f'{same}{{"result":"passes","fault":null}}\n{same}{{"same":1}}\n'):
        told = None
        try:
            runs_in(bad)
        except LogError as error:
            told = str(error)
        server.check(f"short logs: {bad!r} is refused", told, f"line {len(bad.splitlines())}: no run before has so many"
                     " steps")


def rules(server):
    """Each heading that a rule names has a rule, in the words of RACES below this heading."""
    constants, races = logic().call("constants"), text_of_file("docs", "RACES.md")
    server.check("rules: each heading has one", sorted(constants["rules"]), sorted(constants["sections"].values()))
    for heading, rule in constants["rules"].items():
        section = " ".join(races.partition(f"\n## {heading}\n")[2].partition("\n## ")[0].split())
        server.holds(f"rules: {heading}", rule in section, rule)


def all_cases(server):
    if not logic():
        not_run("what pages say of buffers and looks", "there is neither Node.js nor Chromium")
        return
    for part in [cases, first_access, other_bytes, looks, cut_in, lines_seen, short_logs, rules]:
        part(server)
