"""Opens pages in headless Chromium: folded rounds, the end of the test, links, and what explains the page."""

import os

from finder.log import RunLog, Step
from finder.page.write import page
from browser import NAMES, Browser, program
from harness import not_run
from race_pages_browser import FOLDER, PHONE, STEP, WIDE, stored

SETUP = (Step("driver", "write", "0.1", "RDLEN", 4, 0x80), Step("driver", "write", "0.2", "RDT", 4, 7),
         Step("driver", "write", "0.3", "RCTL", 4, 0x8002), Step("driver", "write", "0.4", "IMS", 4, 0x80),
         *[Step("driver", "read", f"0.{at}", "STATUS", 4, 0x83) for at in range(5, 20)])
DATA = bytes(range(0x20, 0x20 + 60))


def arrives(number):
    return [Step("wire", "arrive", f"{number}.0", "", 60, data=DATA, outcome="stored")]


def quiet_round(number):
    """A round without anything wrong: the driver reads STATUS."""
    return [Step("driver", "request", f"{number}.0", outcome="settle"),
            *[Step("driver", "read", f"{number}.{at}", "STATUS", 4, 0x83) for at in range(1, 5)]]


def runs_of(rounds=3):
    """A run in which the read of ICR clears RXT0 of R0, which is finished by a deviation; and one without it."""
    before = [step for number in range(1, rounds) for step in quiet_round(number)]
    look = [Step("driver", "read", f"{rounds}.1", "rx[0]+12", 1, data=b"\0")]
    done = [Step("adapter", "rxdata", outcome="moved", is_deviation=True), Step("adapter", "rxdone", outcome="done",
                                                                                is_deviation=True)]
    icr = [Step("driver", "read", f"{rounds}.2", "ICR", 4, 0x80)]
    steps = [*SETUP, *before, *arrives(rounds), *look, *done, Step("adapter", "raise"), *icr, Step("adapter", "lower")]
    others = [*SETUP, *before, *arrives(rounds), *look, icr[0]._replace(value=0)]
    return [RunLog("a test", (f"{rounds}.2 rx before read ICR",), "R0 is lost", tuple(steps)),
            RunLog("a test", (), None, tuple(others))]


def shown(browser, selector="#steps > li"):
    """The numbers of the steps in visible rows."""
    return browser.value(f"[...document.querySelectorAll('{selector}')].filter(one => one.getClientRects().length)"
                         ".map(one => one.id).filter(Boolean).map(Number)")


def folds(server, browser):
    """Rounds before the first deviation are folded. A click, a key, a link and the search open them."""
    runs = runs_of()
    begin = len(SETUP) + 10  # of round 3
    address = stored("folds", page(runs))
    browser.open(address)
    every = list(range(len(runs[0].steps)))
    server.check("folds: what is shown", shown(browser), every[begin:])
    heads = browser.value("[...document.querySelectorAll('.fold button')].map(one => one.textContent)")
    server.check("folds: their texts", heads, [
        f"round 0, before the test's first arrive, step or settle, {len(SETUP)} steps", "rounds 1 to 2, 10 steps"])
    read = "[...document.querySelectorAll('.fold button')].map(one => one.getAttribute('aria-expanded'))"
    server.check("folds: told to screen readers", browser.value(read), ["false", "false"])
    browser.click(".fold:nth-of-type(1) button")
    server.check("folds: a click opens", (shown(browser), browser.value(read)),
                 (every[:len(SETUP)] + every[begin:], ["true", "false"]))
    browser.click(".fold:nth-of-type(1) button")
    server.check("folds: a click closes", shown(browser), every[begin:])
    browser.value("document.querySelector('.fold button').focus()")
    browser.press("Enter", "\r")
    server.check("folds: the key Enter opens", shown(browser), every[:len(SETUP)] + every[begin:])
    for how, act in [("a link", "location.hash = '#20'"), ("the search", "find('rdlen'); nextHit(1)"),
                     ("a step back", f"show({begin}); keys.ArrowUp()")]:
        browser.open(address)
        browser.value(act)
        browser.value("new Promise(done => setTimeout(done, 50))")
        now = int(browser.value(STEP).split()[1])
        server.check(f"folds: {how} opens", (now < begin, now in shown(browser)), (True, True))
    browser.open(address)
    browser.press("c", "c")
    server.check("folds: compare leaves them closed", shown(browser), every[begin:])
    browser.press("o", "o")
    browser.press("Home")
    server.check("folds: a step of the other run opens, too", 0 in shown(browser), True)
    for name, its in [("round 0", runs_of(1)), ("a run without deviations", [runs[1]._replace(fault="it fails")])]:
        browser.open(stored("unfolded", page(its)))
        count = browser.value("document.querySelectorAll('.folded').length")
        server.check(f"folds: {name}", count, len(SETUP) if name == "round 0" else 0)
    server.check("folds: no trouble", browser.troubles(), [])


def ends(server, browser):
    """The last row shows how the test ends. Its link leads to the step that explains the end, as the head's does."""
    runs = runs_of()
    icr = next(at for at, step in enumerate(runs[0].steps) if step.name == "ICR")
    browser.open(stored("ends", page(runs)))
    last = browser.value("document.querySelector('#steps > li:last-child').textContent")
    server.check("ends: the last row", last, f"The test ends here, and fails: R0 is lost (why: step {icr})")
    server.check("ends: the head", browser.value("document.querySelector('header .fault').textContent"),
                 f"Fails: R0 is lost (why: step {icr})")
    for selector in ("li.end a", "header .fault a"):
        browser.press("Home")
        browser.value(f"document.querySelector('{selector}').scrollIntoView()")
        browser.click(selector)
        browser.value("new Promise(done => setTimeout(done, 50))")
        server.check(f"ends: {selector}", browser.value(STEP), f"Step {icr}")
    browser.click("li.end b")
    server.check("ends: a click on the row", browser.value(STEP), f"Step {len(runs[0].steps) - 1}")
    browser.open(stored("passes", page([runs[1]])))
    server.check("ends: a run that passes", browser.value("document.querySelector('.end').textContent"),
                 "The test ends here, and passes")


def links(server, browser):
    """Each line of the schedule leads to what it does; steps in notes are links; the note names the rule."""
    steps = [*SETUP]
    lines = []
    for number in (1, 2, 3):
        steps += [*arrives(number), Step("driver", "read", f"{number}.1", "STATUS", 4, 0x83),
                  Step("adapter", "rxdata", outcome="moved", is_deviation=True),
                  Step("adapter", "rxdone", outcome="done", is_deviation=True),
                  Step("driver", "read", f"{number}.2", "STATUS", 4, 0x83)]
        lines.append(f"{number}.2 rx before read STATUS")
    steps.append(Step("driver", "read", "3.3", "ICR", 4, 0x80))
    named = ["rx before read STATUS#2", "3.9 hold phy before read ICR"]
    begin = len(SETUP) + 2
    for schedule, wanted in [(lines, [begin, begin + 5, begin + 10]), (named, [])]:
        browser.open(stored("links", page([RunLog("links", tuple(schedule), "it fails", tuple(steps))])))
        found = browser.value("[...document.querySelectorAll('header a:has(code)')].map(one => one.hash)")
        server.check(f"links: {schedule}", found, [f"#{step}" for step in wanted])
    note = browser.value("document.querySelector('header .why').textContent")
    server.check("links: the rule", "Rule: Read ICR first, then take frames until no frame ends in finished slots "
                 "(docs/RACES.md, \u201cA frame is finished while the handler runs\u201d)." in note, True)
    server.check("links: in a note", browser.value("document.querySelectorAll('header .why a').length >= 2"), True)


def explained(server, browser):
    """What explains the page is closed, on the first screen, and has all that the page shows. The ring that has to do
    with the failure is the first one.
    """
    runs = runs_of()
    for size in (WIDE, PHONE):
        browser.size(*size, is_phone=size == PHONE)
        browser.open(stored("explained", page(runs)))
        box = browser.value("(box => [box.top, box.bottom])(document.querySelector('#what summary')"
                            ".getBoundingClientRect())")
        is_open = browser.value("document.querySelector('#what').open")
        server.check(f"explained: {size[0]} pixels", (is_open, 0 < box[0] < box[1] < size[1]), (False, True))
        browser.click("#what summary")
        server.check(f"explained: {size[0]} pixels, open", browser.value("document.querySelector('#what').open"), True)
        wide = browser.value("document.documentElement.scrollWidth")
        server.check(f"explained: {size[0]} pixels, not wider", wide, size[0])
    browser.size(*WIDE)
    terms = browser.value("document.querySelector('#what').textContent")
    for word in ("deviation", "schedule", "place 4.6", "4.5+1", "settle", "staged", "offered", "brown bar", "R2, T2",
                 "yellow", "txtake", "rxdone", "RDH", "TDH", "busy", "of the test"):
        server.check(f"explained: {word}", word in terms, True)
    browser.open(stored("explained", page(runs)))
    heads, columns = (browser.value(f"[...document.querySelectorAll('{cells}')].slice(0, 2)"
                                    ".map(one => Math.round(one.getBoundingClientRect().x))")
                      for cells in (".head > :nth-child(2), .head > :nth-child(3)",
                                    "li:not(.folded, .test):has(.l0) i, li:not(.folded, .test):has(.l0) b"))
    server.check("explained: the heads are over their columns", heads, columns)
    tx = (Step("driver", "write", "0.20", "TDLEN", 4, 0x80), Step("driver", "write", "0.21", "TDT", 4, 1),
          Step("adapter", "txtake", outcome="fault", is_deviation=True))
    rings = "[...document.querySelectorAll('.ring svg')].map(one => one.getAttribute('aria-label').split(' ')[0])"
    for more, wanted in [((), ["Receive"]), (tx, ["Transmit", "Receive"])]:
        browser.open(stored("rings", page([RunLog("rings", (), "it fails", (*SETUP, *more))])))
        server.check(f"explained: rings {wanted}", browser.value(rings), wanted)


def bytes_shown(server, browser):
    """The bytes that a step moves are shown, and those that are different in memory are marked."""
    runs = runs_of()
    browser.open(stored("bytes", page(runs)))
    at = next(at for at, step in enumerate(runs[0].steps) if step.action == "arrive")
    browser.value(f"show({at})")
    told = browser.value("document.querySelector('.moved').textContent")
    server.check("bytes: of a frame that arrives", told, "the frame" + " ".join(f"{byte:02x}" for byte in DATA[:24]))
    sent = (Step("driver", "write", "0.19", "TDBAL", 4, 0x2000), Step("driver", "write", "0.20", "TDLEN", 4, 0x80),
            Step("driver", "write", "0.21", "tx[0]", 16, data=bytes.fromhex("00000200000000003c00000900000000")),
            Step("driver", "write", "0.22", "TDT", 4, 1), Step("adapter", "txtake", outcome="took"),
            Step("driver", "write", "0.23", "0x20000", 60, data=DATA), Step("adapter", "txput", outcome="put"),
            Step("wire", "frame", size=60, data=bytes(60)))
    browser.open(stored("bytes", page([RunLog("bytes", (), "it fails", (*SETUP, *sent))])))
    server.check("bytes: it begins at the store", browser.value(STEP), f"Step {len(SETUP) + 5}")
    browser.press("End")
    rows = browser.value("[...document.querySelectorAll('.moved tr')].map(one => one.querySelectorAll('mark').length)")
    server.check("bytes: on the wire, and in memory", rows, [0, 24])
    browser.picture(os.path.join(FOLDER, "bytes.png"))


def all_cases(server):
    path = program()
    if not path:
        not_run("folds of pages in a browser", f"there is no {NAMES[0]}")
        return
    os.makedirs(FOLDER, exist_ok=True)
    with Browser(path) as browser:
        browser.size(*WIDE)
        browser.media()
        for part in (folds, ends, links, explained, bytes_shown):
            part(server, browser)
