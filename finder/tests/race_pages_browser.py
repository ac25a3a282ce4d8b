"""Opens pages of runs in headless Chromium, from the disk: keys, mouse, search, links, colors, a phone, and print.

The screenshots are in .build/race_pages. If there is no Chromium (Debian: package chromium), the test prints what it
doesn't test.
"""

import json
import os
import subprocess
import sys

from finder.log import RunLog, Step
from finder.page.from_scenario import STAGES
from finder.page.write import page
from browser import NAMES, Browser, program
from harness import TOP, not_run
from race_pages import QUEUE, STAGED, TXSTOP, logs_of
from race_pages_rules import DONE, FRAME, LAP, text_of
from text_log import run_of_text

FOLDER = os.path.join(TOP, ".build", "race_pages")
NOW = "document.querySelector('.now')"
STEP = "document.querySelector('#state b').textContent"
WIDE, PHONE = (1400, 900), (390, 844)
# The contrast between the colors of the text and the background of each element with text: the least, and where it is
CONTRAST = """(() => {
  const parts = text => text.match(/[\\d.]+/g).map(Number);
  const light = ([r, g, b]) => [r, g, b].map(c => c / 255).map(c => c <= .03928 ? c / 12.92 : ((c + .055) / 1.055) ** 2.4)
    .reduce((sum, c, n) => sum + c * [.2126, .7152, .0722][n], 0);
  const back = element => {
    for (; element; element = element.parentElement) {
      const color = parts(getComputedStyle(element).backgroundColor);
      if (color.length < 4 || color[3] > 0) return color;
    }
    return [255, 255, 255];
  };
  let least = [99, ''];
  for (const element of document.querySelectorAll('header *, nav *, #state *, .steps li.now *, .steps li.dev *, .head *')) {
    const own = [...element.childNodes].some(one => one.nodeType === 3 && one.textContent.trim());
    if (!own || !element.getClientRects().length || element.closest('svg, option')) continue;
    const [a, b] = [light(parts(getComputedStyle(element).color)), light(back(element))].sort((x, y) => y - x);
    const ratio = (a + .05) / (b + .05);
    if (ratio < least[0]) least = [ratio, element.outerHTML.slice(0, 120)];
  }
  return least;
})()"""
# What is cut on a phone: boxes that hide text, rings that aren't on the screen, and texts of rings with fewer than 9
# pixels
CUT = """(() => {
  const box = one => one.getBoundingClientRect(), width = document.documentElement.clientWidth;
  return [...[...document.querySelectorAll('header, .state, header p, .state em')].filter(one =>
      getComputedStyle(one).overflowY !== 'visible' && one.scrollHeight > one.clientHeight + 1
      || box(one).right > width),
    ...[...document.querySelectorAll('.ring svg, .ring text')].filter(one => box(one).left < 0 || box(one).right > width),
    ...[...document.querySelectorAll('.ring text')].filter(one => one.textContent && box(one).height < 9)]
    .map(one => one.outerHTML.slice(0, 80));
})()"""
# The texts of rings that are over other ones
OVER = """(() => {
  const box = one => one.getBoundingClientRect(), texts = [...document.querySelectorAll('.ring text')];
  const meet = (a, b) => a.left < b.right - 1 && b.left < a.right - 1 && a.top < b.bottom - 3 && b.top < a.bottom - 3;
  return texts.filter(one => texts.some(two => one !== two && meet(box(one), box(two)))).map(one => one.textContent);
})()"""
# The elements for input without a name for a screen reader
UNNAMED = """[...document.querySelectorAll('button, input, select, svg')].filter(one => !(one.getAttribute('aria-label')
  || one.closest('label') || one.textContent.trim())).map(one => one.outerHTML.slice(0, 80))"""


def stored(name, text):
    """Stores a page. Returns its address."""
    path = os.path.join(FOLDER, f"{name}.html")
    with open(path, "w", encoding="utf-8") as file:
        file.write(text)
    return f"file://{path}"


def picture(browser, name):
    browser.picture(os.path.join(FOLDER, f"{name}.png"))


def late(server, browser, address, run, other):
    """Keys and mouse lead from step to step, and the state of a step is that of the log."""
    browser.open(address)
    server.check("late: no trouble", browser.troubles(), [])
    icr = next(at for at, step in enumerate(run.steps) if step.place == "4.6")
    server.check("late: it begins where it goes wrong", browser.value(STEP), f"Step {icr}")
    server.check("late: rows", browser.value("document.querySelectorAll('#steps > li[id]').length"),
                 len(run.steps))
    why = browser.value("document.querySelector('header .why').textContent")
    server.check("late: the reason", [text in why for text in ("RXT0 of frame R1", "while the handler runs")],
                 [True, True])
    server.check("late: the numbers of rows", browser.value(f"{NOW}.step"), icr)
    ring = browser.value("document.querySelector('svg').getAttribute('aria-label')")
    server.check("late: the ring", ("rx[1]: finished, R1." in ring, "rx[2]: offered, RDH." in ring), (True, True))
    server.check("late: the descriptor",
                 browser.value("[...document.querySelectorAll('#state h2')].map(one => one.textContent)"),
                 ["Registers", "Packet buffers", "Descriptor rx[1], finished"])
    owners = browser.value("[...document.querySelectorAll('#buffers tr')].map(one => one.textContent)")
    server.check("late: buffers", [text in owners for text in ("0x10100the driver: rx[1], finished, R1",
                                                             "0x10200the adapter: rx[2], offered")], [True, True])
    server.check("late: what changed", browser.value("document.querySelector('tr.changed').textContent"), "ICR0x0")
    picture(browser, "late")
    for key, text, wanted in [("ArrowLeft", "", icr - 1), ("ArrowUp", "", icr - 2), (" ", " ", icr - 1),
                              ("ArrowDown", "", icr), ("PageUp", "", icr - 10), ("Home", "", 0),
                              ("End", "", len(run.steps) - 1), ("w", "w", icr), ("d", "d", icr - 1),
                              ("ArrowRight", "", icr)]:
        browser.press(key, text)
        server.check(f"late: key {key!r}", (browser.value(STEP), browser.value("location.hash")),
                     (f"Step {wanted}", f"#{wanted}"))
    browser.click("#back")
    server.check("late: the button back", browser.value(STEP), f"Step {icr - 1}")
    browser.value(f"document.getElementById('{icr - 3}').scrollIntoView()")
    browser.click(f"[id='{icr - 3}'] b")
    server.check("late: a click on a row", browser.value(STEP), f"Step {icr - 3}")
    browser.value("location.hash = '#57'")
    browser.value("new Promise(done => setTimeout(done, 50))")
    server.check("late: the link #57", browser.value(STEP), "Step 57")
    browser.open(f"{address}#60")
    server.check("late: opened with #60", browser.value(STEP), "Step 60")


def finds(server, browser, address, run):
    """The search finds steps, and the list of frames leads to each step at which a frame moves."""
    browser.open(address)
    browser.press("/", "/")
    server.check("search: the key leads to the box", browser.value("document.activeElement.id"), "search")
    browser.call("Input.insertText", text="read rx[0]+8")
    hits = [at for at, step in enumerate(run.steps) if step.action == "read" and step.name == "rx[0]+8"]
    server.check("search: found", (browser.value("document.querySelectorAll('.hit').length"),
                                   browser.value("document.getElementById('count').textContent")),
                 (len(hits), f"{len(hits)} found"))
    browser.press("c", "c")
    server.check("search: a key of the page is a letter here", (browser.value("document.body.className"), browser.value(
        "document.getElementById('search').value")), ("", "read rx[0]+8c"))
    browser.press("Backspace")
    browser.value("find('read rx[0]+8'); document.getElementById('search').value = 'read rx[0]+8'")
    now = int(browser.value(STEP).split()[1])
    browser.press("ArrowDown")
    server.check("search: arrows step in the box, too", browser.value(STEP), f"Step {now + 1}")
    browser.press("Home")
    browser.value("show(0)")
    browser.press("Enter", "\r")
    server.check("search: the first", browser.value(STEP), f"Step {hits[0]}")
    for key, text, wanted in [("ArrowDown", "", hits[0] + 1), ("ArrowRight", "", hits[0] + 2),
                              ("ArrowUp", "", hits[0] + 1), ("n", "n", hits[0]), ("N", "N", hits[0])]:
        browser.press(key, text)
        server.check(f"search: after Enter, the key {key} is one of the page", browser.value(STEP), f"Step {wanted}")
    browser.press("/", "/")
    browser.press("Escape")
    browser.press("ArrowRight")
    server.check("search: after Escape, too", browser.value(STEP), f"Step {hits[0] + 1}")
    browser.value("document.getElementById('number').focus(); document.getElementById('number').value = 5;"
                  "document.getElementById('number').dispatchEvent(new Event('change'))")
    browser.press("ArrowRight")
    server.check("number: arrows step after it", browser.value(STEP), "Step 6")
    browser.value("const list = document.getElementById('frame'); list.value = 'frame R1';"
                  "list.dispatchEvent(new Event('change'))")
    steps = browser.value("[...document.querySelectorAll('#trail a')].map(one => +one.textContent.slice(1))")
    wanted = [at for at, step in enumerate(run.steps) if step.action in ("arrive", "rxdata", "rxdone")][3:6]
    server.check("frame 1: where it was", steps, wanted)
    server.check("frame 1: its arrival is shown", browser.value(STEP), f"Step {wanted[0]}")
    browser.press("ArrowRight")
    server.check("frame 1: arrows step after it", browser.value(STEP), f"Step {wanted[0] + 1}")
    server.check("frames: all are in the list", browser.value("document.querySelectorAll('#frame option').length - 1"),
                 sum(step.action == "arrive" for step in run.steps))


def compares(server, browser, address, run, other):
    """The run without deviations is in the same rows, and has its own states."""
    browser.open(address)
    browser.press("c", "c")
    server.check("compare: it is on", browser.value("document.getElementById('compare').getAttribute('aria-pressed')"),
                 "true")
    texts = browser.value("rows.filter(row => row.second !== undefined).map(row => textOf('other', row))")
    server.check("compare: the rows of the other run", len(texts), len(other.steps))
    differs = browser.value("rows.filter(row => row.step !== undefined && row.second !== undefined "
                            "&& own(row).textContent !== row.querySelector('s').textContent).map(row => row.step)")
    first = browser.value("document.querySelector('li.differs').step")
    server.check("compare: rows differ only from the first difference on", [at for at in differs if at < first], [])
    picture(browser, "txstop-compare")
    browser.press("End")
    owners = browser.value("[...document.querySelectorAll('#buffers tr')].map(one => one.textContent)")
    sent = "0x20000the driver: tx[0], finished, and the driver has loaded DD, T0"
    server.check("compare: buffers of sent frames", (sent in owners, len(owners)), (True, 8 + 3))
    browser.press("Home")
    browser.press("o", "o")
    server.check("compare: the other run's step", browser.value(STEP), "Step 0 (without deviations)")
    browser.press("End")
    server.check("compare: its last step", (browser.value(STEP), browser.value("location.hash")),
                 (f"Step {len(other.steps) - 1} (without deviations)", f"#other{len(other.steps) - 1}"))
    ring = browser.value("document.querySelectorAll('svg')[1].getAttribute('aria-label')")
    server.check("compare: its ring", "in progress" in ring, False)
    browser.press("c", "c")
    server.check("compare: it is off", (browser.value("document.body.className"), "without" in browser.value(STEP)),
                 ("", False))
    server.check("compare: no trouble", browser.troubles(), [])


def looks(server, browser, address, name):
    """Light and dark, on a phone, and printed: texts have enough contrast, and nothing is wider than the screen."""
    for scheme in ("light", "dark"):
        for size in (WIDE, PHONE):
            browser.size(*size, is_phone=size == PHONE)
            browser.media(scheme)
            browser.open(address)
            what = f"{name}: {scheme}, {size[0]} pixels"
            ratio, where = browser.value(CONTRAST)
            server.holds(f"{what}: contrast", ratio >= 4.5, f"{ratio:.2f} of {where}")
            server.check(f"{what}: not wider", browser.value("document.documentElement.scrollWidth"), size[0])
            rows = browser.value("[...document.querySelectorAll('#steps > li')].filter(one => one.scrollWidth >"
                                 " one.clientWidth + 1).map(one => one.textContent)")
            server.check(f"{what}: each row fits", rows, [])
            shown = browser.value(f"(() => {{ const row = {NOW}.getBoundingClientRect(), list = document"
                                  ".querySelector('.list').getBoundingClientRect(); return row.top >= list.top - 1 &&"
                                  " row.top < list.bottom })()")
            server.check(f"{what}: the step is on the screen", shown, True)
            server.check(f"{what}: names for screen readers", browser.value(UNNAMED), [])
            told = browser.value("document.getElementById('told').textContent")
            server.check(f"{what}: the step is told", told.startswith(browser.value(STEP).split(" (")[0]), True)
            if size == PHONE:
                server.check(f"{what}: what is cut", browser.value(CUT), [])
            browser.picture(os.path.join(FOLDER, f"{name}-{scheme}-{size[0]}.png"), size == PHONE)
    browser.size(*WIDE)
    browser.media("light", "print")
    hidden = browser.value("getComputedStyle(document.querySelector('nav')).display")
    tall = browser.value("(list => list.scrollHeight <= list.clientHeight + 1)(document.querySelector('.list'))")
    server.check(f"{name}: printed, all steps and no buttons", (hidden, tall), ("none", True))
    browser.media()


def hostile(server, browser):
    """A text of a run is never a part of the page."""
    bad = "</script><img src=x onerror=window.bad=1>&amp;\"'"
    run = RunLog(bad, (bad,), bad, (Step("driver", "mark", outcome=bad), Step(bad, "read", bad, bad, 4, 1),
                                    Step("adapter", bad, bad, bad)))
    browser.open(stored("hostile", page([run, run._replace(fault=None)])))
    browser.value("compare(true); find('img'); trail('frame R1')")
    server.check("hostile: no trouble", (browser.value("window.bad"), browser.value("document.images.length"),
                                         browser.troubles()), (None, 0, []))
    server.check("hostile: its title", browser.value("document.title"), f"{bad}: {bad}")
    browser.open(stored("empty", page([RunLog("empty")])))
    server.check("a run without steps", (browser.value("document.getElementById('state').textContent"),
                                         browser.troubles()), ("The log has no steps.", []))


def long(server, browser):
    """A part of a long run keeps the numbers of the steps, and the state of the steps before it."""
    accesses = [Step("driver", "write", "0.1", "RDLEN", 4, 0x80), Step("driver", "write", "0.2", "RDT", 4, 7)]
    more = [Step("driver", "read", f"1.{at}", "RDT", 4, 7) for at in range(10_000)]
    browser.open(stored("long", page([RunLog("long", (), "it fails", (*accesses, *more))])))
    server.check("long: the last step", browser.value(STEP), "Step 10001")
    browser.press("Home")
    ring = browser.value("document.querySelector('svg').getAttribute('aria-label')")
    server.check("long: the first step", (browser.value(STEP), "rx[0]: offered, RDH." in ring, browser.troubles()),
                 ("Step 6002", True, []))


def large(server, browser):
    """Of a large ring, the slots near the head are drawn."""
    steps = [Step("driver", "write", "0.1", "RDLEN", 4, 65536), Step("driver", "write", "0.2", "RDH", 4, 4090),
             Step("driver", "write", "0.3", "RDT", 4, 5)]
    browser.open(stored("large", page([RunLog("large", steps=tuple(steps))])))
    ring = browser.value("document.querySelector('svg').getAttribute('aria-label')")
    server.check("large: the ring", [text in ring for text in ("4096 slots", "rx[4090]: offered, RDH.",
                                                              "rx[4]: offered.", "rx[5]: the driver's, RDT.")],
                 [True] * 4)
    for size in (16, 32, 128):
        steps = [Step("driver", "write", "0.1", "RDLEN", 4, 16 * size),
                 Step("driver", "write", "0.2", "RDT", 4, size - 1),
                 *[Step("wire", "arrive", "0.3", "", 60, outcome="stored"), Step("adapter", "rxdata", outcome="moved"),
                   Step("adapter", "rxdone", outcome="done")] * 3]
        browser.open(stored(f"ring-{size}", page([RunLog("ring", steps=tuple(steps))])))
        labels = browser.value("[...document.querySelectorAll('.ring text')].map(one => one.textContent)")
        numbers = [int(label) for label in labels if label.isdigit()]
        server.check(f"ring of {size}: labels",
                     (browser.value(OVER), len(numbers) >= 6, "RDH" in labels, "RDT" in labels), ([], True, True, True))
        ranges = browser.value("document.querySelector('.ranges').textContent")
        server.check(f"ring of {size}: its slots", ranges, "rx: 0 finished, R0; 1 finished, R1; 2 finished, "
                     f"R2; 3 to {size - 2} offered; {size - 1} the driver's")
        picture(browser, f"ring-{size}")
    browser.open(f"file://{os.path.join(FOLDER, 'large.html')}")
    server.check("large: slots", (browser.value("document.querySelectorAll('circle').length"), browser.troubles()),
                 (48, []))


def owners(server, browser):
    """The table of buffers states only what the log shows: here, a descriptor is stored after the adapter has used it.
    """
    late = f"write 0x3010, 16 bytes: {'00080100':0<32}"
    run = run_of_text(text_of([*LAP, FRAME, DONE[0], late, DONE[1]]))
    browser.open(stored("owners", page([run])))
    read = "[...document.querySelectorAll('#buffers tr')].map(one => one.textContent)"
    adapter, later = "not in the logthe adapter: rx[1], ", "0x10800the driver: in the descriptor of rx[1], but the "
    fetched = f"{later}adapter has fetched what was there before"
    for step, wanted in [(5, [f"{adapter}offered; and the adapter: rx[2], offered"]),
                         (8, [f"{adapter}in progress, R0; and the adapter: rx[2], offered"]),
                         (9, [fetched, f"{adapter}in progress, R0; and the adapter: rx[2], offered"]),
                         (10, [fetched, "not in the logthe driver: rx[1], finished, R0; and the adapter: rx[2], "
                               "offered"])]:
        browser.value(f"show({step})")
        server.check(f"owners: step {step}", browser.value(read), ["0x10000the driver: rx[0], staged", *wanted])


def scenario(server, browser):
    """The page of a scenario shows where the frames of each host are."""
    ran = subprocess.run([server.program, "run", "--events", "-", os.path.join(TOP, "examples", "race.scenario"),
                          server.folder], capture_output=True, check=False)
    made = subprocess.run([sys.executable, "-S", "-E", os.path.join(TOP, "tools", "run_chart"), "--html",
                           os.path.join(TOP, "examples", "race.scenario")], input=ran.stdout, capture_output=True,
                          check=False)
    server.check("scenario: the page", (made.returncode, made.stderr), (0, b""))
    browser.size(*WIDE)
    browser.open(stored("scenario", made.stdout.decode()))
    browser.press("End")
    lines = browser.value("[...document.querySelectorAll('#state tr')].map(one => one.textContent)")
    wanted = {"taken by the driver0 1 2", *STAGES}
    server.check("scenario: where the frames are", (set(lines) - wanted, browser.troubles()), (set(), []))
    browser.value("show(20)")
    picture(browser, "scenario")
    steps = browser.value("trail('frame 2') && document.getElementById('trail').textContent")
    server.check("scenario: the way of frame 2", [stage for stage in STAGES if stage in steps],
                 [stage for stage in STAGES if stage != "not stored"])


def all_cases(server):
    path = program()
    if not path:
        not_run("pages of runs in a browser", f"there is no {NAMES[0]}")
        return
    os.makedirs(FOLDER, exist_ok=True)
    run, other = logs_of(server, [*STAGED, "stages", "late"], "4.6 rxdone before read ICR")
    address = stored("late", page([run._replace(command="staged_test.py stages late"), other]))
    queue, right = logs_of(server, [*QUEUE, "txstop"], TXSTOP)
    second = stored("txstop", page([queue._replace(command="queue_test.py txstop"), right]))
    with Browser(path) as browser:
        browser.size(*WIDE)
        browser.media()
        late(server, browser, address, run, other)
        finds(server, browser, address, run)
        compares(server, browser, second, queue, right)
        looks(server, browser, address, "late")
        looks(server, browser, second, "txstop")
        hostile(server, browser)
        long(server, browser)
        large(server, browser)
        owners(server, browser)
        scenario(server, browser)
    left = json.dumps(subprocess.run(["ps", "-o", "stat=", "-p", str(browser.process.pid)], capture_output=True,
                                     text=True, check=False).stdout.strip())
    server.check("the browser has ended", left, '""')
