"""Short logs of tests, in the form of the text that the explorer prints for `--replay FILE --log`."""

import re

from finder.log import ADAPTER, DRIVER, HANDLER, WIRE, RunLog, Step
from finder.names import OF_STEPS, is_register

PLACE = r"  (\d+\.\d+(?:\+\d+)?) +"
ACCESS = re.compile(PLACE + r"(read|write) ([^\s,]+)(?: (0|0x[0-9a-f]+)|, (\d+) bytes: ((?:[0-9a-f]{2})*)(?:\.\.)?|"
                            r" by a pointer(?:, where these bytes are: ((?:[0-9a-f]{2})*))?)")
REQUEST = re.compile(PLACE + r"(.*)")
TAKEN = re.compile(r"([ *])        (\w+): (\w+)")
CHANGE = re.compile(r"([ *])        the (?:line is (raised|lowered)|handler (cuts in|returns|is late))")


def access_in(place, kind, name, value, size, data, loaded, actor):
    if value is not None and is_register(name):
        return Step(actor, kind, place, name, 4, int(value, 0))
    text = data if data is not None else loaded
    return Step(actor, kind, place, name, int(size or 0), None, None if text is None else bytes.fromhex(text))


def steps_in(lines):
    """Yields the steps of some lines."""
    actor = DRIVER
    for line in lines:
        access, request = ACCESS.fullmatch(line), REQUEST.fullmatch(line)
        change, taken = CHANGE.fullmatch(line), TAKEN.fullmatch(line)
        if access:
            yield access_in(*access.groups(), actor)
        elif request:
            yield Step(actor, "request", request[1], outcome=request[2])
        elif change and change[2]:
            yield Step(ADAPTER, "raise" if change[2] == "raised" else "lower")
        elif change:
            yield Step(HANDLER, "mark", outcome=f"the handler {change[3]}", is_deviation=change[1] == "*")
            actor = HANDLER if change[3] == "cuts in" else DRIVER
        else:
            assert taken, line
            yield Step(ADAPTER if taken[2] in OF_STEPS else WIRE, taken[2], outcome=taken[3],
                       is_deviation=taken[1] == "*")


def run_of_text(text):
    """The run in a text. The last line is the fault."""
    *lines, fault = text.splitlines()
    return RunLog("run", (), fault, tuple(steps_in(lines)))
