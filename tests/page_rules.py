"""Checks rules that pages may state in at most three places each, and words that neither pages nor comments may have.

A rule is written once, in Rust or in `specs/`; a page links to it or quotes it. A place is a paragraph, an item of a
list or a row of a table, of Markdown that is written by hand. Generated parts, quotes and blocks of code don't count.
"""

import glob
import os
import re

MOST_PLACES = 3
COMMENTS = "crates/*/src/**/*.rt", "crates/*/specs/**/*.antt"
COMMENT = re.compile(r"^\s*(?://[/!]?|--) ?(.*)$", re.M)
SPAN = re.compile(r"`[^`\n]*`")
MADE = re.compile(r"^<!-- (?:generated|words quoted|code quoted) by .*?^<!-- end of [a-z]+ -->$", re.M | re.S)
CODE = re.compile(r"^```.*?^```$", re.M | re.S)

# For each rule, a sentence that states it, and patterns. A place that one of these patterns matches states the rule.
# The words of a place are separated by single spaces.
RULES = {
    "receive buffers have 256 bytes": ("A receive buffer has 256 bytes, so a frame has one to six pieces.", [
        r"buffers?\b[^.|]{0,60}\b256 bytes", r"256 bytes each", r"buffers of 256 bytes",
        r"one to six (?:pieces|slots)"]),
    "a legal frame has 60 to 1,518 bytes": ("A legal frame has 60 to 1,518 bytes.", [
        r"\b60 (?:to|or more than) 1,518", r"fewer than 60 or more than 1,518", r"below 60 or above 1,518"]),
    "E20 and E21: 14 to 1,518 bytes": ("E20 is the answer to a frame of fewer than 14 bytes.", [
        r"\b14 to 1,518", r"fewer than 14 (?:bytes|or)", r"E20\b[^.|]{0,80}\b14\b"]),
    "RingFull: all slots but one are outstanding": ("E22: all slots except one are outstanding.", [
        r"all (?:transmit )?slots (?:but|except) one\b", r"all but one (?:transmit )?slots?\b"]),
    "NotMine: none of four causes": ("A handler handles TXDW, RXDMT0, RXO and RXT0.", [
        r"TXDW[^.|]{0,20}RXDMT0[^.|]{0,20}RXO[^.|]{0,20}RXT0"]),
    "the order of the fates": ("The fate is the first of Off, Illegal, Filtered, Missed and Stored that applies.", [
        r"\b[Oo]ff\b[^|]{0,160}\b[Ii]llegal\b[^|]{0,160}\b[Ff]iltered\b[^|]{0,260}\b[Mm]issed\b"]),
    "the transmit packet buffer has room for 4 frames": ("The transmit packet buffer has room for 4 frames.", [
        r"packet buffer[^.|]{0,40}\b(?:4|four) frames", r"(?:4|four) frames[^.|]{0,40}packet buffer"]),
    "64 frames wait at an end": ("TxPut waits while 64 frames wait at another end.", [r"\b64 frames\b"]),
    "a reset leaves PBA, PHY and EEPROM": ("A reset sets all registers except PBA to their reset values.", [
        r"except PBA", r"all but PBA", r"reset[^.|]{0,80}doesn't change[^.|]{0,40}(?:PBA|PHY)[^.|]{0,40}EEPROM"]),
    "the six steps and what they do": ("| `TxPut` | the oldest frame moves to the wire |", [
        r"^\| `?TxPut`? \|", r"^\| `?txput`? \|"]),
    "the bytes that a frame occupies": ("A frame occupies its length, rounded up to a multiple of 16.", [
        r"rounded up to a multiple of 16"]),
    "RXDMT0 at half the ring": ("RXDMT0 is recorded when half of the ring is left.", [
        r"half (?:of )?the (?:size of the )?ring", r"half of (?:the|its) ring", r"is half\b[^.|]{0,30}descriptors"]),
    "the equations of delivery": ("reached ++ waiting = waiting0 ++ toward", [
        r"put ?`? ?\+\+", r"reached ?`? ?\+\+", r"given[^|.]{0,40} \+\+ "]),
    "the offset of RDT": ("RDT is at 0x2818.", [r"0x0?2818\b", r"0xFEB02818"]),
    "the number of a drain's steps": ("A drain takes at most 4k + 1 steps.", [r"4k \+ 1"]),
    "a host joins at most 32 groups": ("A host is in at most 32 groups.", [
        r"32 groups", r"at most 32\b[^.|]{0,40}groups"]),
    "counts end at 2^64 - 1": ("The count saturates at 2^64 - 1.", [
        r"saturat\w+ at (?:2\^64 - 1|the maximum of `?u64`?)"]),
}


# Words of the list in docs/STYLE, as patterns. In these senses, they are allowed: a number stands for a kind, a host
# leaves a group, a call gives up.
WORDS = {
    "behind": r"behind",
    "tells, says": r"tells|says",
    "stands, stands in, lies in": r"stands?(?! for\b)|lies? in",
    "is had, can't be had": r"(?:is|are|be) had",
    "turned away, taken away": r"(?:turned|taken) away",
    "so many, as many as": r"so many|as many as",
    "mend, anew": r"mends?|anew",
    "dear": r"dear",
    "bears a number": r"bears",
    "goes round": r"go(?:es)? round",
    "comes up, is brought up": r"comes? up|brought up",
    "at rest, in work": r"in work",
    "hands out, hands on, gives": r"hand(?:s|ed)? (?:out|on)|gives(?! up\b)",
    "somebody looks on": r"looks? on",
    "in part": r"in part",
    "leaves, stays": r"(?<!joins and )(?<!joins or )(?<!joins, )leaves"
                     r"(?! open\b| out\b| it\b| (?:a |one |of |two )?(?:multicast )?groups?\b)|stays",
    "for want of": r"for want of",
    "premise": r"premises?",
    "beside, alone": r"beside|alone",
    "outlet, retelling": r"outlets?|retellings?|stret(?:ch|ches)|borders?",
}
# How many words of the list comments may have, for each word; and how many all pages may have.
LEFT_IN_COMMENTS = {}
LEFT_IN_PAGES = 0


def places(text):
    """Yields the paragraphs, items and rows of a page, without what is made from sources, and without code."""
    text = CODE.sub("", MADE.sub("", text))
    for block in re.split(r"\n\s*\n|\n(?=\||\s*[-*] |\s*\d+\. )", text):
        block = " ".join(block.split())
        if block and not re.fullmatch(r"[|\s:-]+", block):
            yield block


def stated(rule, text):
    """The places of a page that state a rule."""
    return [place for place in places(text) if any(re.search(pattern, place) for pattern in RULES[rule][1])]


def check_rules(check, texts):
    """Checks that at most MOST_PLACES places of pages state each rule. `texts` has the pages' texts by their paths;
    `check(name, got, want)` counts one comparison.
    """
    for rule, (sentence, _) in RULES.items():
        found = [f"{page}: {place[:90]}" for page, text in texts.items() for place in stated(rule, text)]
        check(f"at most {MOST_PLACES} places on pages: {rule}", found if len(found) > MOST_PLACES else [], [])
        check(f"a sentence is found: {rule}", stated(rule, f"## Heading\n\n{sentence}\n"), [sentence])


def words_in(text):
    """Yields the words of the list that a text contains outside of backticks, each with its line."""
    for line in SPAN.sub("", text).split("\n"):
        for word, pattern in WORDS.items():
            for _ in re.finditer(rf"\b(?:{pattern})\b", line, re.I):
                yield word, line.strip()


def check_words(check, top, texts):
    """Checks how many words of the list are in pages and in the comments of all crates. `texts` has the pages' texts by
    their paths.
    """
    with open(os.path.join(top, "docs", "STYLE.md"), encoding="utf-8") as file:
        style = file.read()
    listed = [re.sub(r" \([^)]*\)$", "", row) for row in re.findall(r"^\| ([^|]*) \| [^|]* \|$", style, re.M)]
    unlisted = [word for word in WORDS if not any(row.startswith(word) for row in listed)]
    check("words that docs/STYLE doesn't list", unlisted, [])
    left = [f"{page}: {line}" for page, text in texts.items() if page != "docs/STYLE.md"
            for _, line in words_in(CODE.sub("", MADE.sub("", text)))]
    check(f"at most {LEFT_IN_PAGES} words of the list in pages", left if len(left) > LEFT_IN_PAGES else [], [])
    found = {word: [] for word in WORDS}
    for path in sorted(path for pattern in COMMENTS for path in glob.glob(os.path.join(top, pattern), recursive=True)):
        with open(path, encoding="utf-8") as file:
            for word, line in words_in("\n".join(COMMENT.findall(file.read()))):
                found[word].append(f"{os.path.relpath(path, top)}: {line}")
    for word, lines in found.items():
        most = LEFT_IN_COMMENTS.get(word, 0)
        check(f"at most {most} in comments: {word}", lines if len(lines) > most else [], [])
