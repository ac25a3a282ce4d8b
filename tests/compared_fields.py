"""Finds what each function that makes a call twice compares, and what it omits, from the texts of the sources.

A function compares a result or a new state whole if a clause is an equation of both. Else its lines have these lists.

- `compares`: the parts that are on both sides of an equation, or that the arguments of another relation contain. A part
  is the result, or the type of a state, with the names of fields (`.`) and of cases (`:`). For a type parameter, it is
  the name of the variable. Square brackets after a part contain functions, whose values of the part are compared, and
  relations. Nothing else of this part is compared.
- `omits`: the parts that no clause names. A type parameter's state has no known parts.

The relations that the crate defines in `specs/` are replaced by their definitions. Of an implication only what follows
counts. Its conditions, such as `IfOk`, state of which case.
"""

import functools
import re
import textwrap

from clause_texts import bare, cut, end_of, inner_of, words_of
from harness import sources, text_of

RECORD = r"^(?:pub )?record {}\b.*? where\n((?: .*\n|\n)*)"
STRUCT = r"^pub(?:\(crate\))? struct {}\b[^{{;]*\{{\n(.*?)^\}}"
RELATION = r"^pub record (\w+)((?:\s+[({][^(){}]*(?:\([^()]*\)[^(){}]*)*[)}])*)\s+: Type 0\s+where\n((?: .*\n)+)"
MODEL = r"^impl(?:<.*?>)? Model for {}\b.*?ghost Value = \{{\s*(\w+)"
WIDTH = 140
CASES = {"Ok": "Result", "Err": "Result", "Some": "Option", "None": "Option"}
CONDITIONS = {"IfOk": "Ok", "IfErr": "Err", "IfSome": "Some", "OnOk": None}


@functools.lru_cache(None)
def texts(pattern):
    return [text_of(path) for path in sources(pattern)]


@functools.lru_cache(None)
def fields_of(name):
    """The fields of a struct's value in contracts, or of a record: their names and types."""
    for text in texts(r"src/[^/]*\.rt"):
        if found := re.search(MODEL.format(name), text, re.M | re.S):
            name = found[1]
    for text in texts(r"specs/[^/]*\.antt"):
        if found := re.search(RECORD.format(name), text, re.M):
            return re.findall(r"^ +(?:pub )?(\w+) : (.*)$", found[1], re.M)
    for text in texts(r"src/[^/]*\.rt"):
        if found := re.search(STRUCT.format(name), text, re.M | re.S):
            return re.findall(r"^    (?:pub(?:\(crate\))? )?(\w+): (.*),$", found[1], re.M)
    return []


def definitions(crate):
    """The relations of the crate's specs: for each name its equations, each with its parameters and its body."""
    found = {}
    for text in map(text_of, sources(r"specs/[^/]*\.antt", [crate])):
        text = re.sub(r"(?m)^ *--.*\n", "", text).replace("'", "_")
        for name, binders, body in re.findall(RELATION, text, re.M):
            parameters = [word for group in re.findall(r"\(([^():]*) :", binders) for word in group.split()]
            types = re.findall(r"^ +pub «?(\w+)»? : (.*(?:\n {6,}.*)*)", body, re.M)
            found[name] = [(parameters, [(field, re.sub(r"\s+", " ", one)) for field, one in types])]
        for name in re.findall(r"^abbrev pub (\w+) :", text, re.M):
            equations = re.findall(rf"^{name} ([^\n]*?) ?=((?: [^\n]*)?\n(?: +[^\n]*\n)*)", text, re.M)
            found[name] = [(words_of(left), [("", re.sub(r"\s+", " ", right))]) for left, right in equations]
    return found


class Reader:
    """Collects what the clauses of one function compare. `names` maps each variable to its part."""

    def __init__(self, defined, names):
        self.defined, self.whole, self.through, self.names, self.inside = defined, set(), {}, names, []

    def place(self, text, names):
        """The part that a text names by a variable, fields, `.new` or `.now`; None if it isn't only this."""
        found = re.fullmatch(r"(\w+)((?:\.[\w«»]+)*)", bare(text))
        if not found or found[1] not in names or ".old" in found[2]:
            return None
        path = [word for word in found[2].split(".")[1:] if word not in ("new", "now", "items", "0", "1")]
        return names[found[1]] + "".join(f".{word}" for word in path)

    def mentions(self, text, names):
        """The parts that a text names, and the names of functions that it applies."""
        text = re.sub(r"λ (?:\(.*?\)|\w+)\. ", "", text)
        paths = [(word, self.place(word, names)) for word in re.findall(r"\b\w+(?:\.[\w«»]+)*", text)
                 if not re.search(r"\.old\b", word)]
        parts = [place for _, place in paths if place]
        calls = [words for words in map(words_of, map(bare, inner_of(text))) if len(words) > 1]
        begin = {words[0] for words in calls} | {words[1] for words in calls if words[0] in ("map", "option_map")}
        return parts, [word for word, place in paths if not place and word in begin - {*CASES}]

    def compare(self, sides, head, names):
        """Notes what an equation of these sides, or a relation of this name, compares."""
        plain = [self.place(side, names) for side in sides]
        case = next((words_of(side)[0] for side in map(bare, sides) if side and words_of(side)[0] in CASES), None)
        if head is None and any(plain) and (all(plain) or case or len(set(filter(None, plain))) == 1):
            for part in filter(None, plain):
                self.whole.add(f"{part}:{case}" if case and ":" not in part else part)
            return
        nothing = [words_of(bare(side)) for side in sides]
        if head is None and all(words[0] in ("IsNone", "IsOk") for words in nothing if words):
            for part in filter(None, (self.place(words[1], names) for words in nothing)):
                self.whole.add(part + ":None") if nothing[0][0] == "IsNone" else self.note(part, "IsOk")
            return
        for side in sides:
            parts, heads = self.mentions(side, names)
            for part in parts:
                for name in ([head] if head else []) + heads:
                    self.note(part, name)

    def note(self, part, name):
        self.through.setdefault(part, [])
        if name not in self.through[part]:
            self.through[part].append(name)

    def read(self, text, names):
        """Reads a clause or a definition."""
        names = dict(names)
        text = bare(text)
        while found := re.match(r"\(([^():]+) : ([^()]*(?:\([^()]*\)[^()]*)*)\) *(?:→|×)? *", text):
            text = text[found.end():]
        if words_of(text)[0] in CONDITIONS:
            self.condition(text, names)
            return
        *conditions, conclusion = cut(text, "→")
        for condition in conditions:
            self.bind(bare(condition), names)
        if conditions:
            self.read(conclusion, names)
            return
        for sign in ("×", "⊎"):
            if len(pieces := cut(conclusion, sign)) > 1:
                for piece in pieces:
                    self.read(piece, names)
                return
        words = words_of(conclusion)
        for sign in ("≡", "↔"):
            if len(sides := cut(conclusion, sign)) == 2:
                self.compare(sides, None, names)
                return
        if words and words[0] in self.defined and words[0] not in self.inside:
            self.inside.append(words[0])
            self.expand(words, names)
            self.inside.pop()
        elif len(words) > 1 and words[0] != "¬":
            self.compare(words[1:], words[0], names)

    def condition(self, text, names):
        """Reads a clause that holds of one case of a result."""
        head, of, *rest = words_of(text)
        body = bare(" ".join(rest))
        if found := re.match(r"λ (?:\((\w+) : [^)]*\)|(\w+))\. (.*)", body):
            case, part = CONDITIONS[head], self.place(of, names)
            if part:
                names[found[1] or found[2]] = f"{part}:{case}"
            body = found[3]
        self.read(body, names)

    def bind(self, condition, names):
        """Notes which part a variable is, by a condition."""
        if found := re.fullmatch(r"(.*) ≡ (Ok|Err|Some) (\w+|\(.*\))", condition):
            inner = re.fullmatch(r"slice_get (\S+) \w+", found[1])
            part = self.place(inner[1] if inner else found[1], names)
            for name in re.findall(r"\w+", found[3]):
                if part:
                    names.setdefault(name, part if inner else f"{part}:{found[2]}")
        elif found := re.fullmatch(r"IsHost (\S+) \w+ ([\w']+)", condition):
            if part := self.place(found[1], names):
                names[found[2].replace("'", "_")] = f"{part}.hosts"

    def expand(self, words, names):
        """Reads the definition of a relation, with the parts of its arguments in the place of its parameters."""
        for parameters, bodies in self.defined[words[0]]:
            inner = {}
            for parameter, word in zip(parameters, words[1:]):
                case = words_of(bare(parameter))
                parts = [self.place(word, names)] if self.place(word, names) else self.mentions(word, names)[0]
                if parts and parts[0] and case:
                    inner[case[-1]] = parts[0] + (f":{case[0]}" if len(case) > 1 else "")
            for field, body in bodies:
                made = words_of(body)
                if field and made and made[0] in self.defined and len(made) > 1 and made[1] in inner:
                    inner[field] = inner[made[1]]
            for _, body in bodies:
                self.read(body, inner)


def type_of(text):
    """The name of a type, without references, lists and lifetimes, and its arguments."""
    text = re.sub(r"&(?:'\w+ )?(?:mut )?|<'[^<>]*>|\bmut ", "", text.strip())
    found = re.fullmatch(r"\(?(?:Vec|List|Bor)\b[ <(]*(.*?)[>)]*", text)
    if found and found[1]:
        return type_of(found[1])
    return text if text.startswith(("Result<", "Option<")) else text.partition("<")[0]


def cases_of(text):
    """The cases of a result: their names and types."""
    found = re.fullmatch(r"(Result|Option)<(.*)>", text, re.S)
    if not found:
        return []
    inner = cut(found[2].translate({ord("<"): "⟦", ord(">"): "⟧"}), ",")
    names = ["Ok", "Err"] if found[1] == "Result" else ["Some", "None"]
    return list(zip(names, [one.translate({ord("⟦"): "<", ord("⟧"): ">"}) for one in inner] + ["()"]))


def left_of(part, kind, reader):
    """The parts of this part that the clauses omit."""
    if part in reader.whole:
        return []
    named = {*reader.whole, *reader.through}
    if any(name.startswith(part + ":") for name in named) and not cases_of(kind):
        return []
    inner = [(":", *case) for case in cases_of(kind)] + [(".", *field) for field in fields_of(type_of(kind))]
    if inner and any(name.startswith((part + ".", part + ":")) for name in named):
        return [one for mark, name, of in inner for one in left_of(part + mark + name, of, reader)]
    return [] if part in reader.through or any(name.startswith(part + ".") for name in named) else [part]


def parts_of(function, made):
    """The variables of a function's clauses, each with the part that it is, and the type of each part."""
    given = function[function.index("("):]
    given = given[1:end_of(given)].translate({ord("<"): "⟦", ord(">"): "⟧"})
    types = dict(one.translate({ord("⟦"): "<", ord("⟧"): ">"}).split(": ", 1) for one in cut(given, ",") if one)
    kinds, names = {}, {}
    for one, other in zip(made[::2], made[1::2]):
        for name, same in zip(*(([call[1]] if call[1] else []) + call[2] for call in (one, other))):
            if name in types and "&mut " in types[name]:
                kind = type_of(types[name])
                part = kind if re.match(r"[A-Z]\w", kind) else name
                kinds[part] = kind
                names[name] = names[same] = part
    if found := re.search(r"\) -> (.*?)\n(?:    (?:requires|ensures)|\{)", function, re.S):
        pair = re.sub(r"\s+", "", found[1]).replace("&'a", "&")
        kinds["result"] = first_of(pair)
        names["result"] = "result"
    return names, kinds


def first_of(pair):
    """The type of the first result of a pair of results."""
    depth = 0
    for place, sign in enumerate(pair):
        depth += (sign in "(<[") - (sign in ")>]")
        if sign == "," and depth == 1:
            return pair[1:place]
    return pair


def lines_of(crate, function, made, answers):
    """What a function of this crate compares and omits, as lines of the list. `made` lists its calls, and `answers`
    states whether the call has a result.
    """
    names, kinds = parts_of(function, made)
    reader = Reader(definitions(crate), names)
    head = re.sub(r"\s+", " ", function.split("\n{\n")[0].replace("'", "_"))
    for clause in re.split(r"\bensures (?:\w+ )?\{", head)[1:]:
        reader.read(clause.rsplit("}", 1)[0], names)
    left = [part for name, kind in kinds.items() for part in left_of(name, kind, reader)]
    left += ["result"] if answers and "result" not in kinds else []
    through = {part: words for part, words in reader.through.items()
               if not any(part == whole or part.startswith((whole + ".", whole + ":")) for whole in reader.whole)}
    name = f"{crate}: {function[7:].partition('(')[0].partition('<')[0]}"
    if not left and not through:
        return [f"{name}: all"]
    compared = grouped(reader.whole) + [f"{part} [{', '.join(words)}]" for part, words in sorted(through.items())]
    return [name, *wrapped("compares", compared), *wrapped("omits", grouped(left))]


def grouped(parts):
    """The parts, with those of one struct in one pair of brackets."""
    groups = {}
    for part in sorted(parts):
        front, mark, last = re.fullmatch(r"(.*?)([.:]?)(\w+)", part).groups()
        groups.setdefault(front + mark, []).append(last)
    return [front + (names[0] if len(names) == 1 else f"{{{', '.join(names)}}}") for front, names in groups.items()]


def wrapped(word, parts):
    """A line of these parts, in as many lines as it needs."""
    return textwrap.wrap(", ".join(parts), WIDTH, initial_indent=f"  {word} ", subsequent_indent=" " * 4,
                         break_on_hyphens=False) if parts else []
