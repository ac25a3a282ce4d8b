"""Reads the items of a file of Rattle code, with their contracts."""

import bisect
import re

from .definitions import Definition, Module, Scope, read_use
from .texts import angle_end, closing, comment_text, masked, split_top, turn

ITEM = re.compile(r"""(?P<ghost>ghost\s+)?(?P<vis>pub(?:\s*\([^)]*\))?\s+)?
    (?P<unsafe>(?:(?:const|unsafe|extern|default)\s+)*(?=fn\b|impl\b|trait\b))?
    (?P<kw>(?:fn|struct|enum|trait|impl|type|const|static|mod|use)\b|[A-Za-z_]\w*!|[A-Za-z_][\w-]*)""", re.X)
CLAUSE = re.compile(r"\s*(requires|ensures|decreases|terminates)\b\*?\s*(\w+)?\s*\{")
BLANK = re.compile(r"\s+|;|,")
MEMBER = re.compile(r"(?:\s|,|#\[[^\]]*\])*(?P<vis>pub(?:\([^)]*\))?\s+)?(?:ghost\s+)?(?P<name>[A-Za-z_]\w*)")


def bounds(text: str) -> dict[str, str]:
    """The first trait of each bound of type parameters, by the parameters' names."""
    return dict(re.findall(r"\b([A-Z]\w*)\s*:\s*([A-Z]\w*)", text))


def bare_uses(text: str, prefix: tuple = ()):
    """Yields (name in scope, path) for each name of the text of a Rust `use`."""
    text = text.strip()
    found = re.fullmatch(r"(?:(.*?)::)?\{(.*)\}", text, re.S)
    if found:
        base = prefix + tuple(found.group(1).split("::") if found.group(1) else ())
        for part in split_top(found.group(2), angles=False):
            if part.strip():
                yield from bare_uses(part, base)
        return
    path, _, alias = text.partition(" as ")
    path = list(prefix) + path.strip().split("::")
    if path[-1] == "self":
        path = path[:-1]
    yield alias.strip() or path[-1], path


def member_text(text: str) -> str:
    """The text of a field or a variant: in one line if it is short, else without the lines' common indent."""
    lines = text.rstrip().split("\n")
    short = "//" not in text and sum(len(line.strip()) + 1 for line in lines) < 90
    if len(lines) == 1 or short:
        return re.sub(r", ?([})])", lambda found: " }" if found.group(1) == "}" else ")",
                      " ".join(text.split()).replace("( ", "("))
    last = len(lines[-1]) - len(lines[-1].lstrip())
    return "\n".join([lines[0]] + [line[last:] if not line[:last].strip() else line for line in lines[1:]])


def impl_target(header: str) -> tuple[str, str, bool]:
    """The type of an impl, its type parameters, and whether it is the impl of a trait."""
    bare, generics = re.sub(r"^(unsafe )?impl\s*", "", header), ""
    if bare.startswith("<"):
        end = angle_end(bare)
        generics, bare = bare[1:end], bare[end + 1:].strip()
    of, _, target = re.split(r"\bwhere\b", bare)[0].strip().rpartition(" for ")
    name = re.match(r"&?(?:mut )?(?:'\w+ )?([\w:]+)", target)
    return (name.group(1).split("::")[-1] if name else target), generics, bool(of)


class RustReader:
    """Reads one file into its module. The methods for kinds of items return the place after the item."""

    def __init__(self, module: Module):
        self.module, self.text = module, module.text
        self.clear, self.lines = masked(module.text), module.text.split("\n")
        self.starts = [0]
        for line in self.lines:
            self.starts.append(self.starts[-1] + len(line) + 1)

    def line_of(self, at: int) -> int:
        """The number of the line of a place."""
        return bisect.bisect_right(self.starts, at)

    def docs_above(self, number: int) -> str:
        """The doc comment above a line. Attributes and plain comments may be between them."""
        found = []
        for line in (line.strip() for line in reversed(self.lines[:number - 1])):
            between = line.startswith(("#[", "#![", "//")) or line.endswith(")]")
            if line.startswith("///"):
                found.append(line)
            elif found or not between:
                break
        return comment_text(found[::-1])

    def end_of(self, at: int, stop: int, sign: str = ";") -> int:
        """The place after the first `;` outside of brackets, or `stop` if there is none. If `sign` is `{`, the place of
        the first `{` outside of `()` and `[]`, or the place before `stop`.
        """
        depth = 0
        for place in range(at, stop):
            here = self.clear[place]
            if here == sign and depth == 0:
                return place + (sign == ";")
            depth += turn(here) if sign == ";" else turn(here, "([", ")]")
        return stop - (sign != ";")

    def read(self):
        """Reads the whole file."""
        inner = [line for line in self.lines if line.startswith("//!")]
        first = [line for line in self.lines[:1] if line.startswith("//")]
        self.module.head = comment_text(inner) or comment_text(first)
        self.items(0, len(self.text), self.module.scope, None, None)

    def items(self, at: int, stop: int, scope: Scope, owner, impl_of):
        """Reads the items between two places."""
        readers = {"use": self.use, "mod": self.mod, "impl": self.impl, "fn": self.function, "struct": self.item_type,
                   "enum": self.item_type, "trait": self.item_type, "const": self.constant, "static": self.constant,
                   "type": self.constant}
        while at < stop:
            blank = BLANK.match(self.clear, at)
            if blank:
                at = blank.end()
            elif self.clear[at] == "#":
                at = closing(self.clear, self.clear.index("[", at))
            else:
                found = ITEM.match(self.clear, at)
                if not found:
                    at += 1
                    continue
                word = found.group("kw")
                read = self.ghost if found.group("ghost") else self.macro if word.endswith("!") else readers.get(word)
                at = max(read(found, stop, scope, owner, impl_of), found.end()) if read else found.end()

    def new(self, kind: str, name: str, found, owner=None, impl_of=None, **more) -> Definition:
        """Makes a definition at the place of an item."""
        line = self.line_of(found.start())
        of_trait = owner is not None and owner.kind == "trait" or bool(impl_of)
        return Definition(kind, name, self.module, line, comment=self.docs_above(line), owner=owner, impl_of=impl_of,
                          public=of_trait or (found.group("vis") or "").strip() == "pub", **more)

    def name_after(self, found) -> str:
        """The name after an item's keyword."""
        name = re.compile(r"\s*(\w+)").match(self.clear, found.end())
        return name.group(1) if name else ""

    def place(self, new: Definition):
        """Adds a definition to its module and its type."""
        self.module.add(new)
        if new.owner is None:
            self.module.defs.setdefault(new.name, new)
        elif new.owner.kind != "outer":
            if new.impl_of is None:
                new.owner.members[new.name] = new
            else:
                new.owner.members.setdefault(new.name, new)

    def ghost(self, found, stop, scope, owner, impl_of) -> int:
        """Reads a ghost import or a ghost member."""
        end = self.end_of(found.end(), stop)
        body, word = self.text[found.end():end], found.group("kw")
        if word == "use":
            read_use(scope, body)
            return end
        new = self.new("ghost", word, found, owner, impl_of, scope=scope, end=self.line_of(end - 1),
                       text=self.text[found.start():end].rstrip())
        scope.ghosts[word] = new
        self.module.add(new)
        if owner is not None and owner.kind == "trait":
            owner.members.setdefault(word, new)
        elif owner is not None and word == "Value":
            value = re.search(r"\{\s*(.*?)\s*\}", body, re.S)
            owner.value = (value.group(1) if value else None, scope)
        return end

    def use(self, found, stop, scope, owner, impl_of) -> int:
        """Reads an import of code."""
        end = self.clear.index(";", found.end()) + 1
        for name, path in bare_uses(" ".join(self.text[found.end():end - 1].split())):
            self.module.rust_uses[name] = path
            if found.group("vis"):
                self.module.exports.append(path)
        return end

    def mod(self, found, stop, scope, owner, impl_of) -> int:
        """Skips `mod name;` or the beginning of a module."""
        return re.compile(r"[^;{]*[;{]").match(self.clear, found.end()).end()

    def macro(self, found, stop, scope, owner, impl_of) -> int:
        """Reads the items of a `bitflag_items!`, and skips other macros."""
        opening = re.compile(r"[^{(\[]*").match(self.clear, found.end()).end()
        end = closing(self.clear, opening)
        if found.group("kw") == "bitflag_items!":
            self.items(opening + 1, end - 1, scope, None, None)
        return end

    def impl(self, found, stop, scope, owner, impl_of) -> int:
        """Reads the items of an impl."""
        opening = self.end_of(found.end(), stop, "{")
        header = " ".join(self.text[found.start():opening].split())
        end = closing(self.clear, opening)
        name, generics, of_trait = impl_target(header)
        inner = Scope(self.module, scope)
        inner.self_type, inner.generics = name, bounds(generics + " " + header)
        kin = self.module.defs.get(name) or Definition("outer", name, self.module, self.line_of(found.start()))
        self.items(opening + 1, end - 1, inner, kin, header if of_trait else None)
        return end

    def signature_end(self, at: int, stop: int) -> int:
        """The place at which the signature of a function ends: its first clause, its body, or `;`."""
        depth = 0
        for place in range(at, stop):
            sign = self.clear[place]
            clause = re.match(r"\b(requires|ensures)\b", self.clear[place:place + 9])
            if depth == 0 and (sign in "{;" or clause and not re.match(r"\w", self.clear[place - 1])):
                return place
            depth += turn(sign)
        return stop

    def function(self, found, stop, scope, owner, impl_of) -> int:
        """Reads a function: its signature and its clauses."""
        place = self.signature_end(found.end(), stop)
        # The comment above the first clause isn't part of the signature.
        comment = re.search(r"(?:^[ \t]*//.*\n)*[ \t]*\Z", self.text[found.start():place], re.M)
        place = found.start() + comment.start()
        signature = self.text[found.start():place]
        new = self.new("fn", self.name_after(found), found, owner, impl_of, text=signature.strip(),
                       scope=Scope(self.module, scope))
        new.scope.self_type = scope.self_type
        new.generics = {**scope.generics, **bounds(signature)}
        while True:
            clause = CLAUSE.match(self.clear, place)
            if not clause:
                break
            end = closing(self.clear, clause.end() - 1)
            above = re.findall(r"^\s*// ?(.*)$", self.text[place:clause.start(1)], re.M)
            if above:
                new.headings[len(new.clauses)] = " ".join(above)
            new.clauses.append((clause.group(1), clause.group(2) or "", self.text[clause.end():end - 1].strip(),
                                self.line_of(clause.end() - 1)))
            place = end
        tail = re.compile(r"\s*([{;])").match(self.clear, place)
        end = place
        if tail:
            end = closing(self.clear, tail.end() - 1) if tail.group(1) == "{" else tail.end()
        new.end = self.line_of(end - 1)
        self.place(new)
        return end

    def item_type(self, found, stop, scope, owner, impl_of) -> int:
        """Reads a struct, an enum or a trait."""
        begin = re.compile(r"[^;{(]*").match(self.clear, found.end()).end()
        kind, end = found.group("kw"), begin + 1
        new = self.new(kind, self.name_after(found), found, scope=scope, text=self.text[found.start():begin].strip())
        if self.clear[begin] != ";":
            end = closing(self.clear, begin)
        if self.clear[begin] == "(":
            end = self.clear.index(";", end) + 1
            new.text = self.text[found.start():end]
        self.module.defs[new.name] = new
        self.module.add(new)
        if kind == "trait":
            new.scope = Scope(self.module, scope)
            new.scope.self_type, new.scope.generics = new.name, bounds(new.text)
            self.items(begin + 1, end - 1, new.scope, new, None)
        elif self.clear[begin] == "{":
            self.members(new, begin + 1, end - 1)
        new.end = self.line_of(end - 1)
        return end

    def members(self, new: Definition, at: int, stop: int):
        """Reads the fields of a struct or the variants of an enum."""
        while at < stop:
            found = MEMBER.match(self.clear, at)
            if not found or found.end() > stop:
                break
            begin = found.start("vis") if found.group("vis") else found.start("name")
            depth, place = 0, found.end()
            while place < stop and not (self.clear[place] == "," and depth == 0):
                sign = self.clear[place]
                arrow = sign == ">" and self.clear[place - 1] in "-="
                depth += turn(sign, "([{<", ")]}>") if not arrow else 0
                place += 1
            line, variant = self.line_of(found.start("name")), new.kind == "enum"
            new.members[found.group("name")] = Definition(
                "variant" if variant else "field", found.group("name"), self.module, line, owner=new, scope=new.scope,
                text=member_text(self.text[begin:place]), comment=self.docs_above(line),
                public=variant or (found.group("vis") or "").strip() == "pub")
            at = place + 1

    def constant(self, found, stop, scope, owner, impl_of) -> int:
        """Reads a constant, a static or a type alias."""
        end, name = self.end_of(found.end(), stop), self.name_after(found)
        if name:
            kind = "type" if found.group("kw") == "type" else "const"
            self.place(self.new(kind, name, found, owner, impl_of, scope=scope, end=self.line_of(end - 1),
                                text=self.text[found.start():end].strip()))
        return end


def read_rust(module: Module):
    """Fills a module from the text of a file of code."""
    RustReader(module).read()
