"""Links the names in definitions of specs, in contracts and in signatures."""

import re

from .linker import Context, Linker, is_constructor
from .texts import all_binders, angle_end, atoms, closing, masked, split_arguments, split_top

RUST_WORD = re.compile(r"//[^\n]*|(?:[A-Za-z_]\w*::)*[A-Z]\w*"
                       r"|\b(?:pub|fn|mut|const|struct|enum|trait|impl|for|where|unsafe|extern|type|dyn|ref|as"
                       r"|crate)\b")
RESULT_BINDERS = ((r"\b(?:IfOk|IfSome)\s+result\s+\(λ\s+(\S+?)\.", 0), (r"\bIfErr\s+result\s+\(λ\s+(\S+?)\.", 1))
LOCAL = r"[a-zα-ω_«]"


class ContractLinker(Linker):
    """Links whole definitions."""

    # Words of specs

    def definition(self, definition):
        """The tokens of the head of a word of specs, and its rows. A row of a record or of data is (member, tokens). A
        row of another word is (line, comment, tokens).
        """
        if definition.kind in ("record", "data"):
            return self.type_definition(definition)
        scope = definition.module.scope
        head = self.link(definition.head, Context(scope, definition, self.types_of(definition.head, scope)))
        arguments = split_arguments(definition.head.partition(" : ")[2])
        flat = [kind for names, kind in arguments for _ in names]
        rows = []
        for line, comment, text in definition.parts:
            types = {}
            left, sign, _ = text.partition(" =")
            if sign and not text.lstrip().startswith("unfolding"):
                for at, pattern in enumerate(atoms(left)[1:]):
                    self.pattern(pattern, flat[at] if at < len(flat) else "", scope, types)
            rows.append((line, comment, self.link(text, Context(scope, definition, types))))
        return head, rows

    def type_definition(self, definition):
        """The tokens of the head of a record or of data; and its fields or cases, each as (member, tokens)."""
        scope = definition.module.scope
        types = self.types_of(definition.head, scope)
        head = self.link(definition.head, Context(scope, definition, types))
        own, rows = {}, []
        for member in definition.members.values():
            if member.kind == "case":
                tokens = self.link(member.text, Context(scope, definition, {**types, member.name: None}))
            else:
                # In its own type, the name of a field means what it means outside of the record.
                outer = {name: kind for name, kind in types.items() if name not in own}
                rest = member.text.removeprefix("pub ")[len(member.name):]
                kind = self.link(rest, Context(scope, definition, outer, own=dict(own)))
                tokens = [(member.name, member, "name"), *kind]
                own[member.name] = member
            rows.append((member, tokens))
        return head, rows

    def types_of(self, text: str, scope) -> dict:
        """The names that a text binds, each with the definition of its type or None."""
        return {name: self.repository.head_of(kind, scope) if kind else None
                for name, kind in all_binders(text).items()}

    def pattern(self, pattern: str, kind: str, scope, types: dict):
        """Adds to `types` the names that a pattern binds. `kind` is the text of the pattern's type."""
        if not pattern.startswith("("):
            found, known = self.repository.lookup(scope, pattern)
            maker = known and is_constructor(found)
            binds = not known and re.match(r"\w|«", pattern) or not maker and re.match(LOCAL, pattern)
            if binds and not (found is not None and found.kind == "case"):
                types[pattern] = self.repository.head_of(kind, scope) if kind else None
            return
        inner = atoms(pattern[1:-1])
        if len(inner) >= 3 and inner[1] == "∷":
            item = re.match(r"List\s+(.*)", kind.strip())
            item = item.group(1) if item else ""
            self.pattern(inner[0], item.strip("()") if item.startswith("(") else item, scope, types)
            self.pattern(inner[2] if len(inner) == 3 else "(" + " ".join(inner[2:]) + ")", kind, scope, types)
        elif inner:
            self.made_pattern(inner, scope, types)

    def made_pattern(self, inner: list[str], scope, types: dict):
        """Adds to `types` the names that a pattern `(maker a b)` binds. `inner` has the texts `maker`, `a` and `b`."""
        given = self.parts_of(self.repository.dotted(inner[0], scope))
        for at, part in enumerate(inner[1:]):
            if part.startswith("("):
                self.pattern(part, "", scope, types)
            elif re.match(LOCAL, part) and not is_constructor(self.repository.lookup(scope, part)[0]):
                types[part] = given[at] if at < len(given) else None

    def parts_of(self, maker) -> list:
        """The types of the parts of a case or a variant, each as a definition or None."""
        repository = self.repository
        if maker is not None and maker.kind == "case":
            arguments = split_arguments(maker.text.partition(" : ")[2])
            return [repository.head_of(kind, maker.module.scope) for names, kind in arguments for _ in names]
        body = re.search(r"[({](.*)[)}]", maker.text, re.S) if maker is not None and maker.kind == "variant" else None
        kinds = []
        for part in re.split(r",(?![^<(\[]*[>)\]])", body.group(1)) if body else []:
            kind = part.partition(":")[2] if ":" in part and "::" not in part else part
            kinds.append(repository.value_type(repository.rust_type(maker.module, kind.strip())[0]))
        return kinds

    # Contracts

    def function(self, function):
        """The tokens of a signature; and the clauses, each as (keyword, name, line, tokens)."""
        types, returned, inner = self.argument_types(function)
        head = returned.split("<")[0].strip()
        rows = []
        for keyword, name, text, line in function.clauses:
            local = dict(types)
            for binder, at in RESULT_BINDERS:
                found = re.search(binder, text)
                if found and at < len(inner) and head in ("Result", "Option"):
                    kind = self.repository.rust_type(function.module, inner[at].strip(), function.scope.self_type)[0]
                    local[found.group(1)] = self.repository.value_type(kind)
            context = Context(function.scope, function, local, function.generics)
            rows.append((keyword, name, line, self.link(text, context)))
        return self.rust(function.text, function), rows

    def argument_types(self, function):
        """The types that the arguments and `result` of a function have in contracts, by name. Also returns the text of
        the result's type, and the texts of that type's arguments.
        """
        repository, module, self_type = self.repository, function.module, function.scope.self_type
        rest = function.text[re.search(r"\bfn\s+\w+", function.text).end():]
        if rest.startswith("<"):
            rest = rest[angle_end(rest) + 1:]
        stop = closing(rest, rest.index("("))
        types = {}
        for argument in split_top(rest[1:stop - 1]):
            name, sign, kind = argument.strip().partition(":")
            if re.match(r"&?\s*('\w+\s+)?(mut\s+)?self\b", argument.strip()):
                kin = repository.rust_name(module, self_type) if self_type else None
                types["self"] = repository.value_type(kin)
            elif sign:
                kin = repository.rust_type(module, kind.strip(), self_type)[0]
                types[name.replace("mut ", "").strip()] = repository.value_type(kin)
        returned = rest[stop:].partition("->")[2].strip()
        found, generic = repository.rust_type(module, returned, self_type)
        types["result"] = repository.value_type(found)
        return types, returned, split_top(generic)

    def ghost(self, definition):
        """The tokens of a ghost member."""
        generics, types = {}, {}
        for at in definition.scope.chain():
            generics.update(at.generics)
        if definition.impl_of and definition.owner is not None:
            kin = definition.owner if definition.owner.kind != "outer" else None
            types["self"] = kin
            for binder in re.findall(r"λ\s+([^\s(){}.,]+)", definition.text)[:1]:
                types[binder] = kin
        found = re.match(r"ghost\s+[\w-]+\s*(=|:)\s*", definition.text)
        end = found.end() if found else 0
        linked = self.link(definition.text[end:], Context(definition.scope, definition, types, generics))
        return [(definition.text[:end], None, "keyword")] * bool(end) + linked

    def rust(self, text: str, user):
        """The tokens of a Rust text: types, keywords, comments, and the texts between them."""
        out, last = [], 0
        clear = masked(text)
        if "//" in text:
            clear = re.sub(r"//[^\n]*", lambda found: "//" + "." * (len(found.group()) - 2), text)
        for found in RUST_WORD.finditer(clear):
            word = found.group()
            out.append((text[last:found.start()], None, ""))
            last = found.end()
            if word.startswith("//"):
                out.append((text[found.start():last], None, "comment"))
            elif word[0].islower() and "::" not in word:
                out.append((word, None, "keyword"))
            else:
                out.append(self.rust_type_name(word, user))
        return out + [(text[last:], None, "")]

    def rust_type_name(self, word: str, user):
        """The token of the name of a type in code."""
        self_type = user.scope.self_type if user.scope is not None else None
        target = self.repository.rust_name(user.module, self_type if word == "Self" and self_type else word)
        if target is not None and target.kind != "outer":
            return word, self.use(user, target, "Rust type"), "name"
        if word not in user.generics:
            self.repository.counts["Rust type, not of the project"] += 1
        return word, None, "type"
