"""Links the names in texts to their definitions: names by their scope, and fields by the type of their record.

A name whose definition isn't known gets no link.
"""

import re

from .definitions import PARTS_OF_TYPES
from .record_fields import made_fields
from .texts import all_binders, split_arguments, tokens_of

BUILTIN = set("""
→ × λ = : ⊥ ⊤ Type Unit tt absurd elim as let in where record data abbrev pub unfoldable unfolding
use mod open if then else self result search grind omega simp rw cc assumption arith hlevel first_of
¬ ↦ | _ ∧ ∨ ∀ ◌ [ ] refl subst ap Prim ruleset irrelevant view of Self
""".split())
GHOST_STATES = {"old", "new", "now"}
# A token of a linked text: its text, its definition or None, its kind.
Token = tuple


class Context:
    """What is known at the place of a text."""

    def __init__(self, scope, user=None, types=None, generics=None, own=None):
        # `types` has the types of local names, and `generics` the bounds of type parameters. `own` has the fields of
        # the record to which the text belongs.
        self.scope, self.user = scope, user
        self.types, self.generics, self.own = dict(types or {}), generics or {}, own or {}


class Linker:
    """Turns texts of specs into tokens, and counts uses."""

    def __init__(self, repository):
        self.repository = repository

    def use(self, user, found, how: str):
        """Counts a use of a definition, and returns the definition."""
        self.repository.counts["kit" if found.kit else how] += 1
        if user is not None and found is not user and found.owner is not user:
            found.used[user] = found.used.get(user, 0) + 1
        return found

    def lost(self, name: str, how: str, fields: bool = False):
        """Counts a name that isn't linked. `how` is the reason, and `fields` is set for the name of a field."""
        self.repository.counts[how] += 1
        (self.repository.ambiguous if fields else self.repository.missing)[name] += 1

    def link(self, text: str, context: Context) -> list[Token]:
        """The tokens of a text of specs."""
        out, types, scope = [], context.types, context.scope
        for name, kind in all_binders(text).items():
            if name not in types:
                types[name] = self.repository.head_of(kind, scope) if kind else None
        made = made_fields(text, self.repository.fields, scope)
        place, opened, last = 0, [], None
        for kind, word in tokens_of(text):
            at, place = place, place + len(word)
            if kind != "word":
                if word == "(":
                    opened.append(len(out))
                elif word == ")" and opened:
                    last = opened.pop()
                out.append((word, None, kind if kind in ("comment", "string") else ""))
            elif re.match(r"\.[^.\d]", word) and out and out[-1][0] == ")" and last is not None:
                out += self.fields(word[1:].split("."), self.result_type(out[last + 1:], context), context)
            elif at in made:
                out.append(self.made(word, made[at], context))
            else:
                out += self.word(word, context)
        return out

    def made(self, word: str, found, context: Context) -> Token:
        """The token of a field's name in `record { .. }`."""
        if found is None:
            self.lost(word, "field, type not known", True)
        else:
            self.use(context.user, found, "field by type")
        return word, found, "field"

    def fields(self, names: list[str], kind, context: Context) -> list[Token]:
        """The tokens of `.a.b` after a value of a type."""
        out = []
        for name in names:
            out.append((".", None, ""))
            if name in GHOST_STATES:
                out.append((name, None, "state"))
            else:
                token, kind = self.field(kind, name, context)
                out.append(token)
        return out

    def field(self, kind, name: str, context: Context):
        """The token of a field of a type, and the field's type."""
        if name.isdigit():
            return (name, None, "number"), None
        if kind is not None:
            above = list(self.repository.traits_above(kind)) if kind.kind == "trait" else []
            for owner in [kind, *above]:
                found = owner.members.get(name)
                if found is not None:
                    self.use(context.user, found, "field by type")
                    return (name, found, "field"), self.member_type(found)
                if owner.kind == "trait" and name == owner.name:
                    self.use(context.user, owner, "field by type")
                    return (name, owner, "field"), owner
        self.lost(name, "field, type not known", True)
        return (name, None, "field"), None

    def member_type(self, member):
        """The type of a field in contracts."""
        if member.owner is not None and member.owner.module.rust:
            kind = member.text.partition(":")[2].strip() if ":" in member.text else ""
            return self.repository.value_type(self.repository.rust_type(member.module, kind)[0])
        return self.repository.head_of(member.text.partition(" : ")[2], member.module.scope)

    def returned(self, definition):
        """The definition of the type of a word's result, or None."""
        given = split_arguments((definition.head or definition.text).partition(" : ")[2])
        return self.repository.head_of(given[-1][1], definition.module.scope) if given else None

    def ghost_result(self, definition):
        """The definition of the type of a ghost member's result, or None."""
        found = re.search(r"\{\s*(.*?)\s*\}", definition.text, re.S)
        if definition.kind != "ghost" or not found:
            return None
        given = split_arguments(found.group(1))
        return self.repository.head_of(given[-1][1], definition.scope) if given else None

    def result_type(self, tokens: list[Token], context: Context):
        """The type of a text in parentheses: of a local name, of a field, or of what the first name returns. None if it
        isn't known.
        """
        found = None
        for text, definition, kind in tokens:
            if definition is not None and definition.kind not in ("field", "ghost"):
                found = definition
            elif kind == "local" and text in context.types:
                return context.types[text] if len([one for one, _, _ in tokens if one.strip()]) == 2 else None
            elif definition is not None:
                kin = self.member_type(definition) if definition.kind == "field" else None
                return kin or self.ghost_result(definition)
            elif text.strip() and text != "." and kind != "local" or not text.strip() and found is not None:
                break
        return self.returned(found) if found is not None and found.kind in ("abbrev", "word", "case") else None

    # Words

    def word(self, word: str, context: Context) -> list[Token]:
        """The tokens of a word of a text."""
        counts = self.repository.counts
        if re.fullmatch(r"[iu](8|16|32|64|128|size)\.(MAX|MIN)", word):
            counts["builtin"] += 1
            return [(word, None, "builtin")]
        if re.fullmatch(r"-?\d\w*|[.]+|'", word):
            return [(word, None, "number")]
        tail = "." if word.endswith(".") else ""
        word = word[:len(word) - len(tail)]
        if word.startswith(".") and len(word) > 1:
            return [(".", None, ""), self.field(None, word[1:], context)[0]]
        out = self.path(word, context) if "." in word else [self.name(word, context)]
        return out + ([(tail, None, "")] if tail else [])

    def name(self, word: str, context: Context) -> Token:
        """The token of a word without a path."""
        repository, scope = self.repository, context.scope
        if word in context.types or word in context.own:
            repository.counts["local" if word in context.types else "own field"] += 1
            return word, None if word in context.types else context.own[word], "local"
        found, known = repository.lookup(scope, word)
        if found is None and known:
            self.lost(f"import {word}", "imported, not found")
            return word, None, "lost"
        found = found or self.trait_member(scope, word)
        if found is None and scope.module.rust and re.fullmatch(r"[A-Z][A-Z0-9_]+", word):
            constant = repository.rust_name(scope.module, word)
            found = constant if constant is not None and constant.kind != "outer" else None
        if found is not None:
            return word, self.use(context.user, found, "name"), "name"
        if word in BUILTIN or not re.search(r"\w", word):
            repository.counts["builtin"] += 1
            return word, None, "builtin"
        if word in context.generics or len(word) == 1 and word.isupper():
            repository.counts["local"] += 1
            return word, None, "local"
        self.lost(word, "unknown")
        return word, None, "unknown"

    def trait_member(self, scope, word: str):
        """The member with this name of the type or trait around a scope, or of the traits above it; or None."""
        for at in scope.chain():
            kin = self.repository.rust_name(at.module, at.self_type) if at.self_type and at.module.rust else None
            if kin is None:
                continue
            above = list(self.repository.traits_above(kin)) if kin.kind == "trait" else []
            for owner in [kin, *above]:
                if word in owner.members:
                    return owner.members[word]
        return None

    # Paths

    def path(self, word: str, context: Context) -> list[Token]:
        """The tokens of a word with dots: a name with fields, a name in a module, or a Rust item with its members."""
        repository, scope = self.repository, context.scope
        whole = repository.dotted(word, scope) if word.startswith("Rattle.") else None
        if whole is not None:
            return [(word, self.use(context.user, whole, "name"), "name")]
        head, *rest = word.split(".")
        local = self.local_head(head, rest, context)
        if local is not None:
            own, kind = local
            return [(head, own, "local"), *self.fields(rest, kind, context)]
        alias = repository.alias(scope, head)
        if alias is not None:
            return self.in_module(word, alias, context)
        found = repository.lookup(scope, head)[0] or self.trait_member(scope, head)
        if found is None and scope.module.rust:
            item = repository.rust_name(scope.module, head)
            if item is not None and item.kind != "outer":
                return self.item_path(head, rest, item, context)
        if found is None:
            self.lost(head, "unknown")
            return [(head, None, "unknown"), *self.fields(rest, None, context)]
        self.use(context.user, found, "name")
        kind = self.returned(found) if found.kind in ("word", "abbrev") else None
        return [(head, found, "name"), *self.fields(rest, kind, context)]

    def local_head(self, head: str, rest: list[str], context: Context):
        """For the name of a local, of an own field, of a type parameter, or Self: the field or None, and the type. None
        for other names.
        """
        repository, module = self.repository, context.scope.module
        if head in context.types or head in context.own:
            repository.counts["local"] += 1
            if head in context.types:
                return None, context.types[head]
            return context.own[head], self.member_type(context.own[head])
        if head in context.generics:
            return None, repository.rust_name(module, context.generics[head])
        if head != "Self":
            return None
        kind = None
        for at in context.scope.chain():
            if kind is None and at.self_type:
                kind = repository.rust_name(module, at.self_type)
        return None, kind

    def in_module(self, word: str, alias: str, context: Context) -> list[Token]:
        """The tokens of a word with dots that begins with the short name of a module. `alias` is the path of this
        module.
        """
        head, name, *rest = word.split(".")
        found = self.repository.find(alias, name)
        if found is None:
            self.lost(f"alias {word}", "alias, not found")
            return [(word, None, "lost")]
        self.use(context.user, found, "name")
        return [(head, None, "local"), (".", None, ""), (name, found, "name"), *self.fields(rest, None, context)]

    def item_path(self, head: str, rest: list[str], item, context: Context) -> list[Token]:
        """The tokens of a Rust item, named `head`, and of the names of its members after it."""
        out = [(head, self.use(context.user, item, "name"), "name")]
        for name in rest:
            item = item.members.get(name) if item is not None else None
            if item is not None:
                self.use(context.user, item, "field by type")
            else:
                self.lost(name, "field, type not known", True)
            out += [(".", None, ""), (name, item, "field")]
        return out


def is_constructor(definition) -> bool:
    """Whether a name in a pattern is a case or a variant."""
    return definition is not None and definition.kind in PARTS_OF_TYPES and definition.kind != "field"
