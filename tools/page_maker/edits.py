"""Edits that the prover must refuse: crates/CRATE/must-fail/EDIT.edit.

Besides what `rt` reads, an edit has two lines that are read here. `rule: TEXT` is the rule that it violates. `of: CALL,
..` names the public calls or types whose contracts state the rule. `CALL/CLAUSE` also names the clause.
"""

import os
import re
from dataclasses import dataclass, field

# The beginning of the comment of a function that makes calls twice: `Calls` or nothing, the calls, such as
# [`Ring::next`], and `twice`.
TWICE = re.compile(r"(?:Calls )?((?:\[`[^`]+`\](?:, | and )?)+),?(?: each)? twice\b")


@dataclass
class Edit:
    """An edit: its changes are (file, old text, new text)."""
    crate: str
    name: str
    rule: str = ""
    of: list = field(default_factory=list)
    changes: list = field(default_factory=list)

    def calls(self) -> list[tuple[str, str]]:
        """The calls or types that the edit names, each with the name of a clause or an empty text."""
        return [call.partition("/")[::2] for call in self.of]


def read_edit(crate: str, path: str) -> Edit:
    """Reads the file of an edit, and returns the edit."""
    edit, file, old = Edit(crate, os.path.basename(path)[:-len(".edit")]), "", ""
    with open(path, encoding="utf-8") as source:
        for line in source.read().split("\n"):
            word, _, value = line.partition(": ")
            if word == "rule":
                edit.rule = value.strip()
            elif word == "of":
                edit.of += [call.strip() for call in value.split(",")]
            elif word == "file":
                file = value.strip()
            elif word == "old":
                old = value
            elif word in ("new", "new:"):
                edit.changes.append((file, old, value))
    return edit


def read_edits(root: str, crates) -> list[Edit]:
    """All edits of these crates, in the order of crates, then of names."""
    edits = []
    for crate in crates:
        folder = os.path.join(root, "crates", crate, "must-fail")
        names = sorted(os.listdir(folder)) if os.path.isdir(folder) else []
        edits += [read_edit(crate, os.path.join(folder, name)) for name in names if name.endswith(".edit")]
    return edits


def target(repository, crate: str, call: str):
    """The definition that an `of:` line of a crate names, or None. It is the only one of this name in the crate, or
    else the only `TYPE::CALL` of all crates.
    """
    kin, _, name = call.rpartition("::")
    for at in (crate, None) if kin else (crate,):
        found = [one for one in repository.by_name.get(kin or name, [])
                 if one.kind in ("fn", "struct", "enum", "trait") and (at is None or one.crate == at)]
        if not kin:
            found = [one for one in found if one.kind != "fn" or one.owner is None]
        members = [one.members.get(name) for one in found] if kin else found
        members = [one for one in members if one is not None]
        if len(members) == 1:
            return members[0]
    return None


def only_call(repository, crate: str, call: str):
    """The definition of a call that a comment of this crate names, or None if there isn't exactly one."""
    kin, _, name = call.rpartition("::")
    if kin and kin not in repository.crates:
        return target(repository, crate, call)
    found = [one for one in repository.by_name.get(name, [])
             if one.kind == "fn" and one.owner is None and one.public and kin in ("", one.crate)]
    return found[0] if len(found) == 1 else None


def made_twice(repository) -> dict:
    """The calls whose contract determines the outcome, each with the functions of other crates that prove this by
    making the call twice.
    """
    out = {}
    for module in repository.own():
        for function in module.all if module.rust else ():
            begin = TWICE.match(" ".join(function.comment.split())) if function.kind == "fn" else None
            for call in re.findall(r"`([^`]+)`", begin[1]) if begin else ():
                found = only_call(repository, function.crate, call)
                if found is not None and found.crate != function.crate:
                    out.setdefault(found, []).append(function)
    return out
