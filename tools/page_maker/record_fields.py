"""The fields that `record { field = value; .. }` names."""

import re

from .texts import turn

RECORD = re.compile(r"\brecord\b([^{};=]*)\{")
FIELD = re.compile(r"\s*([^\s(){}=;.]+)((?:\.[^\s(){}=;]+)?)\s+=\s")


def field_names(text: str, opening: int) -> list[tuple[str, int, str]]:
    """The fields that the brace at `opening` names: for each its name, its place in the text, and the path after it."""
    depth, names = 0, []
    for at in range(opening, len(text)):
        sign = text[at]
        depth += turn(sign)
        if depth == 0:
            break
        if depth == 1 and (sign == ";" or at == opening):
            found = FIELD.match(text, at + 1)
            if found:
                names.append((found.group(1), found.start(1), found.group(2)))
    return names


def kind_of(names: list, fields: dict, scope):
    """The record that has all of these fields. Of several, those with no other fields are preferred, then those in
    scope, then those of the crate. None if not exactly one remains.
    """
    owners = [{field.owner for field in fields.get(name, [])} for name, _, _ in names]
    kinds = set.intersection(*owners) if owners else set()
    imported = {name for at in scope.chain() for name in at.imports}
    narrower = [
        lambda kind: sum(member.kind == "field" for member in kind.members.values()) == len(names),
        lambda kind: kind.module is scope.module or kind.name in imported,
        lambda kind: kind.crate == scope.module.crate,
    ]
    for keeps in narrower:
        if len(kinds) > 1:
            kinds = {kind for kind in kinds if keeps(kind)} or kinds
    return kinds.pop() if len(kinds) == 1 else None


def made_fields(text: str, fields: dict, scope) -> dict:
    """For the place of each field that a `record { .. }` names without a path after it: the field's definition, or
    None if that isn't certain.
    """
    made = {}
    for found in RECORD.finditer(text):
        names = field_names(text, found.end() - 1)
        kind = kind_of(names, fields, scope)
        for name, at, path in names:
            if not path:
                made[at] = kind.members[name] if kind is not None else None
    return made
