"""The steps of the adapter with their outcomes, and the fates of frames, as specs state them.

Their names by the library's numbers are from its header in C.
"""

import os
import re

from .registers import arguments, causes, clauses, registers, report_order, wrapped

STEPS, TEXTS = "adapter_model.specs.Steps", "server_output.specs.Texts"
NOTHING = "Nothing"
HEADER = os.path.join("bindings", "c", "nic82540em.h")
# The tuples of names for the library's numbers, each with the first name of its enumeration in the header
NUMBERED = {"KINDS": "TXTAKE", "OUTCOMES": "NOTHING", "FATES": "OFF", "REASONS": "NO_FAULT"}


def words(repository, name: str) -> dict[str, str]:
    """The words that the server prints for the variants of an enumeration, by variant."""
    return {pattern.strip("(").split()[0]: re.search(r'"(\w+)"', text).group(1)
            for pattern, text, _ in clauses(repository, TEXTS, name)}


def variants_of(repository, answers: str) -> set[str]:
    """The outcomes that a definition such as `TakeAnswers` or `ticked` allows."""
    if answers == "ticked":
        return {"Ticked"}
    definition = next(one for one in repository.by_name[answers] if one.kind == "abbrev")
    patterns = (text.partition(" = ")[0] for _, _, text in definition.parts)
    return {arguments(pattern)[-1].strip("()").split()[0] for pattern in patterns}


def step_outcomes(repository) -> dict[str, list[str]]:
    """For each kind of step, its outcomes besides `nothing`, in the order in which the server lists them."""
    kinds, outcomes = words(repository, "kind_word"), words(repository, "outcome_word")
    found = {}
    for pattern, text, _ in clauses(repository, STEPS, "Answers"):
        answers = re.search(r"\b(\w*Answers|ticked)\b", text).group(1)
        allowed = variants_of(repository, answers)
        found[kinds[pattern.split()[0]]] = [word for variant, word in outcomes.items()
                                            if variant in allowed and variant != NOTHING]
    return found


def texts(some) -> str:
    """These texts as a tuple in Python."""
    listed = ", ".join(f'"{text}"' for text in some)
    return f"({listed},)" if len(some) == 1 else f"({listed})"


def finder_names(repository) -> str:
    """The generated part of the finder of races: registers by offset, causes by place, the outcomes of steps, and
    fates.
    """
    items = []
    for register in sorted(registers(repository), key=report_order):
        place = f"0x{register.offset:04X}"
        if register.count == 1:
            items.append(f'{place}: "{register.name}"')
        else:
            loop = f"for n in range({register.count})"
            items.append(f'**{{{place} + {register.step} * n: f"{register.name}[{{n}}]" {loop}}}')
    bits = ", ".join(f'{place}: "{name}"' for name, place in causes(repository))
    steps = [f'"{kind}": {texts(outcomes)}' for kind, outcomes in step_outcomes(repository).items()]
    fates = texts(words(repository, "fate_word").values())
    return (f"REGISTERS = {{\n{wrapped(items, '    ')}}}\nCAUSES = {{{bits}}}\n"
            "# The outcomes of steps besides `nothing`\n"
            f"OF_STEPS: Dict[str, Tuple[str, ...]] = {{\n{wrapped(steps, '    ')}}}\n"
            f"# The fates of frames: the first that applies\nFATES = {fates}\n")


def binding_names(repository) -> str:
    """The generated part of the binding for Python: the names of the library's numbers, in their order."""
    with open(os.path.join(repository.root, HEADER), encoding="utf-8") as file:
        header = file.read()
    lines = []
    for name, first in NUMBERED.items():
        members = re.search(rf"^enum \{{\n    NIC_{first}\b.*?^\}};", header, re.M | re.S)[0]
        names = [one.removeprefix("FAULT_").lower() for one in re.findall(r"^    NIC_(\w+)", members, re.M)]
        lines.append(f"{name} = {', '.join(f'{one!r}' for one in names)}".replace("'", '"'))
    return "\n".join(lines) + "\n"
