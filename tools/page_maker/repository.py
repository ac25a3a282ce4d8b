"""The sources of a repository, and what a name in them means."""

import os
import re
from collections import Counter

from .definitions import PARTS_OF_TYPES, Definition, Module, Scope
from .rust_reader import read_rust
from .spec_reader import read_spec
from .texts import tokens_of

PRELUDE = {"Vec": ("std_alloc", ["vec"]), "String": ("std_alloc", ["string"]), "Box": ("std_alloc", ["boxed"]),
           "Option": ("core", ["option"]), "Result": ("core", ["result"])}
# The crates of the kit whose items std shows.
STD = ("core", "std_alloc", "std_collections", "std_io")
# The most imports that are followed from one to the next.
MOST_STEPS = 8
# A module of a lower crate that a crate passes on in its specs/Lib.antt, perhaps under another name.
PASSED = re.compile(r"^pub use Rattle\.([\w.]+?\.(\w+))(?: as (\w+))?$", re.M)


def read_layers(root: str) -> list[tuple[str, dict[str, list[str]]]]:
    """The layers of crates.txt: for each its heading, and its crates with the names of what each uses."""
    layers = [("", {})]
    with open(os.path.join(root, "crates.txt"), encoding="utf-8") as file:
        for line in (line.strip() for line in file):
            heading = re.fullmatch(r"# (.*[^:.])", line)
            if heading:
                layers.append((heading.group(1), {}))
            elif ":" in line and not line.startswith("#"):
                name, _, uses = line.partition(":")
                layers[-1][1][name.split()[0]] = uses.split()
    return [layer for layer in layers if layer[1]]


class Repository:
    """All modules of the repository, and those of the kit that names lead to. `kit` is empty if there is no kit."""

    def __init__(self, root: str, kit: str = ""):
        self.root, self.kit = root, kit
        self.layers = read_layers(root)
        self.crates = {name: uses for _, crates in self.layers for name, uses in crates.items()}
        self.modules, self.primitives, self.below_of, self.passed = {}, {}, {}, {}
        # `counts`: how many names were linked, by how they were linked, and how many weren't, by the reason. `missing`:
        # how often each name wasn't linked. `ambiguous`: how often each field's name wasn't linked.
        self.counts, self.missing, self.ambiguous = Counter(), Counter(), Counter()
        self.by_name, self.fields, self.rust_names = {}, {}, {}
        self.read_crates()
        for module in self.own():
            self.index(module)
        for module in self.own():
            if module.rust:
                self.adopt(module)

    def own(self) -> list[Module]:
        """The modules of the repository."""
        return [module for module in self.modules.values() if module is not None and not module.kit]

    def uses_of(self, crate: str) -> list[str]:
        """The crates of the repository that a crate uses."""
        return [name for name in self.crates.get(crate, []) if name in self.crates]

    def below(self, crate: str) -> set[str]:
        """A crate, and all crates of the repository below it."""
        found = self.below_of.get(crate)
        if found is None:
            found = {crate}.union(*(self.below(name) for name in self.uses_of(crate)))
            self.below_of[crate] = found
        return found

    def lib(self, crate: str):
        """The root file of a crate."""
        return self.modules.get(f"{crate}.src.lib") or self.modules.get(f"{crate}.src.main")

    # Reading

    def read_crates(self):
        """Reads src and specs of all crates."""
        for crate in self.crates:
            for folder, ending in (("specs", ".antt"), ("src", ".rt")):
                base = os.path.join(self.root, "crates", crate, folder)
                for at, _, names in sorted(os.walk(base)):
                    for name in sorted(name for name in names if name.endswith(ending)):
                        path = os.path.join(at, name)
                        part = os.path.relpath(path, base)[:-len(ending)].replace(os.sep, ".")
                        self.load(crate, folder, part, path)

    def load(self, crate: str, folder: str, part: str, file: str) -> Module:
        """Reads a file into a new module, and returns it."""
        module = Module(crate, f"{crate}.{folder}.{part}", file, crate not in self.crates, folder == "src")
        self.modules[module.path] = module
        (read_rust if module.rust else read_spec)(module)
        return module

    def index(self, module: Module):
        """Adds the definitions of a module to the tables of names."""
        for definition in module.all:
            self.by_name.setdefault(definition.name, []).append(definition)
            for member in definition.members.values():
                if member.kind == "field" and member.public:
                    self.fields.setdefault(member.name, []).append(member)
                if member.kind in PARTS_OF_TYPES:
                    self.by_name.setdefault(member.name, []).append(member)
            if module.rust and definition.owner is None:
                self.rust_names.setdefault((module.crate, definition.name), []).append(definition)

    def adopt(self, module: Module):
        """Adds to types the members of their impls in this module, if the type is in another file of the crate."""
        for definition in module.all:
            outer = definition.owner
            if outer is None or outer.kind != "outer":
                continue
            kin = self.rust_name(module, outer.name)
            if kin is None or kin.crate != module.crate:
                continue
            definition.owner = kin
            kin.value = kin.value or outer.value
            if definition.kind in ("fn", "const", "type"):
                kin.members.setdefault(definition.name, definition)

    def file_of(self, parts: list[str]) -> str:
        """The file of a module of specs, such as wire.specs.Runs; empty if there can't be one."""
        if parts[0] in self.crates and len(parts) > 2 and parts[1] in ("specs", "proofs"):
            return os.path.join(self.root, "crates", *parts) + ".antt"
        if not self.kit:
            return ""
        if parts[0] == "lib":
            return os.path.join(self.kit, "rattle", "logic", "Lib", *parts[1:]) + ".antt"
        if parts[0] == "mathlib":
            return os.path.join(self.kit, "rattle", "antt", "port", "mathlib", "src", *parts[1:]) + ".antt"
        if len(parts) > 2 and parts[1] in ("specs", "proofs"):
            return os.path.join(self.kit, "rattle", *parts) + ".antt"
        return ""

    def passed_on(self, parts: list[str]) -> list[str]:
        """A path of specs in the crate that defines it: crates pass on modules of lower crates in specs/Lib.antt."""
        while len(parts) > 2 and parts[0] in self.crates and parts[1] == "specs":
            if parts[0] not in self.passed:
                lib = self.modules.get(f"{parts[0]}.specs.Lib")
                found = PASSED.findall(lib.text if lib else "")
                self.passed[parts[0]] = {name or last: path for path, last, name in found}
            whole = self.passed[parts[0]].get(parts[2])
            if whole is None:
                break
            parts = whole.split(".") + parts[3:]
        return parts

    def module(self, path: str):
        """The module of specs with this path, or None."""
        path = ".".join(self.passed_on(path.split(".")))
        if path not in self.modules:
            parts = path.split(".")
            file, found = self.file_of(parts), None
            if file and os.path.isfile(file):
                library = parts[0] in ("lib", "mathlib")
                folder = "specs" if library or len(parts) < 3 else parts[1]
                found = self.load(parts[0], folder, ".".join(parts[1:] if library else parts[2:]), file)
            self.modules[path] = found
        return self.modules[path]

    def rust_module(self, crate: str, parts: list[str]):
        """The module of code that the longest possible beginning of `parts` names, and the other parts. None and all
        parts if there is no such module.
        """
        inside = crate in self.crates
        if not inside and not self.kit:
            return None, parts
        crates = os.path.join(self.root, "crates") if inside else os.path.join(self.kit, "rattle")
        base = os.path.join(crates, crate, "src")
        for count in range(len(parts), -1, -1):
            names = [parts[:count], parts[:count] + ["mod"]] if count else [["mod"], ["lib"]]
            for name in names:
                known = self.modules.get(f"{crate}.src.{'.'.join(name)}")
                file = os.path.join(base, *name) + ".rt"
                if known is None and os.path.isfile(file):
                    known = self.load(crate, "src", ".".join(name), file)
                if known is not None:
                    return known, parts[count:]
        return None, parts

    # Names of specs

    def find(self, base: str, name: str, depth: int = 0):
        """The definition of `name` in the module `base`, or None."""
        path = f"{base}.{name}".removeprefix("Rattle.")
        if path.startswith(("Prim.", "text.")):
            return self.primitive(path)
        parts = self.passed_on(path.split("."))
        if depth > MOST_STEPS:
            return None
        if "declared" in parts:
            at = parts.index("declared")
            return self.declared(parts[0], parts[at + 1:])
        for count in range(len(parts) - 1, 0, -1):
            module = self.module(".".join(parts[:count]))
            if module is None:
                continue
            rest = parts[count:]
            found = module.defs.get(rest[0])
            imported = module.scope.imports.get(rest[0])
            if found is None and imported and (rest[0] in module.exports or module.kit):
                found = self.find(*imported, depth + 1)
            if found is not None:
                return found.members.get(rest[-1], found) if len(rest) > 1 else found
            break
        return self.shown_by_std(parts, depth) if parts[0] == "std" else None

    def declared(self, crate: str, path: list[str]):
        """The Rust item that specs name after `declared`, or None."""
        module, rest = self.rust_module(crate, path)
        if module is None or not rest:
            return None
        kin = module.defs.get(rest[0])
        if kin is None:
            return next((one for one in module.all if one.name == rest[-1]), None)
        return kin.members.get(rest[-1], kin) if len(rest) > 1 else kin

    def shown_by_std(self, parts: list[str], depth: int):
        """The definition of a name of std, in the crates whose items std shows, or None."""
        for crate in STD:
            found = self.find(".".join(["Rattle", crate] + parts[1:-1]), parts[-1], depth + MOST_STEPS // 2 + 1)
            if found is not None:
                return found
        return None

    def primitive(self, path: str) -> Definition:
        """A name that the prover has built in: it has no source in the kit."""
        if path not in self.primitives:
            name = path.rsplit(".", 1)[-1]
            self.primitives[path] = Definition("primitive", name, None, 0, comment=f"built in: {path}")
        return self.primitives[path]

    def lookup(self, scope: Scope, name: str):
        """What a name means in a scope: a definition or None; and whether the name is known at all."""
        for at in scope.chain():
            if name in at.imports:
                return self.find(*at.imports[name]), True
            if name in at.ghosts and at.module.rust:
                return at.ghosts[name], True
        if not scope.module.rust and name in scope.module.defs:
            return scope.module.defs[name], True
        operators = self.operators(scope)
        return operators.get(name), name in operators

    def operators(self, scope: Scope) -> dict:
        """The parts of names such as ◌≡◌ in a scope, each with the definition of its name."""
        if scope.operators is None:
            scope.operators = {}
            for at in scope.chain():
                own = {} if at.module.rust else at.module.defs
                for name in [*at.imports, *own]:
                    for part in name.split("◌") if "◌" in name else ():
                        if part and part not in scope.operators:
                            scope.operators[part] = self.find(*at.imports[name]) if name in at.imports else own[name]
        return scope.operators

    def alias(self, scope: Scope, name: str):
        """The path of the module with this name in a scope, or None."""
        return next((at.modules[name] for at in scope.chain() if name in at.modules), None)

    def dotted(self, word: str, scope: Scope):
        """The definition of a name with or without a path, or None."""
        if word.startswith("Rattle."):
            base, _, name = word.rpartition(".")
            return self.find(base, name)
        found, known = self.lookup(scope, word)
        if known:
            return found
        head, _, rest = word.partition(".")
        alias = self.alias(scope, head) if rest else None
        return self.find(alias, rest) if alias else None

    def head_of(self, text: str, scope: Scope):
        """What the first name of a type in specs means in contracts (`value_type`), or None."""
        word = next((word for kind, word in tokens_of(text) if kind == "word"), None)
        found = self.dotted(word, scope) if word else None
        return self.value_type(found) if found else None

    # Names of code

    def rust_type(self, module: Module, text: str, self_type=None):
        """The definition of the head of a Rust type, and its arguments as text."""
        text = re.sub(r"^(?:&\s*)?(?:'\w+\s+)?(?:mut\s+)?(?:dyn\s+|impl\s+)?", "", text.strip())
        found = re.match(r"([\w:]+)(?:<(.*)>)?$", text, re.S)
        if not found:
            return None, ""
        name = self_type if found.group(1) == "Self" and self_type else found.group(1)
        return self.rust_name(module, name), found.group(2) or ""

    def rust_name(self, module: Module, name: str, depth: int = 0):
        """What a name in code means, or None."""
        parts = name.split("::")
        if depth > MOST_STEPS - 2:
            return None
        if parts[0] in module.defs or parts[0] == "Self":
            kin = module.defs.get(parts[0])
            return kin if len(parts) == 1 or kin is None else kin.members.get(parts[-1], kin)
        if parts[0] in module.rust_uses:
            return self.rust_path(module, module.rust_uses[parts[0]] + parts[1:], depth)
        if len(parts) > 1:
            return self.rust_path(module, parts, depth)
        if name in PRELUDE:
            inside, _ = self.rust_module(*PRELUDE[name])
            return inside.defs.get(name) if inside is not None else None
        return None

    def rust_path(self, module: Module, path: list[str], depth: int = 0):
        """What a path in code means, or None."""
        crate = module.crate if path[0] in ("crate", "self", "super") else path[0]
        found = self.rust_names.get((crate, path[-1]))
        if found:
            return found[0]
        kin = self.rust_names.get((crate, path[-2])) if len(path) > 1 else None
        if kin:
            return kin[0].members.get(path[-1], kin[0])
        if crate == "std" and len(path) > 2:
            return self.rust_path_of_std(path, depth)
        if crate not in self.crates:
            return self.rust_path_of_kit(crate, path, depth)
        lib = self.modules.get(f"{crate}.src.lib")
        if lib and lib.rust_uses.get(path[-1], path) != path and depth < MOST_STEPS - 3:
            return self.rust_path(lib, lib.rust_uses[path[-1]], depth + 1)
        return None

    def rust_path_of_std(self, path: list[str], depth: int):
        """What a path that begins with std means, or None."""
        for name in ("std", "std_io", "std_alloc", "core"):
            inside, rest = self.rust_module(name, path[1:-1])
            if inside is None:
                continue
            if not rest and path[-1] in inside.defs:
                return inside.defs[path[-1]]
            if path[-1] in inside.rust_uses and depth < 3:
                used = [name if part == "crate" else part for part in inside.rust_uses[path[-1]]]
                found = self.rust_path(inside, used, depth + 2)
                if found is not None:
                    return found
        return None

    def rust_path_of_kit(self, crate: str, path: list[str], depth: int):
        """What a path into another crate of the kit means, or None."""
        lib, _ = self.rust_module(crate, []) if re.fullmatch(r"[a-z]\w*", crate) else (None, None)
        if lib is None:
            return None
        if path[-1] in lib.defs:
            return lib.defs[path[-1]]
        further = lib.rust_uses.get(path[-1])
        if further and depth < MOST_STEPS - 3:
            inside, _ = self.rust_module(crate, [part for part in further[:-1] if part != "crate"])
            return inside.defs.get(further[-1]) if inside is not None else None
        return None

    def traits_above(self, trait: Definition):
        """Yields the traits that a trait requires by its bounds."""
        for name in re.findall(r"\b[A-Z]\w*", trait.text.partition(":")[2]):
            above = self.rust_name(trait.module, name)
            if above is not None and above is not trait:
                yield above

    def value_type(self, definition):
        """What a type is in contracts: what its `ghost Value` means, or else the type itself."""
        if definition is not None and definition.value:
            text, scope = definition.value
            return self.head_of(text or "", scope) or definition
        return definition
