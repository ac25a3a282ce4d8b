"""What sources define: modules, and the things in them that have names."""

from dataclasses import dataclass, field

from .texts import braces

# Kinds of definitions, with the words by which pages name them.
KINDS = {
    "abbrev": "definition", "word": "law", "record": "record", "data": "data", "fn": "function", "struct": "struct",
    "enum": "enum", "trait": "trait", "const": "constant", "type": "type", "field": "field", "case": "case",
    "variant": "variant", "ghost": "ghost member", "primitive": "built in",
}
SPEC_KINDS = ("abbrev", "word", "record", "data")
PARTS_OF_TYPES = ("field", "case", "variant")


@dataclass(eq=False)
class Definition:
    """A thing that has a name: a word of specs, a Rust item, a member of these, or what the prover has built in."""
    kind: str
    name: str
    module: object
    line: int
    end: int = 0
    comment: str = ""
    text: str = ""
    # The signature of a word of specs, or the head of a record or of data.
    head: str = ""
    owner: object = None
    # Fields, cases, variants, ghosts, and the methods, constants and types of impls, by name.
    members: dict = field(default_factory=dict)
    # The clauses of a word of specs, each as (line, comment, text).
    parts: list = field(default_factory=list)
    public: bool = True
    # The definitions that use this definition, each with the number of its uses.
    used: dict = field(default_factory=dict)
    scope: object = None
    # The clauses of a contract, each as (keyword, name, text, line).
    clauses: list = field(default_factory=list)
    # The comments above clauses, by the number, from 0, of the clause below.
    headings: dict = field(default_factory=dict)
    # The traits that bound type parameters, by the parameters' names.
    generics: dict = field(default_factory=dict)
    # What a type is in contracts: the text of its `ghost Value`, and the scope of this text.
    value: object = None
    impl_of: object = None
    # The definition's place on its page, and its address in the site; None if the site doesn't show it.
    id: object = None
    url: object = None

    @property
    def crate(self) -> str:
        """The crate of the definition; empty if the prover has it built in."""
        return self.module.crate if self.module else ""

    @property
    def kit(self) -> bool:
        """Whether the toolchain or the prover defines it, and not this repository."""
        return self.module is None or self.module.kit

    def full(self) -> str:
        """The definition's name. The name of a function, a variant, a constant or a ghost follows the name of its type.
        """
        if self.owner is not None and self.kind in ("fn", "variant", "const", "ghost"):
            return f"{self.owner.full()}::{self.name}"
        return self.name


class Scope:
    """The names that a file, an impl, a trait or a function adds for contracts to those of `outer`."""

    def __init__(self, module, outer=None):
        self.module, self.outer = module, outer
        self.imports, self.modules, self.ghosts, self.generics = {}, {}, {}, {}
        self.self_type, self.operators = None, None

    def chain(self):
        """Yields this scope, and those around it."""
        at = self
        while at is not None:
            yield at
            at = at.outer


class Module:
    """A file, with the names that it imports and defines."""

    def __init__(self, crate: str, path: str, file: str, kit: bool, rust: bool):
        self.crate, self.path, self.file, self.kit, self.rust = crate, path, file, kit, rust
        self.scope = Scope(self)
        # All definitions in order, and by name; the definitions and the prose between them, in order.
        self.all, self.defs, self.chunks = [], {}, []
        self.rust_uses, self.exports, self.head, self.url = {}, [], "", None
        with open(file, encoding="utf-8") as source:
            self.text = source.read()

    @property
    def name(self) -> str:
        """The module's path below specs or src."""
        return self.path.split(".", 2)[2].replace(".", "/")

    def add(self, definition: Definition, chunk: bool = False):
        """Adds a definition to the module. If `chunk` is set, it is a word of specs, and is also added to the module's
        names and chunks.
        """
        self.all.append(definition)
        if chunk:
            self.defs[definition.name] = definition
            self.chunks.append(("def", definition))


def read_use(scope: Scope, text: str) -> list[str]:
    """Reads the text of `use ..`, without the word use, into a scope. Returns the names that it adds."""
    text = " ".join(text.split()).rstrip(";")
    base, brace, inside = text.partition(".{")
    if brace and inside.endswith("}"):
        found = braces(inside[:-1])
        scope.imports.update({name: (base.strip(), path) for path, name in found})
        return [name for _, name in found]
    path, _, alias = text.partition(" as ")
    alias = alias.strip() or path.strip().rsplit(".", 1)[-1]
    scope.modules[alias] = path.strip()
    return [alias]
