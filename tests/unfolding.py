"""The definitions in the crates' specs/, and which of them the contract of a function unfolds to.

A contract stands in the code: the clauses of a function (`requires`, `ensures`), and the models of the types in its signature. Each name in
it is looked up by the `use` lines of its file; a definition leads to the names in its own text; and so on to the end. Names of the toolchain and of
types of the code lead nowhere, and neither do those of `specs/internal/`, which no public contract cites.
"""
import itertools
import pathlib
import re

ROOT = pathlib.Path(__file__).resolve().parent.parent
CRATES = ROOT / "crates"

WORD = re.compile(r"[A-Za-z_][A-Za-z0-9_']*(?:\.[A-Za-z_][A-Za-z0-9_']*)*|>>=|←")
IMPORT = re.compile(r"(?m)^\s*(?:pub )?(?:ghost )?use (Rattle\.[\w.]+?)(?:\.\{([^}]*)\}|(?: as (\w+))?);?$")
HEAD = re.compile(r"^(?:(?:abbrev|unfoldable|opaque|record|data|pub) )*(\S+)")


def file_of(module):
    """The file of a module of some crate's specs/, or None."""
    parts = module.split(".")
    if len(parts) < 4 or parts[0] != "Rattle" or parts[2] != "specs" or parts[3] in ("declared", "internal"):
        return None
    specs = CRATES / parts[1] / "specs"
    file = specs / ("/".join(parts[3:]) + ".antt")
    if file.exists():
        return file
    # A crate passes on the definitions of a lower one by a line of its root.
    passed = re.search(rf"(?m)^pub use (Rattle\.[\w.]+\.{parts[3]})$", (specs / "Lib.antt").read_text()) if (specs / "Lib.antt").exists() else None
    return file_of(passed[1]) if passed else None


def imports(text):
    """Of each name that a text's `use` lines bring: the file and the name there, or the file alone where the name is the module's."""
    found = {}
    for module, names, short in IMPORT.findall(text):
        if not names and file_of(module):
            found[short or module.split(".")[-1]] = (file_of(module), None)
        for name in [it.strip() for it in names.split(",") if it.strip()]:
            there, _, here = name.partition(" as ")
            if file_of(module):
                found[here.strip() or there.strip()] = (file_of(module), there.strip())
            elif file_of(f"{module}.{there.strip()}"):
                found[here.strip() or there.strip()] = (file_of(f"{module}.{there.strip()}"), None)
    return found


class File:
    """A file of definitions: each definition's text, by its name, and what the file imports."""

    def __init__(self, path):
        text = path.read_text()
        self.imports, self.texts, self.owners = imports(text), {}, {}
        name = None
        for line in text.splitlines():
            if not line.strip() or line.startswith(("--", "use ", "pub use ", "pub mod ")):
                continue
            # A line of an operator's equation, or of a record's end, goes on with what is above it.
            if not line[0].isspace() and not line.startswith(("(", "}", "infix")):
                name = HEAD.match(line).group(1)
            self.texts[name] = self.texts.get(name, "") + line.split(" -- ")[0] + "\n"
        for owner, body in self.texts.items():
            self.owners[owner] = owner
            if re.match(r"(?:pub )?data ", body):
                for case in re.findall(r"(?m)^\s+(?:pub )?(\S+) :", body):
                    self.owners.setdefault(case, owner)


FILES = {}


def opened(path):
    if path not in FILES:
        FILES[path] = File(path)
    return FILES[path]


def named(text, imported, own=None):
    """The definitions that a text names, each as its file and its name there."""
    for word in WORD.findall(text):
        first, _, rest = word.partition(".")
        if word in (">>=", "←"):
            first = "◌>>=◌"
        if own and first in opened(own).owners:
            yield own, opened(own).owners[first]
        elif first in imported:
            file, name = imported[first]
            name = name or rest.split(".")[0]
            if name in opened(file).owners:
                yield file, opened(file).owners[name]
            elif name in opened(file).imports:
                yield from named(name, opened(file).imports)


def unfolded(roots):
    """All definitions that some definitions unfold to, with these."""
    found, left = set(), list(roots)
    while left:
        at = left.pop()
        if at not in found:
            found.add(at)
            file, name = at
            left += named(opened(file).texts[name], opened(file).imports, file)
    return found


def models():
    """Of each type of the code with a model: the text of its model, with the `use` lines of its file."""
    found = {}
    for path in sorted(CRATES.glob("*/src/**/*.rt")):
        text = path.read_text()
        for name, body in re.findall(r"(?ms)^impl[^\n]*? Model for (\w+)[^\n]*\{\n(.*?)^\}", text):
            found.setdefault(name, []).append((body, {**imports(text), **imports(re.sub(r"(?m)^\s+", "", body))}))
    return found


MODELS = models()


def head_of(text):
    """A function's signature and its clauses: all before its body."""
    lines = text.splitlines(keepends=True)
    at = next((at for at, line in enumerate(lines) if line.rstrip().endswith(("{", ";", "{}"))), 0)
    if not any(re.match(r"\s+(?:requires|ensures)\b", line) for line in lines[: at + 1]):
        return "".join(lines[: at + 1])
    return "".join(itertools.takewhile(lambda line: not re.match(r"\s*\{", line), lines))


def contract(path):
    """The places of a function that is named as CRATE::..::NAME: its signature and its clauses, each with the `use` lines of its file."""
    crate, *inner, name = path.split("::")
    kinds, modules = [it for it in inner if it[0].isupper()], [it for it in inner if not it[0].isupper()]
    for file in sorted((CRATES / crate / "src").rglob("*.rt")):
        parts = file.relative_to(CRATES / crate / "src").with_suffix("").parts
        if any(it not in parts for it in modules):
            continue
        text = file.read_text()
        for found in re.finditer(rf"(?m)^[ ]*(?:pub )?(?:const )?fn {name}\b", text):
            begin = text.rfind("\nimpl", 0, found.start()) + 1
            kind = text[begin : text.find("\n", begin)]
            if kinds and not any(re.search(rf"\b{it}\b", kind) for it in kinds):
                continue
            yield head_of(text[found.start() :]), imports(text)


def cited(path):
    """The definitions that a function's contract names, by its clauses and by the models of the types in its signature."""
    found = set()
    for text, imported in contract(path):
        found.update(named(text, imported))
        kinds = set(re.findall(r"\b[A-Z]\w+", text)) | {it for it in path.split("::") if it[0].isupper()}
        for kind in kinds & set(MODELS):
            for body, around in MODELS[kind]:
                found.update(named(body, around))
    return found


def is_there(path):
    """Whether there is such a function, or a module or a type of that name."""
    crate, *inner, name = path.split("::")
    if any(contract(path)):
        return True
    source = CRATES / crate / "src"
    if name[0].isupper():
        return any(re.search(rf"(?m)^pub (?:struct|enum|trait) {name}\b", it.read_text()) for it in source.rglob("*.rt"))
    return any((it.with_suffix("").name == name) for it in source.rglob("*.rt"))
