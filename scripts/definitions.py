"""The definitions in the crates' specs/, and which of them a contract rests on."""

import functools
import re

import contracts
import source_words

HEAD = re.compile(r"^(?P<indent> *)(?P<kind>(?:(?:pub|abbrev|unfoldable|record|data) )*)(?P<name>[^\s(){};,.:]+)(?= [^\n]*:)")
USE = re.compile(r"^\s*(?:ghost )?(?:pub )?(?:ghost )?use (?P<module>Rattle(?:\.\w+)+)(?:\.\{(?P<names>[^}]*)\})?(?: as (?P<alias>\w+))?;?\s*$", re.MULTILINE)
NAME = re.compile(r"[^\s(){}\[\];,.:λ→×]+(?:\.[^\s(){}\[\];,.:λ→×]+)*")


class Module:
    """A file of definitions: what it uses of others, and its definitions by name, each as its text."""

    def __init__(self, text):
        self.modules, self.imports = uses_of(text)
        self.definitions = {name: "\n".join(lines) for name, lines in blocks_of(text)}
        self.owners = {part: name for name, text in self.definitions.items() for part in parts_of(text)}


def uses_of(text):
    """The modules that a text uses under another name, and the names that it uses, each with its module and its name there."""
    modules, imports = {}, {}
    for found in USE.finditer(text):
        if not found["names"]:
            modules[found["alias"] or found["module"].rpartition(".")[2]] = found["module"]
        for item in (found["names"] or "").split(","):
            there, _, here = item.strip().partition(" as ")
            if there:
                imports[here or there] = (found["module"], there)
                modules.setdefault(here or there, f"{found['module']}.{there}")
    return modules, imports


def blocks_of(text):
    """The definitions of a text, each with its lines: its type, and what it is equal to. The parameters of a module count with no definition."""
    name, inside, lines = None, 0, []
    for line in text.splitlines():
        if not line.strip() or line.lstrip().startswith("--"):
            continue
        indent = len(line) - len(line.lstrip())
        head = HEAD.match(line)
        if name and (indent > inside or (indent == inside and goes_on(line, name))):
            lines.append(line)
            continue
        if name:
            yield name, lines
        name = None
        if head and not line.lstrip().startswith(("use ", "pub use ", "module ", "infix")):
            name, inside, lines = head["name"], indent, [line]
    if name:
        yield name, lines


def goes_on(line, name):
    """Whether a line belongs to the definition of this name, which begins as far to the left: an equation of it, or a bracket that closes."""
    words = line.split()
    return words[0] == name or words[0][0] in "}])" or ("◌" in name and name.strip("◌") in words[1:])


def parts_of(definition):
    """The constructors that a definition of a data type has."""
    first, *rest = definition.splitlines()
    if not re.match(r" *(pub )?data ", first):
        return []
    return [found["name"] for line in rest if (found := HEAD.match(line))]


@functools.cache
def module_at(top, module):
    """The definitions of a module, if it is one of the repository's that has some."""
    _, crate, folder, *path = module.split(".")
    file = top / "crates" / crate / "specs" / ("/".join(path) + ".antt")
    return Module(file.read_text()) if folder == "specs" and path and file.is_file() else None


def find(top, module, name):
    """The module and the name of a definition that a module has by a name, or gives on; or nothing."""
    there = module_at(top, module)
    if there is None:
        return None
    if name in there.definitions:
        return module, name
    if name in there.owners:
        return module, there.owners[name]
    return find(top, *there.imports[name]) if name in there.imports else None


def named_in(top, text, modules, imports, module=None):
    """The definitions that a text names, in its order."""
    for found in NAME.finditer(text):
        first, *rest = found[0].split(".")
        if first == "Rattle":
            target = (".".join([first, *rest[:-1]]), rest[-1]) if rest else None
        elif rest and first in modules:
            target = (modules[first], rest[0])
        else:
            target = imports.get(first) or (module and (module, first))
        definition = target and find(top, *target)
        if definition:
            yield definition


def contract_of(top, crate, function):
    """The clauses of a function, and what its file uses; or nothing if there is no such function, or it has no clause."""
    owner, _, name = function.rpartition("::")
    for file in sorted((top / "crates" / crate / "src").rglob("*.rt")):
        text = file.read_text()
        for found in re.finditer(rf"\bfn {re.escape(name)}\b", text):
            if owner and owner != owner_at(text, found.start()):
                continue
            clauses = clauses_at(text, found.end())
            if clauses:
                return (clauses, *uses_of(text))
    return None


def owner_at(text, place):
    """The type of the last block of functions that begins before a place, without its parameters; or nothing."""
    heads = re.findall(r"^impl\b([^{]*) \{", text[:place], re.MULTILINE)
    if not heads:
        return None
    head, within = heads[-1], None
    while head != within:
        head, within = re.sub(r"<[^<>]*>", "", head), head
    return head.split()[-1]


def clauses_at(text, start):
    """The clauses of the function whose name ends there, as one text."""
    clauses = []
    while found := contracts.BEGINS.search(text, start):
        between = source_words.in_one_line(text[start:found.start()])
        if between.endswith("}") or (clauses and between) or " fn " in between or "{" in between.partition("->")[2]:
            break
        start = contracts.end_of(text, found.start())
        clauses.append(text[found.start():start])
    return "\n".join(clauses)


def chain_of(top, clauses, modules, imports, without=()):
    """The definitions that these clauses rest on, in the order in which a reader meets them: module, name, lines. Those whose names are in
    `without` are left out, with what only they name."""
    chain, seen = [], set()
    waiting = list(named_in(top, clauses, modules, imports))[::-1]
    while waiting:
        definition = waiting.pop()
        module, name = definition
        if definition in seen or name in without:
            continue
        seen.add(definition)
        there = module_at(top, module)
        text = there.definitions[name]
        chain.append((module.removeprefix("Rattle.").replace(".specs.", "/", 1).replace(".", "/") + ".antt", name, len(text.splitlines())))
        waiting += list(named_in(top, text, there.modules, there.imports, module))[::-1]
    return chain
