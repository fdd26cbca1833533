"""The public functions of the crates, as their code has them, and which of them may answer that there is no memory."""

import re

from lib.repository import TOP, code_of, crates

# What begins a contract, or the body.
AFTER = re.compile(r"\s(?:requires|ensures\*?|decreases|where)\b|\s*\{|;|$")
# The words of the standard library for want of memory, and of variants that say so.
LACKING = {"AllocError", "AllocFailed"}
VARIANT = "OutOfMemory"


def contract_at(code, place):
    """The signature and the clauses of the function that begins there."""
    end = re.compile(r"[\n>)\w] *\{\}?\n|;\n").search(code, place)
    return code[place:end.start() + 1 if end else len(code)]


def root_of(crate):
    """The file of a crate that says what others may use."""
    folder = next((TOP / "crates" / crate / "src").glob("*.rt")).parent
    return next(file for file in (folder / "lib.rt", folder / "main.rt") if file.exists())


def public_functions(crate):
    """The functions that others may call: their types if they have one, their names, and their contracts."""
    root = root_of(crate)
    lib = root.read_text()
    told = set(re.findall(r"\w+", " ".join(re.findall(r"(?ms)^pub use (.*?);", lib))))
    for file in sorted(root.parent.rglob("*.rt")):
        code = file.read_text()
        is_open = re.search(rf"(?m)^pub mod {file.stem};", lib)
        for found in re.finditer(r"(?m)^( *)pub fn (\w+)", code):
            owner = re.findall(r"(?m)^impl\b(?:<[^{]*?>(?= ))? &?(\w+)", code[:found.start()])[-1] if found[1] else ""
            if is_open or (owner or found[2]) in told:
                yield owner, found[2], contract_at(code, found.start())


def methods_of_traits(crate):
    """The same of the functions of its public traits."""
    for trait in re.finditer(r"(?ms)^pub trait (\w+).*?^\}", code_of(crate)):
        for found in re.finditer(r"(?m)^    fn (\w+)", trait[0]):
            yield trait[1], found[1], contract_at(trait[0], found.start())


def closing(text, place):
    """Where the bracket closes that opens there. An arrow closes none."""
    depth = 0
    for at in range(place, len(text)):
        if text[at] in "<([":
            depth += 1
        elif text[at] in ">)]" and text[at - 1:at + 1] != "->":
            depth -= 1
            if depth == 0:
                return at
    return len(text)


def result_of(contract):
    """The type that a function answers, or nothing."""
    place = re.search(r"fn \w+", contract).end()
    if contract[place] == "<":
        place = closing(contract, place) + 1
    rest = contract[closing(contract, place) + 1:]
    arrow = re.match(r"\s*->\s*", rest)
    return " ".join(rest[arrow.end():AFTER.search(rest, arrow.end()).start()].split()) if arrow else ""


def fault_of(contract):
    """The type of the faults that a function answers, or nothing."""
    answered = re.fullmatch(r"Result<(.*)>", result_of(contract))
    if not answered:
        return ""
    depth = 0
    for at, sign in enumerate(answered[1]):
        depth += (sign in "<([") - (sign in ">)]" and answered[1][at - 1:at + 1] != "->")
        if sign == "," and depth == 0:
            return answered[1][at + 1:].strip(" ,")
    return ""


def lacking_types():
    """The types that are or may hold a word for want of memory."""
    bodies = {}
    for crate in crates():
        for found in re.finditer(r"(?ms)^pub (?:enum|struct) (\w+)[^;{(]*(\{.*?^\}|\(.*?\);)", code_of(crate)):
            bodies.setdefault(found[1], set()).update(re.findall(r"\w+", re.sub(r"//.*", "", found[2])))
    found = set(LACKING)
    while more := {name for name, words in bodies.items() if name not in found and (words & found or VARIANT in words)}:
        found |= more
    return found


def calls_that_may_lack_memory(crate, lacking):
    """The functions of a crate whose fault may be want of memory, by the names of their types and their own."""
    functions = {*public_functions(crate), *methods_of_traits(crate)}
    return {f"{owner}::{name}".removeprefix("::") for owner, name, contract in functions if set(re.findall(r"\w+", fault_of(contract))) & lacking}
