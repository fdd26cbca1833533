"""What the scripts share that try edits of the crates: the toolchain's own judge, and a copy of the crates to try them on."""

import collections
import importlib.machinery
import importlib.util
import os
import pathlib
import shutil
import re
import subprocess
import sys

from source_words import Source

TOP = pathlib.Path(__file__).resolve().parent.parent


def toolchain(script):
    """The toolchain's command `rt` as a module, so that an edit is judged here as ./test judges it."""
    found = shutil.which("rt") or sys.exit(f"{script}: the Rattle toolchain is missing: there is no command rt on PATH")
    loader = importlib.machinery.SourceFileLoader("rt", os.path.realpath(found))
    made = importlib.util.module_from_spec(importlib.util.spec_from_loader("rt", loader))
    sys.modules["rt"] = made
    loader.exec_module(made)
    made.rtlib.guarded()
    return made


def copy_of_the_crates(folder):
    for name in ("crates.txt", "HANDLES"):
        shutil.copy(TOP / name, folder)
    subprocess.run(["cp", "--archive", str(TOP / "crates"), folder], check=True)
    return folder


def check_as_it_stands(script, crate, *flags):
    """Checks a crate of the copy, so that its edits are tried over what that kept."""
    if subprocess.run(["rt", "check", *flags], cwd=crate.folder, stdin=subprocess.DEVNULL, capture_output=True).returncode:
        sys.exit(f"{script}: {crate.name} is not proved as it stands")


def is_proved(rt, crate):
    """Whether a crate's text is proved: by a library in its out/, or where it is in the repository, by the last check of it."""
    made = getattr(rt, "places_of", lambda _crate: [])(crate)
    return crate.is_built() or (f"{TOP}/crates/{crate.name}", crate.stamp()) in made


def kept_of(crate, room):
    """A copy of what the crate's last check kept, if there is any, which the checks of its edits go on with."""
    kept = f"{room}/kept"
    if os.path.isdir(made := f"{crate.folder}/out/incremental"):
        subprocess.run(["cp", "--archive", made, kept], check=True)
    else:
        os.mkdir(kept)
    return kept


def is_unreadable(rt, outcome):
    """Whether an edit can't be applied, compiled or read, wherever it is tried."""
    return outcome is not None and outcome == getattr(rt, "BAD", None)


def is_refusal(rt, outcome):
    """Whether the prover refused an edit, as ./test counts it. Some versions of the toolchain also say whether the prover reached a limit."""
    return outcome is True or outcome in [getattr(rt, name) for name in ("REFUSED", "AT_LIMIT") if hasattr(rt, name)]


class Wrong:
    """An edit of a crate: the texts of the files that it changes, and the function whose body it changes, if that is one function."""

    def __init__(self, rt, crate, edit):
        self.crate, self.edit = crate, edit
        self.changed = rt.read_edit(edit, crate.folder)[0] or {}
        self.function = self.function_changed()

    def text_as_it_stands(self, file):
        return pathlib.Path(self.crate.folder, file).read_text()

    def function_changed(self):
        if len(self.changed) != 1:
            return None
        [(file, new)] = self.changed.items()
        old = self.text_as_it_stands(file).split("\n")
        lines = [at for at, (one, other) in enumerate(zip(old, new.split("\n")), 1) if one != other]
        if not file.startswith("src/") or len(old) != new.count("\n") + 1:
            return None
        functions = [one for one in Source(file, "\n".join(old)).functions() if one.body <= lines[0] and lines[-1] <= one.last]
        return functions[0] if len(functions) == 1 and not functions[0].has_namesake else None

    def put_into(self, texts):
        """Puts what it changes into these texts of files, which have changes of other functions."""
        [(file, new)] = self.changed.items()
        old = self.text_as_it_stands(file).split("\n")
        lines = texts.get(file, "\n".join(old)).split("\n")
        for at, (one, other) in enumerate(zip(old, new.split("\n"))):
            if one != other:
                lines[at] = other
        texts[file] = "\n".join(lines)


def in_different_functions(wrongs):
    """Lists of edits. The edits of one list are in the bodies of different functions; an edit that is in no body is in no list."""
    lists, had = [], collections.Counter()
    for wrong in wrongs:
        if wrong.function:
            if had[wrong.function] == len(lists):
                lists.append([])
            lists[had[wrong.function]].append(wrong)
            had[wrong.function] += 1
    return lists


def refused_together(rt, crate, wrongs, kept):
    """Those of these edits, which are in different functions, that the prover refuses in one check: a function is proved from the contracts
    of others alone, so each that isn't proved there is refused for its own edit. Of the others nothing is known. Those that the compiler
    or the prover can't read are left out, and the rest is tried again."""
    while len(wrongs) > 1:
        texts = {}
        for wrong in wrongs:
            wrong.put_into(texts)
        lines = rt.checked(crate, texts, ["--jobs", "1"], kept).stdout.rstrip("\n").split("\n")
        is_judged = lines[-1].startswith("logic=not-proved")
        unread = [line for line in lines if (rt.unread(line, texts) if is_judged else re.search(r"\berror\[[\w-]+\]", line))]
        if is_judged and not unread:
            return {wrong.edit: told for wrong in wrongs if (told := goal_of(wrong.function, crate, lines))}
        readable = [wrong for wrong in wrongs if not any(wrong.function.is_at(line) for line in unread)]
        if len(readable) == len(wrongs):
            return {}
        wrongs = readable
    return {}


def goal_of(function, crate, lines):
    """What the prover says first of a function that it doesn't prove, except for proofs that name what an edit took away."""
    names = r"(note: )?(\./)?proofs/.*(has no field|is not in scope|has no `|was not admitted)"
    told = [line for line in lines if function.is_at(line) and (": error" in line or line.startswith("note: ")) and not re.match(names, line)]
    is_unproved = any(function.is_unproved_by(line, crate.name) for line in lines)
    return told[0][:160] if told and is_unproved else ""
