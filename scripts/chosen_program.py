"""The program that tests and measurements run: the one that ./filehost has built, or another one, which the variable FILEHOST_PROGRAM names."""

import os
import pathlib

VARIABLE = "FILEHOST_PROGRAM"
NAMED = os.environ.get(VARIABLE)
# The one that is proved. What is about the build itself takes it, whatever the variable names.
BUILT = pathlib.Path(__file__).resolve().parent.parent / "crates/filehost/out/filehost"
PROGRAM = BUILT if NAMED is None else pathlib.Path(os.path.realpath(NAMED))
if NAMED is not None:
    # So that what is started in another folder finds the same program.
    os.environ[VARIABLE] = str(PROGRAM)


def add_program(arguments):
    arguments.add_argument("--program", type=pathlib.Path, help=f"the program, if not the one that {VARIABLE} names or ./filehost has built")


def tell_program(arguments):
    """If the variable names the program of a script, says so, or ends the script if that is no program."""
    if NAMED is None:
        return
    if not PROGRAM.is_file() or not os.access(PROGRAM, os.X_OK):
        arguments.error(f"{VARIABLE} names no executable file: {PROGRAM}")
    print(f"{arguments.prog}: the program is {PROGRAM} ({VARIABLE})", flush=True)


def expect_program(arguments, word=None):
    """The program of a script: the one that its word names, or if it has no such word, PROGRAM. Ends the script if it isn't there."""
    if word is None:
        tell_program(arguments)
    program = word or PROGRAM
    if not program.is_file():
        arguments.error(f"there is no program {program}: ./filehost builds it")
    return program
