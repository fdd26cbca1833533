"""The help of `site` and of its commands, each within a screen of 24 lines of 80 columns, and its manual page."""

import textwrap

from .command_table import ABOUT, COMMANDS, COMMON, STATUSES, VARIABLES, VERSION

WIDTH = 79
HEIGHT = 24


def filled(text, indent=""):
    return textwrap.wrap(text, WIDTH, initial_indent=indent, subsequent_indent=indent, break_on_hyphens=False)


def rows(pairs, indent=2):
    """Pairs in two columns, the second one as wide as is left."""
    first = max(len(left) for left, _ in pairs) + 2
    lines = []
    for left, right in pairs:
        parts = textwrap.wrap(right, WIDTH - indent - first, break_on_hyphens=False)
        lines += [" " * indent + f"{left if place == 0 else '':{first}}{part}" for place, part in enumerate(parts)]
    return lines


def help_of_all():
    """What `site --help` prints."""
    half = -(-len(COMMANDS) // 2)
    cells = [(command.shown, command.brief) for command in COMMANDS]
    lefts, rights = cells[:half], cells[half:] + [("", "")] * (2 * half - len(COMMANDS))
    lines = [f"usage: site COMMAND [WORD..] [OPTION..]     {ABOUT}", ""]
    for (left, about), (right, about_right) in zip(lefts, rights):
        lines.append(f"  {left:12} {about:25} {right:16} {about_right}".rstrip())
    lines += ["", "Options of each command (site COMMAND --help tells its own ones):", *rows([(option.shown, option.text) for option in COMMON])]
    lines += ["Example:", "  site push public --host http://127.0.0.1:8080 --site one"]
    lines += ["Status: 0 done, 1 refused, 2 wrong words or files, 3 no host, 130 Ctrl-C"]
    return "\n".join(lines) + "\n"


def help_of(command):
    """What `site COMMAND --help` prints."""
    options = "[OPTION..] " if command.options else ""
    name, _, words = command.shown.partition(" ")
    lines = [f"usage: site {name} {options}{words}".rstrip(), "", *filled(command.text), ""]
    if command.options:
        lines += [*rows([(option.shown, option.text) for option in command.options]), ""]
    lines += ["site --help tells the options of each command.", "", "Examples:" if len(command.examples) > 1 else "Example:"]
    lines += [f"  {example}" for example in command.examples]
    return "\n".join(lines) + "\n"


def roff(text):
    """A text as roff takes it."""
    text = text.replace("\\", "\\e").replace("-", "\\-")
    return "\\&" + text if text.startswith((".", "'")) else text


def roff_rows(pairs):
    return [line for left, right in pairs for line in (".TP", f"\\fB{roff(left)}\\fR", roff(right))]


def manual():
    """The manual page, in roff (man(7))."""
    lines = [f'.TH SITE 1 "" "filehost {VERSION}" "filehost"', ".SH NAME", f"site \\- {roff(ABOUT)}", ".SH SYNOPSIS"]
    lines += ["\\fBsite\\fR \\fICOMMAND\\fR [\\fIWORD\\fR..] [\\fIOPTION\\fR..]", ".SH COMMANDS"]
    for command in COMMANDS:
        lines += [f".SS {roff('site ' + command.shown)}", roff(command.text), *roff_rows([(option.shown, option.text) for option in command.options])]
        lines += [".PP", "Example:" if len(command.examples) == 1 else "Examples:", ".PP", ".nf", *(roff("    " + example) for example in command.examples), ".fi"]
    lines += [".SH OPTIONS", "Each command takes these.", *roff_rows([(option.shown, option.text) for option in COMMON])]
    lines += [".SH EXIT STATUS", *roff_rows(STATUSES), ".SH ENVIRONMENT", *roff_rows(VARIABLES)]
    lines += [".SH FILES", *roff_rows([
        (".site.json", "in DIR or a folder above it, a JSON object with the members host, site, read, ca and user"),
        (".siteignore", "in DIR or a folder below it, names that are left out, by the rules of gitignore(5)"),
    ])]
    return "\n".join(lines) + "\n"
