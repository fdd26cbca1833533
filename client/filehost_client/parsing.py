"""The words that `site` is called with. They are read here and not by argparse, which takes longer to load than most commands to run."""

from types import SimpleNamespace

from .command_table import BY_NAME, COMMON, VERSION
from .errors import WrongWords
from .names import shown


class Help(Exception):
    """A text that was asked for, and that is printed in place of a command."""


def wrong(what, name):
    return WrongWords(f"{what}: site{name and ' ' + name} --help says what it takes")


class Reader:
    """Reads options, each by its flag: `--jobs 4`, `--jobs=4` and, of one letter, `-n4`. What isn't an option is a word; after `--` all are."""

    def __init__(self, options, name=""):
        self.by_flag = {flag: option for option in options for flag in option.flags}
        self.name = name
        self.values = {}

    def read(self, words, stops_at_word=False):
        """The words that aren't options; if it stops at the first of them, with all after it."""
        left, plain = list(words), []
        while left:
            word = left.pop(0)
            if word == "--":
                return plain + left
            if word == "-" or not word.startswith("-"):
                plain.append(word)
                if stops_at_word:
                    return plain + left
            else:
                self.take(word, left)
        return plain

    def take(self, word, left):
        """Takes one option, with its value from the same word or the next one."""
        flag, equals, value = word.partition("=")
        if not word.startswith("--") and len(word) > 2:
            flag, equals, value = word[:2], "=", word[2:]
        option = self.by_flag.get(flag)
        if option is None:
            raise wrong(f"there is no option {shown(flag)}", self.name)
        if option.value is None:
            if equals:
                raise wrong(f"{flag} takes no value", self.name)
            self.values[option.name] = True
            return
        if not equals:
            if not left:
                raise wrong(f"{flag} takes a value, {option.value}", self.name)
            value = left.pop(0)
        value = self.converted(option.kind, value, flag)
        self.values[option.name] = (*self.values.get(option.name, ()), value) if option.repeats else value

    def converted(self, kind, value, what):
        try:
            return kind(value)
        except ValueError:
            raise wrong(f"{what} takes a {kind.__name__}, and not {shown(value)!r}", self.name) from None


def parse(words):
    """The command and its options. Raises Help with a text that is to be printed, and WrongWords."""
    front = Reader(COMMON)
    if words and words[0] in ("--help", "-h"):
        from .help_texts import help_of_all
        raise Help(help_of_all())
    if words and words[0] == "--version":
        raise Help(f"site {VERSION}\n")
    plain = front.read(words, stops_at_word=True)
    if not plain:
        raise WrongWords("which command? site --help lists them")
    name, *rest = plain
    if name not in BY_NAME:
        raise WrongWords(f"there is no command {shown(name)}: site --help lists them")
    return BY_NAME[name], parse_rest(BY_NAME[name], rest, front.values)


def parse_rest(command, words, values):
    """The options of a command, by their names, with its words as `word_NAME`."""
    if "--help" in words or "-h" in words:
        from .help_texts import help_of
        raise Help(help_of(command))
    reader = Reader((*COMMON, *command.options), command.name)
    plain = reader.read(words)
    least = sum(not word.is_optional for word in command.words)
    if len(plain) < least:
        raise wrong(f"{command.words[len(plain)].name} is missing", command.name)
    if len(plain) > len(command.words):
        raise wrong(f"it takes no word {shown(plain[len(command.words)])}", command.name)
    options = {option.name: default_of(option) for option in (*COMMON, *command.options)}
    options.update(values, **reader.values)
    for place, word in enumerate(command.words):
        given = reader.converted(word.kind, plain[place], word.name) if place < len(plain) else None
        options[f"word_{word.name}"] = given
    return SimpleNamespace(**options)


def default_of(option):
    return () if option.repeats else False if option.value is None else option.default
