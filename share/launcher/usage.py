"""Why a word of a call is wrong, by the forms and options that the help text tells."""

import re
from typing import Dict, List, NamedTuple, Optional, Sequence, Set

from ending import USAGE, Caller
from excerpts import excerpt
from help import help_lines, help_words
from message import Message
from report import rendered
from words import OF_A_TRACE, range_of

_VALUE = re.compile("[A-Z][A-Z@]*")
_RIVAL = re.compile("not beside (-[-a-z]+)")


class Form(NamedTuple):
    """What the help text says of a command or an option: its lines, the values that stand behind its word, and the
    option that excludes it."""

    lines: List[str]
    values: List[str]
    rival: Optional[str] = None

    def takes_options(self) -> bool:
        """Tells whether a line of the form has OPTIONS."""
        return any(" OPTIONS " in line for line in self.lines)

    def files(self) -> List[str]:
        """Returns which files stand last: FILE, or TRACE and FILE."""
        return ["TRACE", "FILE"] if any(" TRACE FILE " in line for line in self.lines) else ["FILE"]


class Help(NamedTuple):
    """The commands and the options of the help text, by their words, in its order; and all lines of commands."""

    commands: Dict[str, Form]
    options: Dict[str, Form]
    lines: List[str]


class Words(NamedTuple):
    """What the words before the wrong one are: the options among them, how many are files, and the value that the last
    option, or the command itself, lacks."""

    given: Set[str]
    files: int
    option: str
    wanted: Optional[str]


def read_help(text: str) -> Help:
    """Reads the lines of the commands, `    caf COMMAND ..`, and of the options, `    -OPTION VALUE..  what it is`, up
    to the one on standard output."""
    told = Help({}, {}, [])
    for line in text.partition("\nStandard output")[0].split("\n"):
        if re.match("    caf [a-z]", line):
            _keep_command(told, line)
        elif line.startswith("    -"):
            words = line.split()
            rival = _RIVAL.search(line)
            told.options[words[0]] = Form([line], _values(words[1:]), rival.group(1) if rival else None)
    return told


def _keep_command(told: Help, line: str) -> None:
    """Keeps a line of a command, which may have several. One that takes no FILE takes values, as an option does."""
    words = line.split()
    told.lines.append(line)
    form = told.commands.setdefault(words[1], Form([], []))
    form.lines.append(line)
    if words[2] not in ("OPTIONS", "FILE"):
        form.values.extend(_values(words[2:]))


def _values(words: Sequence[str]) -> List[str]:
    """Returns those of the words with which they begin that are values."""
    values: List[str] = []
    for word in words:
        if not _VALUE.fullmatch(word):
            break
        values.append(word)
    return values


def _read_words(told: Help, words: Sequence[str], number: int) -> Words:
    """Reads the words before the one of a number."""
    command = told.commands.get(words[0] if words else "")
    option = words[0] if words else ""
    left = list((command or told.options.get(option) or Form([], [])).values)
    given: Set[str] = set()
    files = 0
    for word in words[1 : number - 1]:
        if left:
            left.pop(0)
        elif word in told.options and command and command.takes_options():
            option = word
            given.add(word)
            left = list(told.options[word].values)
        else:
            files += 1
    return Words(given, files, option, left[0] if left else None)


def _reason(told: Help, words: Sequence[str], number: int, before: Words) -> str:
    """Says why the word of a number is wrong, or nothing where that isn't known."""
    if number == 1:
        return "the command is " + " or ".join(told.commands)
    if before.wanted is not None:
        limits = range_of(before.option, before.wanted)
        return f"it has to be the {before.wanted} of {before.option}{limits and ', ' + limits}"
    if "--made" in before.given:
        return "nothing stands behind SIZE"
    command = told.commands.get(words[0], Form([], []))
    if command.values:
        return f"nothing stands behind {command.values[-1]}"
    wanted = command.files()[before.files :]
    if number > len(words):
        return f"it has to be {wanted[0] if wanted else 'FILE'}"
    word = words[number - 1]
    if word == "-" and word in words[: number - 1]:
        return "standard input is read once"
    if not wanted and (word == "-" or not word.startswith("-")):
        return "there is a FILE before it"
    if before.files and word in told.options and word in OF_A_TRACE.get(words[0], (word,)):
        return "no value stands behind it"
    if word == "":
        return f"{wanted[0]} is empty"
    return _reason_of_word(told, words[0], word, before.given)


def _reason_of_word(told: Help, command: str, word: str, given: Set[str]) -> str:
    """Says why a word is wrong where an option or a file may stand."""
    if word in given:
        return f"{word} stands twice"
    rival = told.options[word].rival if word in told.options else None
    if rival in given:
        return f"{word} and {rival} exclude each other"
    if word.startswith("-"):
        takes_all = command in told.commands and told.commands[command].takes_options() and command not in OF_A_TRACE
        return "there is no such option" + ("" if takes_all else f" of {command}")
    return ""


def usage_message(caller: Caller, words: Sequence[str], number: int) -> str:
    """Returns what is said of words that are wrong at that number, in the form that the caller wants."""
    return rendered(caller, usage_told(caller, words, number), USAGE)


def usage_told(caller: Caller, words: Sequence[str], number: int, is_spelt: bool = False) -> List[Message]:
    """Returns what is said of words that are wrong at that number: the wrong word with its reason, the words of the
    call with a caret below it, the form of its command (all forms where it has none), and the line of its option. Words
    that are spelt for the program aren't told by number: the call has others."""
    text, *lines = usage_lines(words, number, help_words(caller.home))
    if is_spelt and number <= len(words):
        text = text.partition(", ")[2].replace(":", " is wrong:", 1)
    helps = (f"{caller.called} --help has every word",)
    return [Message(text, "Usage", shown=tuple(lines), helps=helps, status=USAGE)]


def usage_lines(words: Sequence[str], number: int, help_text: str) -> List[str]:
    """Returns the lines of what is said."""
    told = read_help(help_text)
    before = _read_words(told, words, number)
    why = _reason(told, words, number, before)
    what = "missing" if number > len(words) else f"wrong, {words[number - 1] or repr('')}"
    front = " ".join(["caf", *words[: number - 1]])
    lines = [f"word {number} is {what}{': ' + why if why else ''}"]
    lines += excerpt("    ", " ".join(["caf", *words]), len(front) + 2)
    command = told.commands.get(words[0]) if words else None
    forms = list(told.lines) if number == 1 else (list(command.lines) if command else [""])
    if before.wanted is not None and before.option in told.options:
        forms += told.options[before.option].lines
    return lines + [line for it in forms for line in help_lines(it)]
