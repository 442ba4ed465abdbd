"""What a call of `caf` does, from its words to its status: first what needs no program."""

import os
import signal
from typing import List

from ending import DONE, NO_PROGRAM, READ_FAULT, USAGE, WRITE_FAULT, Caller, end_by
from given_file import MOST_TRACE_BYTES, STANDARD_INPUT, Asked, CannotRead, GivenFile, take_file
from message import FORMS, TEXT, Message
from report import report, tell_as, tell_rest
from spelling import OPTION, spelt, take_form
from texts import NO_MORE_TAKEN, NothingMoreTaken, answer, keep_streams, tell, text_of, words_of_call
from words import Valid, Wrong, read_words

# The modules of the other answers are read where they are needed: a call that only answers words has to be quick.

HELP_WORDS = ("-h", "--help", "help")
VIEWS = ("show", "picture", "explore")


def main(home: str) -> int:
    """Answers the call and returns its status."""
    keep_streams()
    caller = Caller(home, text_of(os.environb.get(b"CAF_CALLED", b"")) or "./caf")
    given = words_of_call()
    caller = caller._replace(form=take_form(given)[1] or TEXT)
    tell_as(caller)
    try:
        return tell_rest(caller, _answer(caller, given))
    except NothingMoreTaken as wrong:
        if not wrong.is_quiet:
            text = NO_MORE_TAKEN[len("caf: ") :]
            report(caller, [Message(text, "WriteFault", status=WRITE_FAULT)], WRITE_FAULT)
        return WRITE_FAULT
    except KeyboardInterrupt:
        end_by(signal.SIGINT)
    except OSError as wrong:
        where = f"{os.fsdecode(wrong.filename)}: " if wrong.filename else ""
        text = text_of(os.fsencode(f"{where}{wrong.strerror}"))
        report(caller, [Message(text, "NoProgram", status=NO_PROGRAM)], NO_PROGRAM)
        return NO_PROGRAM


def _answer(caller: Caller, given: List[str]) -> int:
    """Answers the words: those of the launcher, or else those of the program."""
    words, form = take_form(given)
    if form is None:
        return _tell_wrong_form(caller, given)
    caller = caller._replace(form=form)
    first = words[0] if words else ""
    if first in HELP_WORDS or first == "--version":
        from help import help_text, version_text

        answer(version_text(caller.home) if first == "--version" else help_text(caller.home))
        return DONE
    if first == "--explain":
        return _explain(caller, words[1:])
    if first == "--which":
        import programs_called

        return programs_called.tell_which(caller)
    if first == "--prove" and len(words) == 1:
        import programs_called

        return programs_called.prove_alone(caller)
    way = first if first in ("--prove", "--try") else ""
    return _answer_command(caller, way, words[1:] if way else words)


def _answer_command(caller: Caller, way: str, words: List[str]) -> int:
    """Answers the words of a command, in the program's spelling where they come to a valid list by it."""
    told = spelt(words)
    if told and told.wants_help:
        from help import help_text

        answer(help_text(caller.home))
        return DONE
    if words[:1] and words[0] in VIEWS:
        from views import view

        return view(caller, way, told.words if told else words)
    if told and told.words[0] == "check" and _are_several(told.files):
        return _check_files(caller, way, told.files)
    if not told or told.words == words:
        return _run(caller, way, words)
    read = read_words(told.words)
    if not isinstance(read, Wrong):
        return _run(caller, way, told.words)
    from usage import usage_told

    raw = read_words(words)
    answer(f"usage: word {raw.word if isinstance(raw, Wrong) else read.word}\n")
    report(caller, usage_told(caller, told.words, read.word, True), USAGE)
    return USAGE


def _explain(caller: Caller, words: List[str]) -> int:
    """Prints what docs/use/REFUSALS.md says of a word."""
    from explain import KINDS, explain
    from sentences import read_sentences
    from tables import read_tables, tables_path

    if len(words) != 1:
        text = f"--explain takes one word of docs/use/REFUSALS.md: {KINDS}"
        report(caller, [Message(text, "Usage", status=USAGE)], USAGE)
        return USAGE
    said = explain(words[0], read_tables(tables_path(caller.home)), read_sentences(caller.home))
    if said is None:
        text = f"docs/use/REFUSALS.md has no {words[0]}; it has {KINDS}"
        report(caller, [Message(text, "Usage", status=USAGE)], USAGE)
        return USAGE
    answer(said)
    return DONE


def _are_several(files: List[str]) -> bool:
    """Tells whether these are several files to check; standard input can be read once."""
    are_named = all(not isinstance(read_words(["check", it]), Wrong) for it in files)
    return len(files) > 1 and are_named and files.count(STANDARD_INPUT) < 2


def _check_files(caller: Caller, way: str, files: List[str]) -> int:
    """Checks files one by one; the status is that of the first one that isn't ok."""
    import programs_called

    asked = []
    for it in files:
        words = ["check", it]
        try:
            asked.append(Asked(words, 1, take_file(it)))
        except CannotRead:
            asked.append(Asked(words, None, GivenFile(it, it)))
    return programs_called.run_checks(caller, way, asked)


def _tell_wrong_form(caller: Caller, words: List[str]) -> int:
    """Answers a form of messages that there isn't, as the program answers these words."""
    read = read_words(words)
    number = read.word if isinstance(read, Wrong) else len(words) + 1
    answer(f"usage: word {number}\n")
    tell(f"caf: {OPTION} is followed by {', '.join(FORMS[:-1])} or {FORMS[-1]}\n")
    return USAGE


def _run(caller: Caller, way: str, words: List[str]) -> int:
    """Runs the program with words that are valid and whose FILE can be read; the answer to others needs no program."""
    read = read_words(words)
    if isinstance(read, Wrong):
        return _tell_usage(caller, words, read.word)
    try:
        asked = _asked(words, read)
    except CannotRead as wrong:
        answer("read fault\n")
        report(caller, [Message(str(wrong), "ReadFault", status=READ_FAULT)], READ_FAULT)
        return READ_FAULT
    import programs_called

    return programs_called.run_program(caller, way, asked)


def _asked(words: List[str], read: Valid) -> Asked:
    """Takes the files of valid words: TRACE first, as the program reads it first. Only one can be its standard input;
    raises CannotRead where one can't be read."""
    if read.file is None:
        return Asked(words)
    if read.trace is None:
        return Asked(words, read.file, take_file(words[read.file]))
    trace = take_file(words[read.trace], MOST_TRACE_BYTES)
    file = take_file(words[read.file])
    if trace.kept is not None and file.kept is not None:
        file = file.by_another_name()
    return Asked(words, read.file, file, read.trace, trace)


def _tell_usage(caller: Caller, words: List[str], number: int) -> int:
    """Answers words that are wrong at that number, as the program does."""
    from usage import usage_message

    answer(f"usage: word {number}\n")
    tell(usage_message(caller, words, number))
    return USAGE
