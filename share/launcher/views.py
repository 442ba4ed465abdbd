"""What `caf show`, `caf picture` and `caf explore` do with their words, up to the run that they show."""

from typing import Dict, List, NamedTuple, Optional, Tuple

import programs
from captured import Captured, run_captured
from children import Interrupted
from ending import DONE, NO_PROGRAM, READ_FAULT, USAGE, Caller, end_by
from given_file import Asked, CannotRead, take_file
from message import Message
from messages import Answered, messages_of
from programs_called import closing, find_for
from report import report
from texts import answer, lines_of
from trace import Kind, Run, is_trace, read_run
from view_words import OWN, ViewWords, read_view_words
from words import Wrong

VIEWS = tuple(OWN)
# The statuses with which a call ends that made no run.
NO_RUN = (1, 2, 3, 10, 11, 12, 13)


class Call(NamedTuple):
    """A call of one of the three: who calls, the way to the program, the words and FILE."""

    caller: Caller
    way: str
    words: ViewWords
    asked: Asked


class Seen(NamedTuple):
    """A run that is to be shown: its words, its steps and its end, and the lines of its source, none where only a trace
    is given."""

    title: str
    run: Run
    source: List[str]


def view(caller: Caller, way: str, words: List[str]) -> int:
    """Answers the words of a call that begins with one of the three, and returns its status."""
    read = read_view_words(words)
    if isinstance(read, Wrong):
        from usage import usage_told  # here, since most calls don't need it

        answer(f"usage: word {read.word}\n")
        report(caller, usage_told(caller, words, read.word), USAGE)
        return USAGE
    asked = Asked(read.run)
    if read.file is not None:
        try:
            asked = Asked(read.run, read.file, take_file(read.run[read.file]))
        except CannotRead as wrong:
            answer("read fault\n")
            report(caller, [Message(str(wrong), "ReadFault", status=READ_FAULT)], READ_FAULT)
            return READ_FAULT
    call = Call(caller, way, read, asked)
    try:
        if read.command == "explore":
            from explore import explore  # here, since the others don't need it

            return explore(call)
        return _show_run(call)
    except Interrupted as it:
        end_by(it.number)


def find(call: Call) -> Optional[programs.Program]:
    """Returns the program that the call runs, or nothing where there is none, which is told."""
    return find_for(call.caller, call.way)


def tell_no_run(call: Call, captured: Captured) -> int:
    """Passes on the answer of a call that made no run, with what it means, and returns its status."""
    answer(captured.text)
    answered = Answered(captured.status, lines_of(captured.text))
    report(call.caller, messages_of(call.caller, call.asked, answered), captured.status)
    return captured.status


def tell_closing(call: Call, program: programs.Program, status: int) -> None:
    """Tells what is said last of a call that ran this program and ends with this status."""
    report(call.caller, closing(program), status)


def _show_run(call: Call) -> int:
    """Shows a run: that of a trace which FILE holds, or else one that is made now."""
    source = call.asked.source()
    if is_trace(source):
        status = _answer_seen(call, Seen(call.asked.shown_name(), read_run(source), []))
        report(call.caller, [], status)
        return status
    program = find(call)
    if program is None:
        return NO_PROGRAM
    words = call.asked.words_for_program()
    captured = run_captured(program.path, ["run", "--trace", "--vars", *words[1:]], call.asked.standard_input())
    if captured.status in NO_RUN or captured.status > 128:
        return tell_no_run(call, captured)
    title = " ".join(["caf", *call.words.run])
    status = _answer_seen(call, Seen(title, read_run(captured.text), lines_of(source)))
    tell_closing(call, program, status)
    return status


def _answer_seen(call: Call, seen: Seen) -> int:
    """Answers with the columns or the page of a run."""
    if call.words.command == "show":
        from show import show  # here, since the others don't need it

        answer(show(seen.run, _choice(call.words.own), seen.source))
    else:
        from picture import page, svg  # here, since the others don't need it

        answer(svg(seen) if "--svg" in call.words.own else page(seen))
    return DONE


def _choice(own: Dict[str, str]):
    from show import Choice  # here, since the others don't need it

    images = tuple(int(it) for it in own["--image"].split(",")) if "--image" in own else ()
    last = int(own["--to"]) if "--to" in own else None
    kinds: Tuple[Kind, ...] = tuple(Kind)
    if "--only" in own:
        kinds = tuple(Kind(it) for it in own["--only"].split(","))
    return Choice(images, int(own.get("--from", "0")), last, kinds)
