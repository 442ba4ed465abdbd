"""What an answer of the program means: messages, each with its place, its line and what helps."""

from typing import List, NamedTuple, Sequence, Union

from ending import Caller
from ends import End, Place, read_ends
from given_file import Asked, why_unread
from message import Message, Note
from report import rendered
from texts import NO_MORE_TAKEN, bytes_of
from traced import KeptTrace
from traced_file import TraceFile

# The ends for which the trace is asked: of a refusal or of wrong words there is none, and a limit needs none.
TRACED = ("fault", "stop", "clash", "stuck", "race")
_CAF = len("caf: ")


class Answered(NamedTuple):
    """What the program answered: its status, the lines of its text that tell how the run ended, and the run's trace,
    where it was kept."""

    status: int
    lines: Sequence[str]
    trace: Union[KeptTrace, TraceFile, None] = None


def messages(caller: Caller, asked: Asked, answered: Answered) -> str:
    """Returns what an answer means, in the form that the caller wants; nothing where it needs no word."""
    return rendered(caller, messages_of(caller, asked, answered), answered.status)


def messages_of(caller: Caller, asked: Asked, answered: Answered) -> List[Message]:
    """Returns what an answer means: its status, and that a run doesn't speak for every order."""
    told = _status_messages(caller, asked, answered)
    if any(it.startswith("this order") for it in answered.lines):
        from told_order import told_order  # here, since most calls don't need it

        told += told_order(caller, asked, answered.lines, answered.status)
    return told


def _status_messages(caller: Caller, asked: Asked, answered: Answered) -> List[Message]:
    """Returns what the status of an answer means."""
    status = answered.status
    if 2 <= status <= 9 or status in (14, 15):
        return _end_messages(caller, asked, answered)
    texts = {11: NO_MORE_TAKEN[_CAF:], 12: "there was no memory for the next step"}
    if status == 10:
        unread = asked.unread()
        return [Message(why_unread(bytes_of(unread.word), unread.shown_name), "ReadFault", status=10)]
    if status == 13:
        name, most = asked.too_long()
        return [Message(f"{name} has more than {most:,} bytes", "TooLong", status=13)]
    if status > 128:
        return [Message(f"the program was ended from outside, by signal {status - 128}", "Signal", status=status)]
    names = {11: "WriteFault", 12: "NoMemory"}
    return [Message(texts[status], names[status], status=status)] if status in texts else []


def _end_messages(caller: Caller, asked: Asked, answered: Answered) -> List[Message]:
    """Returns what the lines of an end mean."""
    ends = read_ends(answered.lines)
    if not ends:
        return []
    if ends[0].kind == "usage":
        from usage import usage_told  # here, since most calls don't need it

        return usage_told(caller, asked.words, ends[0].number(0))
    if ends[0].kind == "refused":
        return [_refusal(caller, asked, ends[0])]
    if ends[0].kind in ("no run", "bad trace"):
        from told_trace import told_bad_trace, told_not_a_run  # here, since most calls don't need it

        told = told_not_a_run if ends[0].kind == "no run" else told_bad_trace
        return [told(caller, asked, ends[0].number(0))]
    return [_run_message(caller, asked, answered, ends)]


def _refusal(caller: Caller, asked: Asked, end: End) -> Message:
    """Returns what is said of a refusal. A number below 20 is that of a status too, so the hint has the name."""
    from refusals import refusal_said  # here, since a run needs none of it
    from source_text import Source
    from tables import Kind, read_tables, tables_path

    tables = read_tables(tables_path(caller.home))
    number, line, column = end.found[0], end.number(1), end.number(2)
    source = Source(asked.source())
    said = refusal_said(number, Place(line, column, ""), source.lines, tables)
    name = tables.name(Kind.REFUSAL, number)
    hint = name if int(number) < 20 else number
    return Message(
        said.text,
        f"{number} {name}",
        asked.shown_name(),
        line,
        column,
        said.length,
        source.line(line),
        notes=tuple(Note(at, place, text, source.line(at)) for at, place, text in said.notes),
        helps=(*said.helps, f"{caller.called} --explain {hint} says more"),
        status=3,
    )


def _run_message(caller: Caller, asked: Asked, answered: Answered, ends: Sequence[End]) -> Message:
    """Returns what is said of the end of a run."""
    from again import calls_again  # here, since a check needs none of it
    from scene import first_column
    from told import told_end

    told, scene = told_end(caller.home, asked, answered.trace, ends)
    text = scene.source.line(told.line)
    helps = [*told.helps, *calls_again(caller, asked.words, told.code)]
    helps.append(f"{caller.called} --explain {told.hint} says more")
    return Message(
        told.text,
        told.code,
        asked.shown_name(),
        told.line,
        told.column or first_column(text or ""),
        told.length,
        text,
        notes=told.notes,
        helps=tuple(helps),
        status=answered.status,
    )
