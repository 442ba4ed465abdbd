"""Messages in the form that the caller wants, on standard error."""

import os
from typing import List, Sequence

import trouble
from ending import Caller
from message import JSON, SARIF, TEXT, Message
from texts import tell, text_of

# What was told as lines where one log is asked for, and the log hasn't been written yet.
_kept: List[Message] = []


def rendered(caller: Caller, messages: Sequence[Message], status: int) -> str:
    """Returns the messages of a call that ends with a status: as text, one object a line, or one log."""
    if caller.form == SARIF:
        from help import VERSION  # each is read where it is needed
        from render_sarif import render_sarif

        return render_sarif(messages, VERSION, status)
    if not messages:
        return ""
    if caller.form == JSON:
        from render_json import render_json

        return render_json(messages)
    from render_text import TextRenderer, is_coloured

    return TextRenderer(is_coloured()).render(messages)


def report(caller: Caller, messages: Sequence[Message], status: int) -> None:
    """Tells the messages of a call."""
    text = rendered(caller, [*_kept, *messages], status)
    _kept.clear()
    if text:
        tell(text)


def tell_as(caller: Caller) -> None:
    """Lets the lines that the launcher tells of a build or a proof stand in the form that the caller wants: as notes,
    those of a log with the next messages."""
    if caller.form != TEXT:
        trouble.teller = lambda text: _tell_line(caller, text)


def _tell_line(caller: Caller, text: str) -> None:
    note = Message(text_of(os.fsencode(text)), "Progress", severity="note")
    if caller.form == SARIF:
        _kept.append(note)
    else:
        report(caller, [note], 0)


def tell_rest(caller: Caller, status: int) -> int:
    """Tells what is kept for a log where no messages of the call came behind it, and returns the status."""
    if _kept:
        report(caller, [], status)
    return status
