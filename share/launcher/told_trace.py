"""What is said of a trace that is no run of the source, and of a line that is none of a trace."""

import re
from typing import List, Optional

from ending import Caller
from given_file import Asked
from message import Message, Note
from scene import first_column
from sentences import Sentences, read_sentences
from source_text import Source
from traced_file import TraceFile, TraceLine
from words import images_asked

# A step up to the team of its ask, with its number in form 2.
_TEAM = re.compile(r"[0-9]+ [0-9]+ [0-9]+ board (?:arrive|leave|gather|take|failed|stopped|status) [0-9]+(/-?[0-9]+)?")
_LINE = re.compile(r"[0-9]+ ([0-9]+) ([0-9]{1,9}) ")


def told_not_a_run(caller: Caller, asked: Asked, number: int) -> Message:
    """Returns what is said where the steps before the one of that number are those of a run, and it isn't the next."""
    sentences = read_sentences(caller.home)
    trace = TraceFile(asked.trace_file())
    line = trace.step(number)
    images = images_asked(asked.words)
    case = "step" if number > 1 else "first step"
    found = {"file": asked.shown_name(), "images": _images_said(images), "number": number}
    text = sentences.say("NotARun", case, **found)
    helps = [_what_differs(sentences, trace.images(), images)]
    notes = _place_in_source(sentences, asked, line)
    return _message(caller, asked, Message(text, "NotARun", notes=tuple(notes), helps=tuple(helps), status=14), line)


def told_bad_trace(caller: Caller, asked: Asked, number: int) -> Message:
    """Returns what is said of the first line by which the file is written for no trace."""
    sentences = read_sentences(caller.home)
    trace = TraceFile(asked.trace_file())
    line = trace.line(number)
    text = sentences.say("BadTrace", _what_is_bad(line, trace.images()), file=asked.shown_name())
    helps = (sentences.say("BadTrace", "help"),)
    return _message(caller, asked, Message(text, "BadTrace", helps=helps, status=15), line)


def _message(caller: Caller, asked: Asked, told: Message, line: Optional[TraceLine]) -> Message:
    """Returns a message at a line of the trace, with the word that explains it."""
    file = asked.trace_file().shown_name
    helps = (*told.helps, f"{caller.called} --explain {told.code} says more")
    if line is None:
        return told._replace(file=file, helps=helps)
    return told._replace(file=file, line=line.number, column=1, source_line=line.text, helps=helps)


def _images_said(number: int) -> str:
    return f"{number} image{'s' if number > 1 else ''}"


def _what_differs(sentences: Sentences, told: Optional[int], images: int) -> str:
    """Says which word of the call may differ from those of the run."""
    if told is not None and told != images:
        return sentences.say("NotARun", "images help", images=_images_said(told), count=told)
    return sentences.say("NotARun", "help")


def _place_in_source(sentences: Sentences, asked: Asked, line: Optional[TraceLine]) -> List[Note]:
    """Returns the place in the source that a step names, where there is such a line."""
    found = _LINE.match(line.text) if line else None
    if found is None:
        return []
    number = int(found[2])
    shown = Source(asked.source()).line(number) if number else None
    if shown is None:
        return []
    text = sentences.say("NotARun", "there", image=found[1])
    return [Note(number, first_column(shown), text, shown, file=asked.shown_name())]


def _what_is_bad(line: Optional[TraceLine], images: Optional[int]) -> str:
    """Returns the case of a line that no trace has."""
    if line is None:
        return "line"
    if line.end != "\n":
        return "carriage return" if line.end else "no line feed"
    team = _TEAM.match(line.text)
    if team and images is None and team[1]:
        return "form 2"
    if team and images is not None and not team[1]:
        return "form 1"
    return "line"
