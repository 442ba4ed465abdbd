"""Messages as JSON, one object a line."""

import json
from typing import Any, Dict, Iterable, Optional

from message import Message, Note
from texts import bytes_of


def shown(text: str) -> str:
    """Returns the characters of a text, whose bytes that are no UTF-8 are replaced."""
    return bytes_of(text).decode("utf-8", "replace")


def render_json(messages: Iterable[Message]) -> str:
    """Returns a line for each message. Lines and columns count from 1, columns in bytes, and the end column is the one
    behind the last byte; where there is no place they are null."""
    return "".join(f"{text_line(it)}\n" for it in messages)


def text_line(message: Message) -> str:
    """Returns the object of a message, in ASCII."""
    told: Dict[str, Any] = {"severity": message.severity, "code": message.code or None}
    told.update(_place(message.file, message.line, message.column, message.length))
    told["text"] = shown(message.text)
    told["notes"] = [_note(message.file, it) for it in message.notes]
    told["helps"] = [shown(it) for it in message.helps]
    told["status"] = message.status
    return json.dumps(told)


def _note(file: str, note: Note) -> Dict[str, Any]:
    return {**_place(note.file or file, note.line, note.column, note.length), "text": shown(note.text)}


def _place(file: str, line: int, column: int, length: int) -> Dict[str, Any]:
    """Returns a place, with nulls for what it hasn't."""
    told: Dict[str, Optional[Any]] = {"file": shown(file) if file else None}
    has_place = bool(file and line)
    told["line"] = line if has_place else None
    told["column"] = column if has_place else None
    told["endColumn"] = column + length if has_place else None
    return told
