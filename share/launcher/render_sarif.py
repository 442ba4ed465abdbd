"""Messages as one log of SARIF 2.1.0 (OASIS), which CI services show beside the source."""

import json
import urllib.parse
from typing import Any, Dict, Iterable, List, Optional

from message import Message, Note
from render_json import shown
from texts import bytes_of

SCHEMA = "https://docs.oasis-open.org/sarif/sarif/v2.1.0/errata01/os/schemas/sarif-schema-2.1.0.json"
# What a message without a number or a word of its own goes by.
_NO_CODE = "caf"


def render_sarif(messages: Iterable[Message], version: str, status: int) -> str:
    """Returns the log of a call. Each code is a rule of it, and each message a result."""
    kept = list(messages)
    codes = sorted({it.code or _NO_CODE for it in kept})
    driver: Dict[str, Any] = {"name": "caf", "version": version, "rules": [{"id": it} for it in codes]}
    run: Dict[str, Any] = {
        "tool": {"driver": driver},
        "invocations": [{"executionSuccessful": status == 0, "exitCode": status}],
        "columnKind": "unicodeCodePoints",
        "results": [_result(it, codes) for it in kept],
    }
    return json.dumps({"$schema": SCHEMA, "version": "2.1.0", "runs": [run]}) + "\n"


def _result(message: Message, codes: List[str]) -> Dict[str, Any]:
    """Returns a result: what helps stands behind the text, and the further places are related locations."""
    code = message.code or _NO_CODE
    text = "\n".join(shown(it) for it in (message.text, *message.helps))
    told: Dict[str, Any] = {
        "ruleId": code,
        "ruleIndex": codes.index(code),
        "level": message.severity,
        "message": {"text": text},
    }
    if message.file:
        place = Note(message.line, message.column, "", message.source_line, message.length)
        told["locations"] = [_location(message.file, place)]
    if message.notes:
        related = (_location(it.file or message.file, it) for it in message.notes)
        told["relatedLocations"] = [{"id": number, **it} for number, it in enumerate(related, 1)]
    return told


def _location(file: str, note: Note) -> Dict[str, Any]:
    """Returns a location; one without a line is the file."""
    physical: Dict[str, Any] = {"artifactLocation": {"uri": urllib.parse.quote(bytes_of(file), safe="/")}}
    if note.line:
        column = _column(note.source_line, note.column)
        end = max(_column(note.source_line, note.column + note.length), column + 1)
        physical["region"] = {"startLine": note.line, "startColumn": column, "endColumn": end}
    told: Dict[str, Any] = {"physicalLocation": physical}
    if note.text:
        told["message"] = {"text": shown(note.text)}
    return told


def _column(line: Optional[str], column: int) -> int:
    """Returns the column in characters of one in bytes."""
    if line is None or column <= 1:
        return max(column, 1)
    front = line[: column - 1]
    return len(shown(front)) + 1 + max(column - 1 - len(line), 0)
