"""What is said of an answer, as records that render_text, render_json and render_sarif write out."""

from typing import NamedTuple, Optional, Tuple

TEXT, JSON, SARIF = FORMS = ("text", "json", "sarif")


class Note(NamedTuple):
    """A further place, and what is said there: of the message's file, or of another one that is named. Line 0 is no
    place, and column 0 the first character that isn't a blank."""

    line: int
    column: int
    text: str
    source_line: Optional[str] = None
    length: int = 1
    file: str = ""


class Message(NamedTuple):
    """What is wrong, or has happened: its place in a file, or none where the file has no name; the number or the word
    behind it; lines that are shown below it; further places; and what helps.

    Lines and columns count from 1, columns in bytes; line 0 is no place in the file.
    """

    text: str
    code: str = ""
    file: str = ""
    line: int = 0
    column: int = 0
    length: int = 1
    source_line: Optional[str] = None
    shown: Tuple[str, ...] = ()
    notes: Tuple[Note, ...] = ()
    helps: Tuple[str, ...] = ()
    status: int = 0
    severity: str = "error"
