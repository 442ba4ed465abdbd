"""The lines that tell why a run is stuck, near the end of a program's text that comes in pieces."""

from typing import List

from texts import text_of

_MARK = b"\nwhy "


class Tail:
    """Parts the end of a text: what is passed on, and the lines of --why, which are passed on too where the call asked
    for them. The line of --every may stand behind those."""

    def __init__(self, is_passed: bool) -> None:
        self._is_passed = is_passed
        self._held = b""
        self._cut = b""

    def take(self, piece: bytes) -> bytes:
        """Takes the next piece, and returns what is passed on of the text so far."""
        if self._is_passed:
            return piece
        if self._cut:
            self._cut += piece
            return b""
        text = self._held + piece
        end = text.find(_MARK) + 1
        if end:
            self._held, self._cut = b"", text[end:]
            return text[:end]
        end = len(text) - max(it for it in range(len(_MARK)) if text.endswith(_MARK[:it]))
        self._held = text[end:]
        return text[:end]

    def rest(self) -> bytes:
        """Returns what was held back, and what stands behind the lines that are cut off, at the end of the text."""
        lines = self._cut.splitlines(True)
        self._cut = b"".join(it for it in lines if it.startswith(_MARK[1:]))
        rest = self._held + b"".join(it for it in lines if not it.startswith(_MARK[1:]))
        self._held = b""
        return rest

    def lines(self) -> List[str]:
        """Returns the lines that were cut off."""
        return text_of(self._cut).splitlines()
