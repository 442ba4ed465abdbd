"""What a message of a refusal looks at: the place, its line, its statement and token, and the names of the file."""

import difflib
from functools import cached_property
from typing import Callable, Dict, Iterable, List, NamedTuple, Optional

from lexing import Spot, Statement, Token, spot_of, statements_of
from names_in_file import CLOSING, OPENING, Declared, Names, Scope, names_of
from tables import Tables
from typed import Node, Typer

_NEAR = 0.6
# Words of forms that aren't read which begin a statement that is read, or are likely names of variables.
COMMON_WORDS = ("all", "any", "count", "sum", "sign", "dim", "value", "quiet", "write")
# How the words of forms that aren't read are said, where they aren't said alone.
LEFT_WORDS = {"double": "DOUBLE PRECISION", "go": "GO TO", "goto": "GO TO", "concurrent": "DO CONCURRENT"}


class Found(NamedTuple):
    """The case of a refusal: its word in the table of cases, what stands in the places of its sentences, and the token
    to which its note speaks."""

    case: str
    values: Dict[str, str] = {}
    note_at: Optional[Token] = None


class Look:
    """A refused place of a source."""

    def __init__(self, number: str, line: int, column: int, source: List[str], tables: Tables) -> None:
        self.number = number
        self.line = line
        self.column = column
        self.source = source
        self.tables = tables

    @cached_property
    def text(self) -> str:
        """The line of the place."""
        text = self.source[self.line - 1] if 0 < self.line <= len(self.source) else ""
        return text[:-1] if text.endswith("\r") else text

    @cached_property
    def rest(self) -> str:
        """The line from the place on."""
        return self.text[max(self.column - 1, 0) :]

    @cached_property
    def front(self) -> str:
        """The line before the place."""
        return self.text[: max(self.column - 1, 0)]

    @cached_property
    def statements(self) -> List[Statement]:
        """The statements of the source."""
        return statements_of(self.source)

    @cached_property
    def names(self) -> Names:
        """The names of the source."""
        return names_of(self.statements)

    @cached_property
    def spot(self) -> Optional[Spot]:
        """Where the place lies in the statements."""
        return spot_of(self.statements, self.line, self.column)

    @cached_property
    def statement(self) -> Statement:
        """The statement of the place, or nothing."""
        return self.statements[self.spot.statement] if self.spot else []

    @cached_property
    def at(self) -> int:
        """The number of the token at the place in its statement."""
        return self.spot.token if self.spot else 0

    @cached_property
    def words(self) -> List[str]:
        """The texts of the statement's tokens."""
        return [token.text for token in self.statement]

    @cached_property
    def scope(self) -> Scope:
        """The scope of the place."""
        return self.names.scope_at(self.spot.statement if self.spot else 0)

    @cached_property
    def forest(self) -> List[Node]:
        """The expressions of the statement."""
        return Typer(self.names, self.scope, self.statement).forest()

    @cached_property
    def opened(self) -> List[int]:
        """The places of the brackets that are open before the place, the innermost last."""
        opened: List[int] = []
        for index, word in enumerate(self.words[: self.at]):
            if word in OPENING:
                opened.append(index)
            elif word in CLOSING and opened:
                opened.pop()
        return opened

    def word(self, place: int) -> str:
        """Returns the text of a token of the statement, or nothing."""
        return self.words[place] if 0 <= place < len(self.words) else ""

    @property
    def token(self) -> Optional[Token]:
        """The token at the place, or nothing just past the statement."""
        return self.statement[self.at] if self.at < len(self.statement) else None

    def shown(self, start: int, end: int) -> str:
        """Returns the tokens from one place to another of the statement as the source has them, on one line."""
        tokens = self.statement[start:end]
        if not tokens:
            return ""
        first, last = tokens[0], tokens[-1]
        if first.line != last.line:
            return " ".join(token.text for token in tokens)
        return self.source[first.line - 1][first.column - 1 : last.column + last.length - 1]

    def shown_node(self, node: Node) -> str:
        """Returns an expression as the source has it."""
        return self.shown(node.start, node.end)

    def find(self, name: str) -> Optional[Declared]:
        """Returns the declaration of a name that the place sees."""
        return self.names.find(self.scope, name)

    def seen_names(self) -> List[str]:
        """Returns the declared names that the place sees."""
        return [*self.scope.names, *self.names.scopes[0].names]


Chooser = Callable[[Look], Optional[Found]]


def near(word: str, words: Iterable[str]) -> str:
    """Returns the one of these words that is most like a word, or nothing."""
    found = difflib.get_close_matches(word, [it for it in words if it != word], 1, _NEAR)
    return found[0] if found else ""
