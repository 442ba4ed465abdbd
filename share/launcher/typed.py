"""The expressions of a statement as trees, each with its type, kind and rank as far as they can be told."""

from typing import Dict, Iterator, List, NamedTuple, Optional, Tuple

from lexing import Statement, Token
from names_in_file import CLOSING, KINDS_OF_MODULE, Names, Scope

UNKNOWN = -1
_RANKS = {".eqv.": 1, ".neqv.": 1, ".or.": 2, ".and.": 3, "+": 6, "-": 6, "*": 7, "/": 7, "**": 8}
RELATIONS = ("==", "/=", "<", "<=", ">", ">=")
LOGICAL_OPERATORS = (".eqv.", ".neqv.", ".or.", ".and.", ".not.")
_RANKS.update(dict.fromkeys(RELATIONS, 5))
# The words of statements behind which an expression stands.
_WORDS = ("if", "elseif", "while", "case", "stop", "call", "images", "team")
# The most expressions within expressions that are read.
_DEEPEST = 100

FUNCTIONS: Dict[str, str] = dict.fromkeys(
    "abs mod modulo min max huge int size lbound ubound this_image num_images image_index image_status failed_images "
    "stopped_images team_number".split(),
    "integer",
)
FUNCTIONS.update({"allocated": "logical", "get_team": "team_type"})
_OF_KIND_OF_ARGUMENT = ("abs", "mod", "modulo", "min", "max", "huge")
LISTS = ("failed_images", "stopped_images")
SUBROUTINES = tuple(
    "atomic_define atomic_ref atomic_add atomic_and atomic_or atomic_xor atomic_fetch_add atomic_fetch_and "
    "atomic_fetch_or atomic_fetch_xor atomic_cas event_query co_sum co_min co_max co_broadcast".split()
)


class What(NamedTuple):
    """A type, `` where it can't be told, a kind, 0 where it can't, and a rank, UNKNOWN where it can't."""

    type: str = ""
    kind: int = 0
    rank: int = UNKNOWN


class Node(NamedTuple):
    """A part of an expression: its form, its tokens from `start` to `end`, its operator or name, its parts in their
    order, what it is, and of a designator the cosubscripts where it has some, and the specifiers behind them."""

    form: str
    start: int
    end: int
    word: str
    parts: List["Node"]
    what: What
    selector: Optional[List["Node"]] = None
    specifiers: Statement = []

    def children(self) -> List["Node"]:
        """Returns its parts and its cosubscripts."""
        return self.parts + (self.selector or [])


def walk(nodes: List[Node]) -> Iterator[Node]:
    """Gives all nodes of these trees, each before its parts."""
    waiting = list(reversed(nodes))
    while waiting:
        node = waiting.pop()
        yield node
        waiting += reversed(node.children())


class Typer:
    """Reads the expressions of a statement."""

    def __init__(self, names: Names, scope: Scope, tokens: Statement) -> None:
        self.names = names
        self.scope = scope
        self.tokens = tokens
        self.place = 0
        self.depth = 0

    def forest(self) -> List[Node]:
        """Returns all that can be read as expressions, one behind the other."""
        nodes = []
        self.place = 0
        if self._text() in ("print", "write") and self.tokens[1:2] and self.tokens[1].text != "=":
            self.place = 6 if self._text() == "write" else 2
        while self.place < len(self.tokens):
            start = self.place
            if self._text() in _WORDS and self.names.find(self.scope, self._text()) is None:
                self.place += 1
                continue
            node = self.expression(0)
            self.place = max(self.place, start + 1)
            if node.form != "odd":
                nodes.append(node)
        return nodes

    def _text(self) -> str:
        return self.tokens[self.place].text if self.place < len(self.tokens) else ""

    def at(self, place: int) -> Node:
        """Returns the expression that begins at a token."""
        self.place = place
        return self.expression(0)

    def expression(self, least: int) -> Node:
        """Reads the longest expression whose operators bind so strongly at least."""
        start, sign = self.place, self._text()
        self.depth += 1
        if self.depth > _DEEPEST:
            node = self._odd()
        elif sign in ("+", "-", ".not."):
            self.place += 1
            operand = self.expression(7 if sign != ".not." else 5)
            node = Node("prefix", start, self.place, sign, [operand], _of_operator(sign, [operand]))
        else:
            node = self._primary()
        while node.form != "odd" and _RANKS.get(self._text(), -1) >= least:
            sign = self._text()
            rank = _RANKS[sign]
            self.place += 1
            right = self.expression(rank if sign == "**" else rank + 1)
            node = Node("binary", start, self.place, sign, [node, right], _of_operator(sign, [node, right]))
        self.depth -= 1
        return node

    def _odd(self) -> Node:
        self.place += 1
        return Node("odd", self.place - 1, self.place, "", [], What())

    def _primary(self) -> Node:
        start = self.place
        if start >= len(self.tokens):
            return Node("odd", start, start, "", [], What())
        token = self.tokens[start]
        if token.is_number():
            self.place += 1
            return Node("number", start, self.place, token.text, [], What("integer", self.kind_of(token), 0))
        if token.text in (".true.", ".false."):
            self.place += 1
            return Node("logical", start, self.place, token.text, [], What("logical", 4, 0))
        if token.text in ("(", "[", "(/"):
            self.place += 1
            parts = self._list()
            if token.text == "(" and len(parts) == 1:
                return Node("brackets", start, self.place, "(", parts, parts[0].what)
            what = parts[0].what if parts else What()
            return Node("constructor", start, self.place, "[", parts, What(what.type, what.kind, 1))
        return self._designator(token) if token.is_name() else self._odd()

    def kind_of(self, number: Token) -> int:
        """Returns the kind of an integer literal."""
        suffix = number.text.partition("_")[2]
        if not suffix:
            return 4
        if suffix.isdigit():
            return int(suffix)
        declared = self.names.find(self.scope, suffix)
        value = self.names.value(declared.value, self.scope) if declared else KINDS_OF_MODULE.get(suffix)
        return value or 0

    def _list(self) -> List[Node]:
        """Reads what stands in brackets, behind the opening one, with the closing one."""
        parts: List[Node] = []
        while self.place < len(self.tokens) and self._text() not in CLOSING:
            parts.append(self._item())
            if self._text() == ",":
                self.place += 1
        self.place += 1
        return parts

    def _item(self) -> Node:
        """Reads a subscript, a triplet or an argument with its keyword."""
        start = self.place
        ahead = self.tokens[start + 1].text if start + 1 < len(self.tokens) else ""
        if self.tokens[start].is_name() and ahead == "=":
            self.place += 2
            value = self.expression(0)
            return Node("keyword", start, self.place, self.tokens[start].text, [value], value.what)
        parts = [] if self._text() == ":" else [self.expression(0)]
        if self._text() != ":":
            return parts[0]
        while self._text() == ":":
            self.place += 1
            if self._text() not in (":", ",", "") and self._text() not in CLOSING:
                parts.append(self.expression(0))
        return Node("triplet", start, self.place, ":", parts, What("integer", 4, 1))

    def _designator(self, token: Token) -> Node:
        start = self.place
        self.place += 1
        parts: Optional[List[Node]] = None
        selector: Optional[List[Node]] = None
        specifiers: Statement = []
        if self._text() == "(":
            self.place += 1
            parts = self._list()
        if self._text() in ("[", "(/") and not self._begins_value(start):
            self.place += 1
            listed = self._list()
            specifiers = [self.tokens[it.start] for it in listed if it.form == "keyword"]
            selector = listed
        what = self._what(token.text, parts)
        form = "name" if parts is None else "reference"
        return Node(form, start, self.place, token.text, parts or [], what, selector, specifiers)

    def _begins_value(self, start: int) -> bool:
        """Tells whether the bracket at the place can't belong to the name before it."""
        return start == 0 and self.tokens[0].text in ("stop", "case", "if")

    def _what(self, name: str, parts: Optional[List[Node]]) -> What:
        """Returns what a name with these parts in brackets is."""
        declared = self.names.find(self.scope, name)
        if declared is None:
            return self._of_intrinsic(name, parts)
        if declared.type == "function":
            return self._of_function(name)
        if declared.type in ("subroutine", "program"):
            return What()
        if parts is None:
            return What(declared.type, declared.kind, declared.rank())
        rank = sum(part.form == "triplet" for part in parts)
        return What(declared.type, declared.kind, rank)

    def _of_function(self, name: str) -> What:
        procedure = self.names.procedure(name)
        result = procedure.names.get(procedure.result) if procedure else None
        return What(result[0].type, result[0].kind, result[0].rank()) if result else What()

    def _of_intrinsic(self, name: str, parts: Optional[List[Node]]) -> What:
        if parts is None or name not in FUNCTIONS:
            return What()
        if name in LISTS:
            return What("integer", 4, 1)
        kind = 4
        if name in _OF_KIND_OF_ARGUMENT and parts:
            kind = 8 if 8 in [part.what.kind for part in parts] else parts[0].what.kind
        return What(FUNCTIONS[name], kind, 0)


def _of_operator(sign: str, operands: List[Node]) -> What:
    """Returns what an operator gives."""
    if sign in LOGICAL_OPERATORS or sign in RELATIONS:
        return What("logical", 4, 0)
    kinds = [operand.what.kind for operand in operands]
    return What("integer", 0 if 0 in kinds else max(kinds), 0)


def parents_of(nodes: List[Node], start: int) -> List[Tuple[Node, Node]]:
    """Returns the nodes of which a part begins at a token, each with that part, the outermost first."""
    found = []
    for node in walk(nodes):
        for part in node.children():
            if part.start == start:
                found.append((node, part))
    return found
