"""The names of a source: what its statements declare, in the main program and in each procedure, and what USE makes
accessible. Only what a message needs is read, and a statement that is refused is passed over."""

from typing import Dict, FrozenSet, Iterator, List, NamedTuple, Optional, Tuple

from lexing import Statement, Token

OPENING = ("(", "[", "(/")
CLOSING = (")", "]", "/)")
TYPES_OF_MODULE = ("event_type", "lock_type", "team_type")
KINDS_OF_MODULE = {"int32": 4, "int64": 8, "atomic_int_kind": 4, "atomic_logical_kind": 4}
_MORE_OF_MODULE = (
    "initial_team parent_team current_team stat_stopped_image stat_failed_image stat_unlocked_failed_image stat_locked "
    "stat_unlocked stat_locked_other_image"
)
NAMES_OF_MODULE = (*TYPES_OF_MODULE, *KINDS_OF_MODULE, *_MORE_OF_MODULE.split())
MODULE = "iso_fortran_env"
_ENDS = ("subroutine", "function", "program")


class Declared(NamedTuple):
    """A declared name: where it stands, its type, kind, attributes, bounds and cobounds where it has some, and the
    tokens of its first value; the type of a procedure without a result is its word, of an unknown one nothing."""

    token: Token
    type: str
    kind: int = 0
    attributes: FrozenSet[str] = frozenset()
    dims: Optional[List[Statement]] = None
    codims: Optional[List[Statement]] = None
    value: Statement = []
    statement: int = 0
    kind_tokens: Statement = []

    def rank(self) -> int:
        """Returns its rank."""
        return len(self.dims or [])

    def corank(self) -> int:
        """Returns its corank."""
        return len(self.codims or [])

    def has(self, attribute: str) -> bool:
        """Tells whether it has an attribute."""
        return attribute in self.attributes


class Scope(NamedTuple):
    """The main program or a procedure: its word, the token of its name, its first statement and the one behind its
    last, its dummy arguments, the name of its result, and what is declared in it, each name as often as it is."""

    word: str
    name: Optional[Token]
    first: int
    last: int
    dummies: List[Token]
    result: str
    names: Dict[str, List[Declared]]


class Names(NamedTuple):
    """The statements of a source, its scopes, the main program first, and of each USE the statement and its tokens."""

    statements: List[Statement]
    scopes: List[Scope]
    uses: List[Statement]

    def scope_at(self, statement: int) -> Scope:
        """Returns the scope of a statement."""
        for scope in self.scopes[1:]:
            if scope.first <= statement < scope.last:
                return scope
        return self.scopes[0]

    def find(self, scope: Scope, name: str) -> Optional[Declared]:
        """Returns the first declaration of a name that a scope sees."""
        for seen in (scope, self.scopes[0]):
            if name in seen.names:
                return seen.names[name][0]
        return None

    def procedure(self, name: str) -> Optional[Scope]:
        """Returns the procedure of a name."""
        for scope in self.scopes[1:]:
            if scope.name and scope.name.text == name:
                return scope
        return None

    def used(self) -> List[str]:
        """Returns the names that USE makes accessible."""
        names: List[str] = []
        for use in self.uses:
            if MODULE in [it.text for it in use]:
                words = [it.text for it in use]
                only = words[words.index(":") + 1 :] if "only" in words and ":" in words else list(NAMES_OF_MODULE)
                names += [it for it in only if it in NAMES_OF_MODULE]
        return names

    def value(self, tokens: Statement, scope: Scope) -> Optional[int]:
        """Returns the value of a literal or of the name of a constant, where it can be told."""
        if len(tokens) == 2 and tokens[0].text in ("-", "+"):
            value = self.value(tokens[1:], scope)
            return None if value is None else -value if tokens[0].text == "-" else value
        if len(tokens) != 1:
            return None
        word = tokens[0].text
        if tokens[0].is_number():
            return int(word.partition("_")[0])
        found = self.find(scope, word)
        if found is None:
            return KINDS_OF_MODULE.get(word)
        return self.value(found.value, scope) if found.has("parameter") and found.value[:1] != [tokens[0]] else None


def group_end(tokens: Statement, start: int) -> int:
    """Returns the place behind the bracket that closes the one at the start."""
    depth = 0
    for index in range(start, len(tokens)):
        depth += (tokens[index].text in OPENING) - (tokens[index].text in CLOSING)
        if depth <= 0:
            return index + 1
    return len(tokens)


def split(tokens: Statement, sign: str = ",") -> List[Statement]:
    """Returns the parts between the signs that stand in no bracket."""
    parts: List[Statement] = [[]]
    depth = 0
    for token in tokens:
        depth += (token.text in OPENING) - (token.text in CLOSING)
        if token.text == sign and depth == 0:
            parts.append([])
        else:
            parts[-1].append(token)
    return parts


def is_declaration(statement: Statement) -> bool:
    """Tells whether a statement is a declaration, as far as its first tokens tell."""
    words = [token.text for token in statement[:2]]
    if len(words) < 2 or words[0] not in ("integer", "logical", "type") or words[1] == "=":
        return False
    behind = group_end(statement, 1) if words[1] == "(" else 1
    if words[0] == "type" and behind == 1 or behind == len(statement):
        return False
    return statement[behind].text in ("::", ",") or statement[behind].is_name()


def heading_of(statement: Statement) -> Optional[int]:
    """Returns the place of SUBROUTINE or FUNCTION in the heading of a procedure, or nothing."""
    index = 0
    while index < len(statement) - 1 and statement[index].text in ("recursive", "integer", "logical", "type"):
        index += 1
        if statement[index].text == "(":
            index = group_end(statement, index)
    is_heading = index < len(statement) - 1 and statement[index].text in ("subroutine", "function")
    return index if is_heading and statement[index + 1].is_name() else None


def ends_unit(statement: Statement) -> bool:
    """Tells whether a statement is the END of a procedure or of the main program."""
    words = [token.text for token in statement]
    if words[0] in [f"end{it}" for it in _ENDS]:
        return len(words) < 3
    return words[0] == "end" and (len(words) == 1 or (words[1] in _ENDS and len(words) < 4))


def names_of(statements: List[Statement]) -> Names:
    """Reads the names of these statements."""
    names = Names(statements, [Scope("program", None, 0, len(statements), [], "", {})], [])
    scope = names.scopes[0]
    is_behind_contains = False
    for number, statement in enumerate(statements):
        heading = heading_of(statement) if is_behind_contains else None
        if heading is not None:
            scope = _open(names, number, statement, heading)
        elif [token.text for token in statement] == ["contains"]:
            is_behind_contains = True
        elif ends_unit(statement):
            if scope.word != "program":
                names.scopes[-1] = scope._replace(last=number + 1)
            scope = names.scopes[0]
        elif statement[0].text == "use" and len(statement) > 1 and statement[1].text in (MODULE, ",", "::"):
            names.uses.append(statement)
        elif is_declaration(statement):
            for declared in _declared(names, scope, number, statement):
                scope.names.setdefault(declared.token.text, []).append(declared)
    return names


def _open(names: Names, number: int, statement: Statement, place: int) -> Scope:
    """Opens the scope of a procedure, whose name the main program has."""
    word, name = statement[place].text, statement[place + 1]
    behind = group_end(statement, place + 2) if len(statement) > place + 2 else place + 2
    dummies = [token for token in statement[place + 3 : behind - 1] if token.is_name()]
    result = name.text if word == "function" else ""
    if [token.text for token in statement[behind : behind + 2]] == ["result", "("] and len(statement) > behind + 2:
        result = statement[behind + 2].text
    scope = Scope(word, name, number, len(names.statements), dummies, result, {})
    names.scopes[0].names.setdefault(name.text, []).append(Declared(name, word, statement=number))
    names.scopes.append(scope)
    prefix = [token for token in statement[:place] if token.text != "recursive"]
    if prefix and word == "function":
        kind_tokens = prefix[2:-1]
        type_name = prefix[2].text if prefix[0].text == "type" and len(prefix) > 2 else prefix[0].text
        declared = Declared(name, type_name, _kind(names, scope, type_name, kind_tokens), statement=number)
        scope.names.setdefault(result, []).append(declared)
    return scope


def _kind(names: Names, scope: Scope, type_name: str, tokens: Statement) -> int:
    """Returns the kind of a type, 0 where it can't be told."""
    if type_name not in ("integer", "logical") or not tokens:
        return 4
    if [token.text for token in tokens[:2]] == ["kind", "="]:
        tokens = tokens[2:]
    return names.value(tokens, scope) or 0


def _declared(names: Names, scope: Scope, number: int, statement: Statement) -> Iterator[Declared]:
    """Gives what a declaration declares."""
    behind = group_end(statement, 1) if statement[1].text == "(" else 1
    inside = statement[2 : behind - 1] if behind > 1 else []
    type_name = inside[0].text if statement[0].text == "type" and inside else statement[0].text
    kind = _kind(names, scope, type_name, inside)
    texts = [token.text for token in statement]
    entities = texts.index("::") + 1 if "::" in texts else behind
    attributes = split(statement[behind : entities - 1])[1:] if "::" in texts else []
    words, dims, codims = _attributes(attributes)
    for entity in split(statement[entities:]):
        if entity and entity[0].is_name():
            name = Declared(entity[0], type_name, kind, words, dims, codims, [], number, inside)
            yield _entity(name, entity)


def _attributes(
    attributes: List[Statement],
) -> Tuple[FrozenSet[str], Optional[List[Statement]], Optional[List[Statement]]]:
    """Returns the words of attributes, and the bounds and cobounds that they give."""
    dims: Optional[List[Statement]] = None
    codims: Optional[List[Statement]] = None
    words = []
    for attribute in attributes:
        if attribute:
            words.append(attribute[0].text)
            if attribute[0].text == "dimension":
                dims = split(attribute[2:-1])
            elif attribute[0].text == "codimension":
                codims = split(attribute[2:-1])
            elif attribute[0].text == "intent":
                words.append("".join(token.text for token in attribute[2:-1]))
    return frozenset(words), dims, codims


def _entity(declared: Declared, entity: Statement) -> Declared:
    """Adds what stands behind the name of an entity."""
    index = 1
    if index < len(entity) and entity[index].text == "(":
        behind = group_end(entity, index)
        declared = declared._replace(dims=split(entity[index + 1 : behind - 1]))
        index = behind
    if index < len(entity) and entity[index].text in ("[", "(/"):
        behind = group_end(entity, index)
        declared = declared._replace(codims=split(entity[index + 1 : behind - 1]))
        index = behind
    if index < len(entity) and entity[index].text == "=":
        declared = declared._replace(value=entity[index + 1 :])
    return declared
