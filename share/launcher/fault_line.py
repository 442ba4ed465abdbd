"""The line of a run fault as those look at it who tell which case of the fault it is."""

from typing import Dict, List, NamedTuple, Optional

from scene import Scene
from source_text import Declared, Reference, references
from values import Where, value_of


class Line(NamedTuple):
    """The statement of a fault: its text and its column, the line as the image executes it, and the scene."""

    text: str
    column: int
    where: Where
    scene: Scene

    def declared(self, name: str) -> Optional[Declared]:
        """Returns what a name is on the line."""
        return self.where.source.declared(name, self.where.line)

    def references(self) -> List[Reference]:
        """Returns the names of the statement with what stands in brackets behind each."""
        return list(references(self.text))

    def value(self, text: str) -> Optional[int]:
        """Returns the value of an expression, or nothing where it isn't shown."""
        return value_of(text, self.where)


class Case(NamedTuple):
    """A case of a fault: its name among the sentences, what was found for it, and what of the line it is of: the place
    from 0 in the statement and the length."""

    name: str
    found: Dict[str, object] = {}
    place: int = 0
    length: int = 1


def of_name(found: Reference, name: str, **more: object) -> Case:
    """Returns a case that is one of a name on the line."""
    return Case(name, {"thing": found.text, "name": found.name, **more}, found.place, len(found.text))
