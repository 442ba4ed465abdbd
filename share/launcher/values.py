"""What an integer expression of a source is worth on an image, as far as its text, the constants and the values that
the program tells of its variables show it."""

import ast
import re
from typing import Callable, Dict, List, NamedTuple, Optional, Tuple

from source_text import Declared, Reference, Source, split_list

Bounds = List[Tuple[int, int]]
_KIND = re.compile(r"\b([0-9]+)_\w+", re.ASCII)
_DEEPEST = 8


class Unknown(Exception):
    """The text doesn't show the value."""


class Where(NamedTuple):
    """A line of a source as an image executes it: the number of images, and the values of the main program's variables
    on this image, by their names."""

    source: Source
    line: int
    image: int
    images: int
    variables: Dict[str, List[int]]


def value_of(text: str, where: Where) -> Optional[int]:
    """Returns the value of an integer expression, or nothing where it isn't shown."""
    try:
        return _value(_tree(text), where, 0)
    except (Unknown, SyntaxError, ValueError, ZeroDivisionError, RecursionError, OverflowError):
        return None


def bounds_of(declared: Declared, where: Where) -> Optional[Bounds]:
    """Returns the bounds that a declaration tells, or nothing where it doesn't."""
    return bounds_in(declared.bounds, where)


def bounds_in(text: str, where: Where) -> Optional[Bounds]:
    """Returns bounds, as in `0:7, 3`."""
    bounds: Bounds = []
    for dimension in split_list(text):
        lower, sign, upper = dimension.partition(":")
        ends = [value_of(lower, where), value_of(upper, where)] if sign else [1, value_of(lower, where)]
        if ends[0] is None or ends[1] is None:
            return None
        bounds.append((ends[0], ends[1]))
    return bounds


def spell_bounds(bounds: Bounds) -> str:
    """Returns bounds as a declaration has them: `0:7, 3`."""
    return ", ".join(f"{upper}" if lower == 1 else f"{lower}:{upper}" for lower, upper in bounds)


def subscripts_at(offset: int, bounds: Bounds) -> Optional[List[int]]:
    """Returns the subscripts of the element at an offset, from 0, or nothing where it leaves the bounds."""
    found = []
    for lower, upper in bounds:
        extent = upper - lower + 1
        if extent <= 0:
            return None
        found.append(lower + offset % extent)
        offset //= extent
    return found if offset == 0 else None


def offset_of(reference: Reference, where: Where) -> Optional[int]:
    """Returns the offset, from 0, of an element in its array, where its text and the declaration show it."""
    if reference.subscripts is None:
        return 0
    declared = where.source.declared(reference.name, where.line)
    bounds = bounds_of(declared, where) if declared else None
    if not bounds or len(bounds) != len(reference.subscripts):
        return None
    place, step = 0, 1
    for (lower, upper), text in zip(bounds, reference.subscripts):
        value = value_of(text, where)
        if value is None:
            return None
        place += (value - lower) * step
        step *= upper - lower + 1
    return place


def _tree(text: str) -> ast.expr:
    return ast.parse(_KIND.sub(r"\1", text.strip()), mode="eval").body


def _value(tree: ast.expr, where: Where, depth: int) -> int:
    if depth > _DEEPEST:
        raise Unknown
    if isinstance(tree, ast.Constant) and isinstance(tree.value, int):
        return tree.value
    if isinstance(tree, ast.Name):
        return _named(tree.id, where, depth)
    if isinstance(tree, ast.UnaryOp) and isinstance(tree.op, (ast.UAdd, ast.USub)):
        value = _value(tree.operand, where, depth + 1)
        return -value if isinstance(tree.op, ast.USub) else value
    if isinstance(tree, ast.BinOp):
        action = _ACTIONS.get(type(tree.op))
        if action:
            return action(_value(tree.left, where, depth + 1), _value(tree.right, where, depth + 1))
    if isinstance(tree, ast.Call) and isinstance(tree.func, ast.Name) and not tree.keywords:
        return _called(tree.func.id, tree.args, where, depth)
    raise Unknown


def _named(name: str, where: Where, depth: int) -> int:
    """Returns the value of a constant, or of a scalar variable of the main program."""
    declared = where.source.declared(name, where.line)
    if declared and declared.value and declared.bounds == "" and name not in where.variables:
        return _value(_tree(declared.value), where, depth + 1)
    values = where.variables.get(name, [])
    if len(values) != 1 or where.source.unit(where.line) or (declared and declared.bounds):
        raise Unknown
    return values[0]


def _called(name: str, arguments: List[ast.expr], where: Where, depth: int) -> int:
    """Returns the value of an intrinsic function, or of an array element of the main program."""
    declared = where.source.declared(name, where.line)
    if declared:
        return _element(declared, [_value(it, where, depth + 1) for it in arguments], where)
    if name in ("this_image", "num_images") and not arguments:
        return where.image if name == "this_image" else where.images
    function = _FUNCTIONS.get(name)
    if function is None or not arguments:
        raise Unknown
    return function(*(_value(it, where, depth + 1) for it in arguments))


def _element(declared: Declared, subscripts: List[int], where: Where) -> int:
    bounds = bounds_of(declared, where)
    values = where.variables.get(declared.name, [])
    if not bounds or len(bounds) != len(subscripts) or where.source.unit(where.line):
        raise Unknown
    place, step = 0, 1
    for (lower, upper), it in zip(bounds, subscripts):
        if not lower <= it <= upper:
            raise Unknown
        place += (it - lower) * step
        step *= upper - lower + 1
    if place >= len(values):
        raise Unknown
    return values[place]


def _quotient(first: int, second: int) -> int:
    whole = abs(first) // abs(second)
    return whole if (first < 0) == (second < 0) else -whole


def _power(first: int, second: int) -> int:
    if not 0 <= second <= 63:
        raise Unknown
    return first**second


_ACTIONS: Dict[type, Callable[[int, int], int]] = {
    ast.Add: lambda first, second: first + second,
    ast.Sub: lambda first, second: first - second,
    ast.Mult: lambda first, second: first * second,
    ast.Div: _quotient,
    ast.Pow: _power,
}
_FUNCTIONS: Dict[str, Callable[..., int]] = {
    "abs": abs,
    "min": min,
    "max": max,
    "mod": lambda first, second: first - second * _quotient(first, second),
    "modulo": lambda first, second: first % second,
}
