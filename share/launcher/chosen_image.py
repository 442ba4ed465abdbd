"""The value of an image selector, as far as its text and the values of variables show it: for `waited_for.py`."""

import ast
from typing import Callable, Dict, List, Optional

_FUNCTIONS: Dict[str, Callable[..., int]] = {
    "mod": lambda a, b: a - b * _quotient(a, b),
    "modulo": lambda a, b: a % b,
    "min": min,
    "max": max,
    "abs": abs,
}


def _quotient(a: int, b: int) -> int:
    """Returns a / b as Fortran has it, towards 0."""
    return abs(a) // abs(b) * (1 if (a < 0) == (b < 0) else -1)


_OPERATORS: Dict[type, Callable[[int, int], int]] = {
    ast.Add: lambda a, b: a + b,
    ast.Sub: lambda a, b: a - b,
    ast.Mult: lambda a, b: a * b,
    ast.Div: _quotient,
}


def value_of(text: str, image: int, images: int, variables: Dict[str, int]) -> Optional[int]:
    """Returns the value of an expression of integers on an image, of so many, or nothing where it isn't known."""
    try:
        return _value(ast.parse(text.strip().lower(), mode="eval").body, image, images, variables)
    except (SyntaxError, ValueError, KeyError, TypeError, ZeroDivisionError):
        return None


def _value(node: ast.AST, image: int, images: int, variables: Dict[str, int]) -> int:
    """Returns the value of a part of an expression; raises ValueError or KeyError where it isn't known."""

    def each(nodes: List[ast.expr]) -> List[int]:
        return [_value(it, image, images, variables) for it in nodes]

    if isinstance(node, ast.Constant) and type(node.value) is int:
        return node.value
    if isinstance(node, ast.Name):
        return variables[node.id]
    if isinstance(node, ast.BinOp):
        return _OPERATORS[type(node.op)](*each([node.left, node.right]))
    if isinstance(node, ast.UnaryOp) and isinstance(node.op, (ast.USub, ast.UAdd)):
        return each([node.operand])[0] * (-1 if isinstance(node.op, ast.USub) else 1)
    if isinstance(node, ast.Call) and isinstance(node.func, ast.Name) and not node.keywords:
        if not node.args:
            return {"this_image": image, "num_images": images}[node.func.id]
        return _FUNCTIONS[node.func.id](*each(node.args))
    raise ValueError("no expression of integers")
