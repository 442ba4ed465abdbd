"""What a run fault of numbers is of: a result that leaves its kind, and a divisor that is zero."""

import re
from typing import Iterator, Optional, Tuple

from fault_line import Case, Line, of_name
from source_text import closing, references, split_list

_OPERATOR = re.compile(r"\*\*|(?<![/(])/(?![/=)])|[-+*]")
_NAMES = {"+": "sum", "-": "difference", "*": "product", "/": "quotient", "**": "power"}
_ASSIGNMENT = re.compile(r"(?<![=<>/])=(?!=)")


def _operands(line: Line) -> Tuple[str, int]:
    """Returns the right side of an assignment, or the statement behind its first words, and its place."""
    sign = _ASSIGNMENT.search(line.text)
    first = line.references()[:1]
    if sign and first and first[0].place == 0 and not line.text.startswith("do "):
        start = sign.end()
    else:
        found = re.match(r"print[^,]*,|write[ \t]*\([^()]*\)|call[ \t]+\w+", line.text, re.ASCII)
        start = found.end() if found else 0
    start += len(line.text[start:]) - len(line.text[start:].lstrip(" \t"))
    return line.text[start:].rstrip(), start


def overflow(line: Line) -> Case:
    """A number: the result of the one operator that there is, or the value that is assigned."""
    text, place = _operands(line)
    if line.text.startswith("do ") or re.match(r"\w+[ \t]*:[ \t]*do\b", line.text):
        return Case("loop")
    if any(it.name in ("atomic_add", "atomic_fetch_add", "atomic_define") for it in line.references()):
        return Case("atomic")
    kind = _kind(line)
    text, place, value = _outside(line, text, place, kind)
    found = {"thing": text, "kind": kind, "value": value, "limit": _limit(kind, value or 0)}
    operators = [it[0] for it in _OPERATOR.finditer(text)]
    asked = [it for it in line.references() if it.name == "team_number" and it.subscripts is not None]
    if asked and value is None:
        alone = not operators and "," not in text
        return of_name(asked[0], "team number") if alone else Case("expression", found, place, len(text))
    if len(operators) == 1 and not text.startswith("-") and "," not in text:
        found["operation"] = _NAMES[operators[0]]
        return Case("operation of a value" if value is not None else "operation", found, place, len(text))
    if value is not None or (not operators and place):
        return Case("value of a number" if value is not None else "value", found, place, len(text))
    return Case("expression", found, place, len(text)) if text else Case("unknown")


def _limit(kind: int, value: int) -> str:
    """Returns the end of a kind that a value leaves: that of kind 4 where it is within kind 8."""
    bits = 31 if kind == 4 or -(2**63) <= value < 2**63 else 63
    kind = 4 if bits == 31 else 8
    return f"kind {kind} ends at {2**bits - 1}" if value > 0 else f"kind {kind} begins at {-(2**bits)}"


def _outside(line: Line, text: str, place: int, kind: int) -> Tuple[str, int, Optional[int]]:
    """Returns the one item of a list whose value is shown to leave a kind, its place and the value; or the whole list
    without a value. What is assigned may leave a smaller kind than its own."""
    for item in split_list(text):
        value = line.value(item)
        bits = 31 if line.text[:place].rstrip().endswith("=") else 8 * kind - 1
        if value is not None and not -(2**bits) <= value < 2**bits:
            return item, place + text.find(item), value
    return text, place, None


def _kind(line: Line) -> int:
    """Returns the kind of the numbers on a line: 8 where one is of kind 8."""
    declared = (line.declared(it.name) for it in line.references())
    is_long = any(it is not None and it.kind == 8 for it in declared) or "_8" in line.text
    return 8 if is_long else 4


def _divisors(line: Line) -> Iterator[Tuple[str, str]]:
    """Gives the divisors of the line, each with the text that divides by it."""
    for found in re.finditer(r"(?<![/(=])/(?![/=)])", line.text):
        behind = line.text[found.end() :].lstrip(" \t")
        if behind.startswith("("):
            yield behind[: closing(behind, 0)], line.text
        else:
            named = next(iter(references(behind)), None)
            number = re.match("[0-9]+", behind)
            yield (named.text if named and named.place == 0 else number[0] if number else behind), line.text
    for it in line.references():
        if it.name in ("mod", "modulo") and it.subscripts and len(it.subscripts) == 2:
            yield it.subscripts[1], it.text


def division(line: Line) -> Case:
    """A divisor of zero: the one that is shown to be, or the only one."""
    found = list(_divisors(line))
    zeros = [it for it in found if line.value(it[0]) == 0]
    chosen = zeros[:1] or (found if len(found) == 1 and "**" not in line.text else [])
    if chosen:
        place = line.text.rfind(chosen[0][0])
        return Case("divisor", {"thing": chosen[0][0]}, max(place, 0), len(chosen[0][0]))
    if not found and "**" in line.text:
        return Case("power")
    return Case("alone", {"things": " or ".join(it for it, _ in found)}) if found else Case("unknown")
