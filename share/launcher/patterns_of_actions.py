"""The patterns of refusal 7 at actions and at the statements that begin a construct."""

from typing import Dict, List, Optional

from cases_of_values import assignment_start
from look import Found, Look, near
from names_in_file import group_end
from patterns_of_expressions import PAIRS, pair_of_signs
from typed import FUNCTIONS, SUBROUTINES

# The words that begin a statement of two words, and those that may follow.
SECOND_WORDS: Dict[str, List[str]] = {
    "sync": ["all", "images", "memory", "team"],
    "event": ["post", "wait"],
    "form": ["team"],
    "change": ["team"],
    "fail": ["image"],
    "error": ["stop"],
    "select": ["case"],
}
_WITH_BRACKETS = ("allocate", "deallocate", "lock", "unlock", "critical")
_OF_TWO_WORDS = ("sync images", "sync team", "form team", "change team", "event post", "event wait", "select case")
_COMPOUND = ("+", "-", "*", "/")


def at_action(look: Look) -> Optional[Found]:
    """Chooses by the first words of the action, behind the conditions of one-line IFs."""
    if look.word(0) == "if" and look.word(1) not in ("=", ""):
        found = _if(look)
        if found:
            return found
    start = assignment_start(look)
    word = look.word(start)
    if look.at <= start or word == "if":
        return None
    if look.find(word) is not None:
        return _assignment(look, start)
    readers = {"print": _print, "write": _write, "stop": _stop, "error": _stop, "do": _do, "call": _call}
    if word in readers and look.word(start + 1) != "=":
        return readers[word](look, start) or _second_word(look, start)
    return _named_do(look) or _second_word(look, start) or _brackets(look, start) or _call_missing(look, start)


def _if(look: Look) -> Optional[Found]:
    if look.at == 1:
        return Found("condition-brackets", {"word": "IF"})
    if look.word(1) != "(":
        return None
    behind = group_end(look.statement, 1)
    if look.at < behind or look.opened:
        return _equals(look, 1)
    if look.token is None and look.at == behind:
        return Found("then-missing")
    if look.word(behind) == "then" and look.at == behind + 1:
        return Found("behind-then", {"token": look.shown(look.at, look.at + 1)})
    if look.at == behind and look.token and not look.token.is_name():
        return Found("no-action", {"token": look.token.text})
    return None


def _equals(look: Look, bracket: int) -> Optional[Found]:
    """Chooses for `=` in a condition whose bracket stands at a place."""
    if look.word(look.at) != "=" or look.opened[-1:] != [bracket]:
        return None
    instead = PAIRS.get(("=", look.word(look.at + 1)))
    if instead:
        return Found("two-signs", {"token": look.shown(look.at, look.at + 2), "instead": instead})
    return pair_of_signs(look) or Found("equals")


def _print(look: Look, start: int) -> Optional[Found]:
    place = look.at - start
    token = look.token
    if place == 1:
        if token is None:
            return Found("print-alone")
        if token.is_number():
            return Found("print-label", {"token": token.text})
        items = f"print *, {look.shown(look.at, len(look.words))}"
        return Found("print-format", {"items": items} if token.is_name() else {})
    first = look.word(start + 1)
    if first == "(":
        return Found("print-brackets")
    is_format = first == "*" or first[:1] in ("'", '"')
    if place == 2 and token and is_format and token.text != "/":
        return Found("print-comma", {"token": look.shown(look.at, look.at + 1)})
    if place == 2 and look.statement[start + 1].is_name():
        return Found("print-format", {"items": f"print *, {look.shown(start + 1, len(look.words))}"})
    return None


def _write(look: Look, start: int) -> Optional[Found]:
    place = look.at - start
    if place == 1:
        return Found("write-brackets")
    if look.word(start + 1) != "(":
        return None
    if look.word(start + 2) != "*":
        return Found("write-unit")
    behind = group_end(look.statement, start + 1)
    if look.word(look.at) == ")" and place == 3:
        return Found("write-without-format")
    if place == 4:
        return Found("write-format", {"token": look.shown(look.at, look.at + 1)})
    if look.at < behind:
        return Found("write-specifier")
    return Found("write-comma") if look.at == behind and look.word(look.at) == "," else None


def _stop(look: Look, start: int) -> Optional[Found]:
    words = look.words[start : start + 2]
    is_code = look.at == start + (2 if words == ["error", "stop"] else 1)
    shown = "ERROR STOP" if words == ["error", "stop"] else "STOP"
    if is_code and look.token and look.token.is_literal() and (words[0] == "stop" or words[1:] == ["stop"]):
        return Found("stop-text", {"word": shown})
    if is_code and look.word(look.at) == "," and look.word(look.at + 1) == "quiet":
        return Found("stop-quiet", {"word": shown})
    return None


def _named_do(look: Look) -> Optional[Found]:
    """Chooses for what stands behind a construct name."""
    if look.word(1) == ":" and look.word(2) == "do":
        return _do(look, 2)
    if look.word(1) == ":" and look.at == 2 and look.word(2) in ("if", "select", "selectcase", "critical", "change"):
        return Found("construct-name", {"word": look.word(2).upper()})
    return None


def _do(look: Look, start: int) -> Optional[Found]:
    place, word = look.at - start, look.word(look.at)
    first = look.word(start + 1)
    if first == "while":
        if place == 2:
            return Found("condition-brackets", {"word": "DO WHILE"})
        if look.token and look.at == group_end(look.statement, start + 2):
            return Found("behind-statement", {"word": "DO WHILE (..)", "token": look.shown(look.at, look.at + 1)})
        return _equals(look, start + 2)
    if first == "concurrent":
        return Found("left", {"word": "DO CONCURRENT", "left": look.tables.left.get("concurrent", "")})
    if place == 1:
        if word == ",":
            return Found("do-comma-before")
        return Found("do-label") if word.isdigit() else None
    if first == "(":
        return Found("do-brackets")
    if place == 2:
        values = {"token": look.shown(look.at, look.at + 1)} if look.token else {}
        return Found("do-equals", {"name": first, **values})
    if look.word(start + 2) != "=" or look.opened or place < 4:
        return None
    commas = look.words[start + 3 : look.at].count(",")
    if word in (":", "to", "..") and commas == 0:
        return Found("do-range", {"token": word})
    return Found("do-bounds", {"name": first}) if look.token is None and commas == 0 else None


def _call(look: Look, start: int) -> Optional[Found]:
    place = look.at - start
    statement = " ".join(look.words[start + 1 : start + 3])
    first = look.word(start + 1)
    if place == 2 and first in SECOND_WORDS and look.word(start + 2) in SECOND_WORDS[first]:
        return Found("call-of-statement", {"word": statement.upper()})
    return Found("call-alone") if look.token is None and place == 1 else None


def _second_word(look: Look, start: int) -> Optional[Found]:
    """Chooses for a statement of two words whose second one is missing or unknown."""
    first, second = look.word(start), look.word(start + 1)
    if first == "select" and second == "(" and look.at >= group_end(look.statement, start + 1):
        return Found("select-without-case")
    if second == "(" and look.word(start + 2) in SECOND_WORDS.get(first, []) and look.at > start + 2:
        values = {"word": first.upper(), "both": look.shown(start, group_end(look.statement, start + 1))}
        return Found("second-word", {**values, "near": f"{first} {look.word(start + 2)}".upper()})
    if first not in SECOND_WORDS or look.at != start + 1 or second in ("=", "("):
        return None
    words = SECOND_WORDS[first]
    found = words[0] if len(words) == 1 else near(second, words) if second else ""
    values = {"word": first.upper()}
    if second:
        values["both"] = look.shown(start, start + 2)
    if found:
        return Found("second-word", {**values, "near": f"{first.upper()} {found.upper()}"})
    return Found("second-word", {**values, "there": ", ".join(f"{first.upper()} {it.upper()}" for it in words)})


def _brackets(look: Look, start: int) -> Optional[Found]:
    """Chooses for a statement that wants round brackets, and for one that ends before the place."""
    one, two = look.word(start), " ".join(look.words[start : start + 2])
    if one == "critical" and look.at == start + 1 and look.word(look.at) != "=":
        return Found("behind-statement", {"word": "CRITICAL", "token": look.shown(look.at, look.at + 1)})
    if one == "critical" and look.word(start + 1) == "(":
        return Found("critical-brackets")
    if one in _WITH_BRACKETS and look.at == start + 1 and look.word(look.at) != "=":
        return Found("statement-brackets", {"word": one.upper(), "lower": one})
    if two in _OF_TWO_WORDS and look.at == start + 2:
        return Found("statement-brackets", {"word": two.upper(), "lower": two})
    if one == "deallocate" and look.word(start + 3) in ("(", "["):
        return Found("deallocate-bounds", {"name": look.word(start + 2)})
    if one == "allocate" and look.word(start + 2) in ("integer", "logical") and look.word(start + 3) in (":", "("):
        return Found("allocate-type")
    return _behind(look, start, one, two)


def _behind(look: Look, start: int, one: str, two: str) -> Optional[Found]:
    """Chooses for what stands behind a whole statement."""
    length = 2 if two in ("sync all", "sync memory", "fail image") else 1 if one == "return" else 0
    if one in ("exit", "cycle") and look.at == start + 2:
        length = 2
    if length == 0 or look.at != start + length or look.token is None or look.token.text == "=":
        return None
    shown = look.shown(start, look.at).upper()
    return Found("behind-statement", {"word": shown, "token": look.shown(look.at, look.at + 1)})


def _call_missing(look: Look, start: int) -> Optional[Found]:
    name = look.word(start)
    procedure = look.names.procedure(name)
    values = {"name": name, "call": f"call {look.shown(start, len(look.words))}"}
    behind = group_end(look.statement, start + 1) if look.word(start + 1) == "(" else start + 1
    if look.at not in (behind, start + 1) and not (look.word(start + 1) == "(" and look.at > start + 1):
        return None
    if (procedure and procedure.word == "subroutine") or name in SUBROUTINES:
        return Found("call-missing", values)
    is_function = (procedure and procedure.word == "function") or name in FUNCTIONS
    is_whole = look.at in (behind, behind - 1) and behind == len(look.words)
    return Found("function-alone", values) if is_function and is_whole else None


def _assignment(look: Look, start: int) -> Optional[Found]:
    """Chooses for a statement that begins with a declared name."""
    name, word, ahead = look.word(start), look.word(look.at), look.word(look.at + 1)
    declared = look.find(name)
    if declared and declared.type in ("subroutine", "function"):
        return _call_missing(look, start)
    left = look.shown(start, look.at)
    if "=" in look.words[start : look.at]:
        if word == "," and not look.opened and look.word(look.at - 1) not in ("=", ","):
            return Found("behind-assignment", {"token": word})
        has_one = word == "=" and not look.opened and look.word(look.at - 1) != "="
        return Found("second-equals") if has_one else None
    if look.opened:
        return None
    if look.word(look.at - 1) == ":" and word == "=":
        return Found("colon-equals")
    if word == "==":
        return Found("compares", {"left": left})
    if word == "=>":
        return Found("pointer", {"left": look.tables.left.get("pointer", "")})
    if word in ("+", "-") and ahead == word:
        return Found("increment", {"token": word * 2, "instead": f"{left.strip()} = {left.strip()} {word} 1"})
    if word in _COMPOUND and ahead == "=":
        return Found("compound", {"token": f"{word}=", "instead": f"{left.strip()} = {left.strip()} {word} .."})
    if word == "/=":
        return Found("compound", {"token": word, "instead": f"{left.strip()} = {left.strip()} / .."})
    if look.token is None:
        return Found("variable-alone", {"name": left})
    return Found("no-equals", {"name": left}) if look.token.is_name() or look.token.is_number() else None
