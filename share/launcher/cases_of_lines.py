"""The cases of what is judged before statements are read, of lines, literals and tokens (1 to 6), and of what isn't
closed or stands too deep (8 and 9)."""

import re
from typing import Dict, Optional

from blocks import END_WORDS, SHOWN, open_blocks
from lexing import Token
from look import COMMON_WORDS, LEFT_WORDS, Chooser, Found, Look, near
from texts import bytes_of

_BYTE_ORDER_MARK = "\357\273\277"
# Characters that editors and pages put in the place of others.
_MEANT = {
    "\u201c": "`\"`",
    "\u201d": "`\"`",
    "\u2018": "`'`",
    "\u2019": "`'`",
    "\u00ab": "`\"`",
    "\u00bb": "`\"`",
    "\u2013": "`-`",
    "\u2014": "`-`",
    "\u2212": "`-`",
    "\u00d7": "`*`",
    "\u00b7": "`*`",
    "\u00f7": "`/`",
    "\u2264": "`<=`",
    "\u2265": "`>=`",
    "\u2260": "`/=`",
    "\u00a0": "a blank",
    "\u202f": "a blank",
    "\u3000": "a blank",
}
_SIGNS = {"&&": ".and.", "||": ".or.", "|": ".or.", "^": "**", "~": ".not."}
_OF_NAMES = "abcdefghijklmnopqrstuvwxyzABCDEFGHIJKLMNOPQRSTUVWXYZ0123456789_"
_DOTTED = "and or not eqv neqv eq ne lt le gt ge true false".split()
_MEANT_OPERATORS = {"xor": "neqv", "t": "true", "f": "false"}
_REAL = re.compile(r"[0-9]*\.[0-9]*(?:[eEdD][+-]?[0-9]+)?(?:_[A-Za-z0-9_]+)?")


def _character(look: Look) -> str:
    """Returns the character of UTF-8 at the place, or nothing where there is none."""
    data = bytes_of(look.rest[:4])
    for length in range(1, len(data) + 1):
        try:
            return data[:length].decode("utf-8")
        except UnicodeDecodeError:
            continue
    return ""


def _not_ascii(look: Look) -> Found:
    if (look.line, look.column) == (1, 1) and look.text.startswith(_BYTE_ORDER_MARK):
        return Found("mark")
    character = _character(look)
    shown = character.encode("utf-8").decode("latin-1")
    in_literal = bool(_open_quote(look.front))
    if not character:
        return Found("byte", {"value": str(ord(look.rest[0])) if look.rest else "above 127"})
    if character in _MEANT and not in_literal:
        meant = _MEANT[character]
        return Found("looks-like", {"token": shown if meant != "a blank" else "this blank", "instead": meant})
    return Found("in-literal" if in_literal else "character", {"token": shown})


def _open_quote(front: str) -> str:
    """Returns the quote of the literal that is open behind the front of a line, or nothing."""
    quote = ""
    for character in front:
        if quote:
            quote = "" if character == quote else quote
        elif character in "'\"":
            quote = character
        elif character == "!":
            return ""
    return quote


def _long_line(look: Look) -> Found:
    bare = re.sub(r"'[^']*'|\"[^\"]*\"", "", look.text)
    return Found("comment" if "!" in bare else "line", {"count": str(len(look.text))})


def _dangling(look: Look) -> Found:
    return Found("literal" if _open_quote(look.front) else "statement")


def _open_literal(look: Look) -> Found:
    quote = look.rest[:1]
    if look.text.rstrip(" \t").endswith("&") and len(look.rest.rstrip(" \t")) > 1:
        for number in range(look.line, len(look.source)):
            front = look.source[number].lstrip(" \t\r")
            if front and front[0] != "!":
                column = len(look.source[number]) - len(look.source[number].lstrip(" \t")) + 1
                return Found("not-taken-up", {}, Token("", number + 1, column, 1))
    if quote == "'" and re.search(r"'[A-Za-z ]*[A-Za-z]'[a-z]+[^']*\Z", look.front):
        return Found("apostrophe")
    return Found("not-closed", {"quote": quote})


def _bad_character(look: Look) -> Optional[Found]:
    """Chooses by what stands at the place and around it."""
    first = look.rest[:1]
    if _open_quote(look.front):
        return Found("control-in-literal", {"value": str(ord(first)) if first else "0"})
    if first and (first < " " or first == "\177"):
        return Found("control", {"value": str(ord(first))})
    name = re.search(r"[A-Za-z][A-Za-z0-9_]{62}\Z", look.front)
    if name and re.match("[A-Za-z0-9_]", first):
        more = len(look.rest) - len(look.rest.lstrip(_OF_NAMES))
        return Found("long-name", {"count": str(63 + more)})
    if first == "_":
        return _underscore(look)
    return (_in_left(look) or _dot(look)) if first == "." else _sign(look, first)


def _in_left(look: Look) -> Optional[Found]:
    """Chooses by the first word of the line, where it is that of a form that isn't read."""
    found = re.match(r"[ \t]*(?:[0-9]+[ \t]+)?([A-Za-z]+)\b(?![ \t]*=)", look.front)
    word = found.group(1).lower() if found else ""
    if found is None or word not in look.tables.left or word in (*COMMON_WORDS, "type"):
        return None
    values = {"word": LEFT_WORDS.get(word, word.upper()), "left": look.tables.left[word]}
    return Found("in-left", values, Token(word, look.line, found.start(1) + 1, len(word)))


def _underscore(look: Look) -> Found:
    number = re.search(r"(?<![A-Za-z0-9_])[0-9]+\Z", look.front)
    suffix = re.match("_[A-Za-z0-9_]*", look.rest)
    if number and suffix:
        return Found("kind", {"number": number.group(), "token": number.group() + suffix.group()})
    if re.search(r"\.(true|false)\.\Z", look.front, re.IGNORECASE):
        return Found("logical-kind")
    return Found("underscore")


def _sign(look: Look, first: str) -> Found:
    for sign, instead in _SIGNS.items():
        if look.rest.startswith(sign):
            return Found("operator", {"token": sign, "instead": instead})
    is_number = re.search(r"[0-9)][ \t]*\Z", look.front) or re.match(r"%[ \t]*[0-9(]", look.rest)
    if first == "%" and is_number:
        return Found("operator", {"token": first, "instead": "mod(.., ..)"})
    if first == "%":
        return Found("component", {"left": look.tables.left.get("%", "")})
    if first == "#":
        return Found("preprocessor", {"left": look.tables.left.get("include", "")})
    if first == "&":
        return Found("ampersand" if look.front.strip(" \t") else "ampersand-first")
    return Found("character", {"token": first})


def _dot(look: Look) -> Found:
    before, after = look.front[-1:], look.rest[1:2]
    operator = re.match(r"\.([A-Za-z]+)\.", look.rest)
    if operator:
        name = operator.group(1).lower()
        wanted = _MEANT_OPERATORS.get(name) or near(name, _DOTTED)
        return Found("dotted", {"token": operator.group(), **({"near": wanted} if wanted else {})})
    if after.isdigit() or (before.isdigit() and not re.search(r"[A-Za-z_][A-Za-z0-9_]*\Z", look.front)):
        return _real(look)
    word = re.match(r"\.([A-Za-z]+)", look.rest)
    if word and word.group(1).lower() in _DOTTED:
        return Found("half-operator", {"token": word.group(), "instead": f".{word.group(1).lower()}."})
    last = re.search(r"([A-Za-z]+)\Z", look.front)
    if last and last.group(1).lower() in _DOTTED:
        return Found("half-operator", {"token": f"{last.group()}.", "instead": f".{last.group(1).lower()}."})
    if last and word:
        return Found("component-by-dot", {"left": look.tables.left.get("%", "")})
    return Found("dot")


def _real(look: Look) -> Found:
    digits = re.search(r"[0-9]*\Z", look.front)
    start = len(look.front) - len(digits.group() if digits else "")
    number = _REAL.match(look.text, start)
    values = {"number": number.group() if number else ".", "left": look.tables.left.get("real", "")}
    for statement in look.statements:
        if statement[0].text in ("real", "double", "complex") and len(statement) > 1 and statement[1].text != "=":
            word = statement[0].text
            return Found("real", {**values, "word": LEFT_WORDS.get(word, word.upper())}, statement[0])
        if statement[0].line >= look.line:
            break
    return Found("real", values)


def _too_wide(look: Look) -> Found:
    digits = re.match("[0-9]*", look.rest)
    return _in_left(look) or Found("number", {"token": digits.group() if digits else ""})


def _not_closed(look: Look) -> Optional[Found]:
    if look.spot is None:
        return None
    before = look.statements[: look.spot.statement]
    heading = re.search(r"\b(subroutine|function)\b", look.rest.lower())
    if heading and any(len(it) == 1 and it[0].text == "contains" for it in before):
        return Found("procedure", {"word": heading.group().upper(), "line": str(look.line)})
    opened = open_blocks(look.statements, len(look.statements))
    for block in reversed(opened):
        if (block.token.line, block.token.column) == (look.line, look.column):
            word = SHOWN.get(block.word, block.word.upper())
            return Found("construct", {"word": word, "line": str(look.line), "end": END_WORDS[block.word]})
    return Found("program") if look.spot.statement == 0 and not opened else None


def _too_deep(look: Look) -> Found:
    if look.rest[:1] in ("(", "["):
        return Found("bracket")
    word = look.word(look.at + 2 if look.word(look.at + 1) == ":" else look.at)
    before = look.word(look.at - 1)
    begins = look.at == 0 or before == ")"
    if begins and word in ("do", "if", *SHOWN, "critical"):
        return Found("construct", {"word": SHOWN.get(word, word.upper())})
    return Found("operand")


CHOOSERS: Dict[str, Chooser] = {
    "1": _not_ascii,
    "2": _long_line,
    "3": _dangling,
    "4": _open_literal,
    "5": _bad_character,
    "6": _too_wide,
    "8": _not_closed,
    "9": _too_deep,
}
