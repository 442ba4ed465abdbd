"""The man page, made from the help text and from the tables of docs/use/REFUSALS.md.

share/help.txt is the one text that says what the words are. Here it is read with each term on one line (help_words): a
paragraph begins at the margin, and a line of a list is indented by four blanks, a term and what it means, in two
columns.
"""

from __future__ import annotations

import re
from dataclasses import dataclass
from typing import List, NamedTuple, Sequence, Tuple, Union

from tables import Kind, Tables


class Item(NamedTuple):
    """A line of a list: a term, as `-n N`, and what it means; nothing where it is a call as an example."""

    term: str
    text: str


Block = Union[str, Tuple[Item, ...]]


@dataclass(frozen=True)
class Help:
    """The help text: its paragraphs and its lists, in their order."""

    blocks: Tuple[Block, ...]

    def lists(self) -> List[Tuple[Item, ...]]:
        """Returns the lists alone."""
        return [block for block in self.blocks if not isinstance(block, str)]

    def items(self, beginning: str) -> List[Item]:
        """Returns the lines of all lists that have two columns, the first of which begins so."""
        return [item for block in self.lists() for item in block if item.text and item.term.startswith(beginning)]


def column_of(lines: Sequence[str]) -> int:
    """Returns where the second column of a list begins, or 0 where it has none."""
    starts = [it.end() for it in (re.match(r"    \S+(?: \S+)*  +(?=\S)", line) for line in lines) if it]
    return max(set(starts), key=starts.count) if starts else 0


def item_of(line: str, column: int) -> Item:
    """Cuts a line of a list at the second column."""
    if column and len(line) > column and line[column - 1] == " ":
        return Item(line[4:column].strip(), line[column:])
    return Item(line.strip(), "")


def help_of(text: str) -> Help:
    """Reads the help text."""
    blocks: List[Block] = []
    for part in re.split(r"\n\s*\n", text.strip("\n")):
        lines = part.split("\n")
        if lines[0].startswith("    "):
            column = column_of(lines)
            blocks.append(tuple(item_of(line, column) for line in lines))
        else:
            blocks.append(" ".join(lines))
    return Help(tuple(blocks))


def roff(text: str) -> str:
    """Returns the text as a line of a man page."""
    line = text.replace("\\", "\\e").replace("-", "\\-")
    return f"\\&{line}" if line[:1] in (".", "'") else line


def man_list(items: Sequence[Item]) -> List[str]:
    """Returns a list of a man page, or its lines as they are where none has a second column."""
    if not any(item.text for item in items):
        return [".PP", ".nf", *(f"    {roff(item.term)}" for item in items), ".fi"]
    return [line for item in items for line in (".TP", f".B {roff(item.term)}", roff(item.text))]


def man_page(text: Help, tables: Tables, version: str) -> str:
    """Returns the man page, in the macros of man(7)."""
    title = roff(re.sub("^caf ", "", str(text.blocks[0])).rstrip("."))
    lines = [f'.TH CAF 1 "" "caf {version}"', ".SH NAME", f"caf \\- {title}", ".SH SYNOPSIS", ".nf"]
    lines += [*(f".B {roff(it.term)}" for it in text.lists()[0]), ".fi", ".SH DESCRIPTION"]
    for block in text.blocks[1:]:
        if block == "Examples:":
            lines += [".SH EXAMPLES"]
        elif isinstance(block, str):
            lines += [".PP", roff(block)]
        else:
            lines += [".SH OPTIONS"] if block[0].term.startswith("-") else []
            lines += man_list(block)
    lines += [".SH EXIT STATUS"]
    for status in (it for it in tables.entries if it.kind is Kind.STATUS):
        lines += [".TP", f".B {status.key} {status.name}", roff(status.meaning)]
    return "\n".join(lines) + "\n"
