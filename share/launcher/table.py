"""The table of `explore`: each way to end, how often, and the words that show it again."""

from textwrap import wrap
from typing import List, NamedTuple, Tuple

from tables import Kind, Tables
from ways import Way

MOST_WAYS = 12
MOST_LINES = 6
WIDTH = 79


class Table(NamedTuple):
    """What was tried in words, how many runs were made and how many were to be, and a closing line; what the ordered
    runs are counted as; the ways to end, and of each how many ordered runs, runs on workers and different texts there
    were, the failures that led to it, where runs were made with failures, and the words that show it."""

    tried: str
    made: int
    wanted: int
    closing: str
    counted: str
    ways: List[Way]
    counts: List[Tuple[int, int, int]]
    failures: List[str]
    again: List[str]
    names: Tables


def told(table: Table) -> str:
    """Returns the table as lines."""
    lines = [table.tried]
    if table.made < table.wanted:
        lines.append(f"stopped after {table.made} of these {table.wanted} runs")
    has_orders = any(it[0] for it in table.counts)
    has_workers = any(it[1] for it in table.counts)
    front = (f"{table.counted:>8}" if has_orders else "") + (f"{'workers':>9}" if has_workers else "")
    lines.append(f"{front}  end")
    for number, way in enumerate(table.ways[:MOST_WAYS]):
        orders, workers, _ = table.counts[number]
        counts = (f"{orders:8d}" if has_orders else "") + (f"{workers:9d}" if has_workers else "")
        lines += _way_lines(table, number, way, counts)
    left = table.counts[MOST_WAYS:]
    if left:
        lines.append(f"and {sum(it[0] + it[1] for it in left)} runs with {len(left)} other ends")
    lines.append(table.closing)
    return "".join(f"{it}\n" for it in lines)


def _way_lines(table: Table, number: int, way: Way, counts: str) -> List[str]:
    """Returns the lines of a way to end."""
    _, _, texts = table.counts[number]
    blank = " " * len(counts)
    name = table.names.name(Kind.STATUS, str(way.status)) or f"ended from outside, by signal {way.status - 128}"
    lines = [f"{counts}  {way.status} {name}{': ' + way.what if way.what else ''}"]
    lines += [f"{blank}    | {it}"[:WIDTH] for it in way.printed[:MOST_LINES]]
    if len(way.printed) > MOST_LINES:
        lines.append(f"{blank}    | and {len(way.printed) - MOST_LINES} more lines")
    if texts > 1:
        lines.append(f"{blank}    with {texts} different texts")
    if table.failures[number]:
        failures = wrap(f"at {table.failures[number]}", WIDTH - 4 - len(blank))
        lines += [f"{blank}    {it}" for it in failures[:MOST_LINES]]
    is_kept = table.counts[number][0] > 0
    return [*lines, f"{blank}    {table.again[number]}{'' if is_kept else ', perhaps'}"]
