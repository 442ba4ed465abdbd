"""The space-time diagram of a run as SVG: images as lanes, time downwards.

Each step is a group with the id `sN`, N its place in the trace from 1, whose title says all of it: the page finds steps
by these, and so does who tests them.
"""

from typing import Dict, Iterable, List, Optional, Sequence, Set, Tuple

from acts import short_text
from drawn_waits import foot_of, waits
from places import LEFT, ROW, TOP, Places, escaped, places_of
from segments import Segments, cells
from trace import Kind, Run, Step
from waited_for import Reason

LABEL = 24
_DEFINES = ("write", "atomic", "lock", "trylock", "unlock", "post")

STYLE = """\
svg{font:11px ui-monospace,Menlo,Consolas,monospace;background:#fff}circle{fill:#57606a}
text{fill:#1b1f24;stroke:#fff;stroke-width:3px;stroke-linejoin:round;paint-order:stroke}
.head{font-size:13px;font-weight:bold}.stamp text{fill:#656d76;text-anchor:end}
.lane,.over{stroke:#c3c9d1;stroke-width:1.5}.heads rect{fill:#fff}
.over{stroke-dasharray:2 5}.band{fill:#3d7be0;fill-opacity:.13;stroke:#3d7be0;stroke-opacity:.4}
.team{fill:#8a4fd0;stroke:#8a4fd0}.all{fill:#0d9488;stroke:#0d9488}
.stay{stroke:#3d7be0;stroke-width:5;stroke-opacity:.45}.hold{stroke:#d69e2e;stroke-width:5}
.inside{stroke:#8a4fd0;stroke-width:5;stroke-opacity:.6}
.arrow{fill:none;stroke:#2f855a;stroke-width:1.3}
.arrow.put{stroke:#c05621}
.edge{fill:none;stroke:#8a4fd0;stroke-width:1.3;stroke-dasharray:5 3;marker-end:url(#tip)}
.access circle,.atomic circle{fill:#2f855a}.put circle{fill:#c05621}.round circle,.pair circle{fill:#3d7be0}
.collective circle{fill:#0d9488}.lock circle{fill:#b7791f}.critical circle,.event circle{fill:#8a4fd0}
.bad circle{fill:#d11}.bad text,.waits{fill:#c11}.cross{stroke:#d11;stroke-width:3}
.waiting{stroke:#d11;stroke-width:3;stroke-dasharray:4 4}.awaited{fill:none;stroke:#d11;stroke-width:1.6}
.ring{fill:none;stroke:#d11;stroke-width:2.5}
.clash{stroke:#d11;stroke-width:2;stroke-dasharray:6 4;fill:none}
"""
DARK = """\
svg{background:#14181d}.heads rect{fill:#14181d}text{fill:#e6e9ed;stroke:#14181d}circle{fill:#b1bac4}
.lane,.over{stroke:#4a525c}.stamp text{fill:#8b949e}
.round circle,.pair circle{fill:#6ea3ff}.access circle,.atomic circle{fill:#56c08a}.arrow{stroke:#56c08a}
.put circle{fill:#f2955c}.arrow.put{stroke:#f2955c}.critical circle,.event circle{fill:#b78af0}.edge{stroke:#b78af0}
.bad circle{fill:#ff6b6b}.bad text,.waits{fill:#ff8a80}.waiting,.awaited,.ring,.clash,.cross{stroke:#ff6b6b}
"""


def drawing(run: Run, segments: Segments, why: Sequence[Reason], is_short: bool = False) -> str:
    """Returns the diagram, with why each image of a stuck run waits. In a short one the steps have nothing but their
    lines of the trace, of which the page makes the rest."""
    places = places_of(run)
    size = f'width="{places.width}" height="{places.foot + foot_of(why)}"'
    lines = [f'<svg xmlns="http://www.w3.org/2000/svg" id="run" {size} role="img" aria-label="the steps of the run">']
    lines += [f"<style>{STYLE}@media(prefers-color-scheme:dark){{{DARK}}}</style>", _tip()]
    lines += _lanes(places, is_short) + _bands(places, is_short) + _bars(places) + _edges(places, segments, is_short)
    lines += _arrows(places) + _race(places)
    step_of = _short_step if is_short else _step
    lines += [step_of(places, number, step) for number, step in enumerate(run.steps, 1)]
    return "\n".join(lines + waits(places, why) + _heads(places) + ["</svg>"])


def _heads(places: Places) -> List[str]:
    """Returns the names of the lanes, which the page keeps in sight."""
    lines = [f'<g class="heads"><rect width="{places.width}" height="{TOP - 4}"/>']
    lines.append(f'<g class="stamp"><text x="{LEFT - 4}" y="{TOP - 14}">stamp</text></g>')
    for image in range(1, places.run.images + 1):
        lines.append(f'<text class="head" x="{places.x(image) - 4}" y="{TOP - 14}">image {image}</text>')
    return [*lines, "</g>"]


def _tip() -> str:
    """Returns the head of the dashed arrows."""
    form = '<marker id="tip" viewBox="0 0 8 8" refX="8" refY="4" markerWidth="7" markerHeight="7" orient="auto">'
    return f'<defs>{form}<path d="M0 0L8 4L0 8z" fill="#8a4fd0"/></marker></defs>'


def _lanes(places: Places, is_short: bool) -> List[str]:
    """Returns the lane of each image: whole up to its end or failure, dotted behind it; and, but in a short drawing,
    the stamps."""
    ends: Dict[int, int] = {}
    for step in places.run.steps:
        if step.word in ("stop", "fail"):
            ends[step.image] = places.y(step)
    lines = ['<g class="stamp">']
    for stamp, row in [] if is_short else places.rows.items():
        lines.append(f'<text x="{LEFT - 4}" y="{TOP + 26 + row * ROW}">{stamp}</text>')
    lines.append("</g>")
    for image in range(1, places.run.images + 1):
        x, end = places.x(image), ends.get(image, places.foot)
        lines.append(f'<path class="lane" d="M{x} {TOP}V{end}"/>')
        if end < places.foot:
            lines.append(f'<path class="over" d="M{x} {end}V{places.foot}"/>')
    return lines


def _bands(places: Places, is_short: bool) -> List[str]:
    """Returns a band for each round: it begins where images arrive and ends where they leave. In a short drawing all of
    a kind are one path."""
    rounds: Dict[Tuple[str, str, str], List[Tuple[Step, bool]]] = {}
    for step in places.run.steps:
        if step.word in ("arrive", "gather") and step.reply.startswith("round "):
            kind = "sync" if step.word == "arrive" else "all"
            rounds.setdefault((kind, step.team, step.reply[6:]), []).append((step, True))
        elif step.word in ("leave", "take"):
            kind = "sync" if step.word == "leave" else "all"
            rounds.setdefault((kind, step.team, step.ask[2]), []).append((step, False))
    drawn: Dict[Tuple[str, str], List[str]] = {}
    for (kind, team, number), steps in rounds.items():
        style = "band all" if kind == "all" else "band" if team == "1" else "band team"
        what = f"{'a collective' if kind == 'all' else 'round'} {number} of {steps[0][0].team_told}"
        drawn.setdefault((style, "" if is_short else what), []).append(_band(places, steps))
    titled_paths = (((style, what), "".join(paths)) for (style, what), paths in drawn.items())
    return [f'<path class="{it[0]}" d="{path}"><title>{it[1]}</title></path>' for it, path in titled_paths]


def _band(places: Places, steps: List[Tuple[Step, bool]]) -> str:
    """Returns the outline of a band. An image that hasn't left it waits to the foot."""
    came = {it.image: places.y(it) for it, is_first in steps if is_first}
    left = {it.image: places.y(it) for it, is_first in steps if not is_first}
    failed = {it.image: places.y(it) for it in places.failures}
    upper, lower = [], []
    for image in sorted(came):
        x, end = places.x(image), left.get(image, max(failed.get(image, places.foot), came[image]))
        upper += [f"{x - 9} {came[image]}", f"{x + 9} {came[image]}"]
        lower += [f"{x - 9} {end}", f"{x + 9} {end}"]
    return "M" + "L".join(upper + lower[::-1]) + "z"


def _bars(places: Places) -> List[str]:
    """Returns bars for the locks that are held, the CRITICAL constructs and the waits in SYNC IMAGES: all of a kind are
    one path, which takes less room."""
    begun: Dict[Tuple[str, str], Step] = {}
    bars: Dict[str, List[str]] = {"hold": [], "inside": [], "stay": []}
    for step in places.run.steps:
        y = places.y(step)
        if step.word in ("lock", "trylock") and step.reply in ("0", "6002"):
            begun["hold", cells(step)[0]] = step
        elif step.word in ("unlock", "free"):
            bars["hold"] += _bar(places, "hold", begun.pop(("hold", cells(step)[0]), None), y)
        elif step.word in ("enter", "exit"):
            bars["inside"] += _bar(places, "inside", begun.pop(("inside", step.ask[1]), None), y)
            begun.update({("inside", step.ask[1]): step} if step.word == "enter" else {})
        elif step.word in ("pair", "unpair"):
            bars["stay"] += _bar(places, "stay", begun.pop(("stay", str(step.image)), None), y)
            begun.update({("stay", str(step.image)): step} if step.word == "pair" else {})
    for (kind, _), step in begun.items():
        bars[kind] += _bar(places, kind, step, places.foot)
    what = {"hold": "the lock is held", "inside": "in CRITICAL", "stay": "in SYNC IMAGES"}
    drawn = {kind: "".join(paths) for kind, paths in bars.items() if paths}
    return [f'<path class="{kind}" d="{path}"><title>{what[kind]}</title></path>' for kind, path in drawn.items()]


def _bar(places: Places, kind: str, first: Optional[Step], end: int) -> List[str]:
    """Returns a bar from a step on; that of SYNC IMAGES stands on the lane."""
    if first is None:
        return []
    return [f"M{places.x(first.image) - (0 if kind == 'stay' else 10)} {places.y(first)}V{end}"]


def _edges(places: Places, segments: Segments, is_short: bool) -> List[str]:
    """Returns a dashed line from each step to one that it releases: post and wait, unlock and lock, and such. In a
    short drawing all of a kind are one path."""
    drawn: Dict[str, List[str]] = {}
    for edge in segments.edges:
        source, target = places.run.steps[edge.source], places.run.steps[edge.target]
        x, to = places.x(source.image), places.x(target.image)
        y, end = places.y(source), places.y(target)
        side = 7 if to > x else -7
        path = f"M{x + side} {y}C{x + side * 5} {y + 12} {to - side * 5} {end - 12} {to - side} {end}"
        tip = f"m{-side} -3l{side} 3l{-side} 3" if is_short else ""
        drawn.setdefault(edge.kind, []).append(path + tip)
    if is_short:
        drawn = {kind: ["".join(paths)] for kind, paths in drawn.items()}
    pairs = ((kind, path) for kind, paths in drawn.items() for path in paths)
    return [f'<path class="edge" d="{path}"><title>{kind}</title></path>' for kind, path in pairs]


def _arrows(places: Places) -> List[str]:
    """Returns the arrows of all accesses of another image's memory: to it where it is defined, from it where it is
    read. All arrows of a kind are one path, which takes less room."""
    put, read = [], []
    for step in places.run.steps:
        if step.is_remote:
            x, to, y = places.x(step.image), places.x(step.owner), places.y(step)
            low = y + 7 + step.image % 4 * 2
            back = 6 if x > to else -6
            if step.word in _DEFINES:
                put.append(f"M{x} {y}V{low}H{to}m{back} -3L{to} {low}l{back} 3")
            else:
                read.append(f"M{to} {low}H{x}V{y + 5}m-3 5L{x} {y + 5}l3 5")
    return [f'<path class="arrow" d="{"".join(read)}"/>', f'<path class="arrow put" d="{"".join(put)}"/>']


def race_steps(run: Run) -> List[int]:
    """Returns the places in the trace of the two accesses of the race, from 1."""
    sides: Set[Tuple[int, int]] = set()
    if run.race:
        sides = {(it.image, it.number) for it in (run.race.first, run.race.second)}
    return [number for number, it in enumerate(run.steps, 1) if (it.image, it.number) in sides]


def _race(places: Places) -> List[str]:
    """Returns rings about the two accesses of the race, and a line between them."""
    points = [(places.x(it.image), places.y(it)) for it in (places.run.steps[at - 1] for at in race_steps(places.run))]
    if len(points) < 2:
        return []
    rings = [f'<circle class="ring" cx="{x}" cy="{y}" r="9"/>' for x, y in points]
    return [f'<path class="clash" d="M{points[0][0]} {points[0][1]}L{points[1][0]} {points[1][1]}"/>', *rings]


def titled(step: Step) -> str:
    """Returns all of a step in words."""
    where = f"stamp {step.stamp} line {step.line} {step.place}"
    return f"image {step.image} step {step.number} {where}: {step.text}"


def _step(places: Places, number: int, step: Step) -> str:
    """Returns a step: its point, its label and its title."""
    x, y = places.x(step.image), places.y(step)
    label = f"{step.line or ''} {short_text(step)}".lstrip(" ")
    label = escaped(label if len(label) <= LABEL else label[: LABEL - 2]) + ("" if len(label) <= LABEL else "&#8230;")
    mark = f'<circle cx="{x}" cy="{y}" r="4.5"/>'
    if step.word == "fail":
        mark = f'<path class="cross" d="M{x - 7} {y - 7}L{x + 7} {y + 7}M{x + 7} {y - 7}L{x - 7} {y + 7}"/>'
    title = f"<title>{escaped(titled(step))}</title>"
    text = f'<text x="{x + 12}" y="{y + 4}">{label}</text>'
    return f'<g id="s{number}" class="{_style(step)}">{title}{mark}{text}</g>'


def _short_step(_: Places, number: int, step: Step) -> str:
    """Returns a step with its line of the trace as its title."""
    line = f"{step.stamp} {step.image} {step.line} {step.place} {step.text}"
    return f'<g id="s{number}" class="{_style(step)}"><title>{escaped(line)}</title></g>'


def _style(step: Step) -> str:
    is_end = step.word in ("errorstop", "fault", "limit") or step.reply.startswith("clash")
    if is_end or step.kind is Kind.FAILURE:
        return "bad"
    return "put" if step.word == "write" else step.kind.value


def numbers(values: Iterable[int]) -> str:
    """Returns numbers as a list of JSON."""
    return "[" + ",".join(str(it) for it in values) + "]"
