"""What a step does, in a few characters: for the columns of `show` and the labels of `picture`."""

from typing import Callable, Dict

from trace import Step


def short_text(step: Step) -> str:
    """Returns what a step does: `x:0[2]=1` defines the cell at the offset 0 of `x` on image 2, `x:0[2]->1` reads it;
    the image stands there where it is another one. `r2` is the second round of the initial team, `r2 t3/7` that of
    team 3, whose team number is 7. A status other than 0 stands behind `->`."""
    return _TEXTS.get(step.word, _as_told)(step)


def _cell(step: Step, span: str) -> str:
    return f"{span}[{step.owner}]" if step.is_remote else span


def _status(step: Step) -> str:
    """Returns the reply where it isn't that all went well."""
    return "" if step.reply in ("ok", "0") else f"->{step.reply}"


def _as_told(step: Step) -> str:
    return " ".join(step.ask) + _status(step)


def _read(step: Step) -> str:
    return f"{_cell(step, step.ask[1])}->{step.reply}"


def _write(step: Step) -> str:
    return f"{_cell(step, step.ask[1])}={' '.join(step.ask[2:])}{_status(step)}"


def _atomic(step: Step) -> str:
    """Returns an atomic action: its operands behind the cell, and the old value behind `->`."""
    operation, span, *operands = step.ask[1:]
    given = {"ref": 0, "cas": 2}.get(operation, 1)
    old = "" if operation == "define" and step.reply in ("0", "ok") else f"->{step.reply}"
    return " ".join([operation, _cell(step, span), *operands[:given]]) + old


def _at_memory(step: Step) -> str:
    return " ".join([step.word, _cell(step, step.ask[1]), *step.ask[2:]]) + _status(step)


def _wait(step: Step) -> str:
    more = [] if step.ask[2:] == ("1",) else step.ask[2:]
    return " ".join([step.word, step.ask[1], *more]) + _status(step)


def _round(step: Step, number: str) -> str:
    return f"r{number}{_of_team(step)}"


def _of_team(step: Step) -> str:
    """Returns the team of an ask, where it isn't the initial one, with its team number where the trace tells it."""
    return "" if step.team == "1" else f" t{step.ask[1]}"


def _joined(step: Step, what: str) -> str:
    """Returns an arrival at a round, or the clash with which it was answered."""
    word, _, number = step.reply.partition(" ")
    return f"{what} {_round(step, number)}" if word == "round" else f"{what}->{step.reply}"


def _arrive(step: Step) -> str:
    kind = step.ask[2]
    return _joined(step, f"{kind} team" if kind in ("form", "change", "end") else kind)


def _leave(step: Step) -> str:
    status, _, teams = step.reply.partition(" ")
    return f"leave {_round(step, step.ask[2])}" + (f" {teams}" if status == "0" and teams else _status(step))


def _gather(step: Step) -> str:
    return _joined(step, f"{step.ask[2]} {' '.join(step.ask[5:])}")


def _take(step: Step) -> str:
    status, _, values = step.reply.partition(" ")
    return f"take {_round(step, step.ask[2])}" + (f"->{values}" if status == "0" and values else _status(step))


def _asked_of_team(step: Step) -> str:
    """Returns a question to a team and its answer."""
    return " ".join([f"{step.word}{_of_team(step)}", *step.ask[2:]]) + _status(step)


def _pair(step: Step) -> str:
    return f"sync images {step.ask[1] if len(step.ask) > 1 else ''}".rstrip()


def _enter(step: Step) -> str:
    return f"critical {step.ask[1]}{_status(step)}"


def _exit(step: Step) -> str:
    return f"end critical {step.ask[1]}"


def _stop(step: Step) -> str:
    return "stop" if step.ask[1] == "0" else " ".join(step.ask)


_TEXTS: Dict[str, Callable[[Step], str]] = {
    "read": _read,
    "write": _write,
    "atomic": _atomic,
    "lock": _at_memory,
    "trylock": _at_memory,
    "unlock": _at_memory,
    "post": _at_memory,
    "wait": _wait,
    "query": _at_memory,
    "free": _at_memory,
    "arrive": _arrive,
    "leave": _leave,
    "gather": _gather,
    "take": _take,
    "failed": _asked_of_team,
    "stopped": _asked_of_team,
    "status": _asked_of_team,
    "pair": _pair,
    "enter": _enter,
    "exit": _exit,
    "stop": _stop,
}
