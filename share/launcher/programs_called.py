"""What a call of `caf` does that needs the program."""

import os
from typing import List, Optional, Sequence, Tuple

import programs
from children import Interrupted
from ending import DONE, NO_PROGRAM, READ_FAULT, Caller, end_by
from ends import End, read_ends
from given_file import Asked
from message import Message
from messages import TRACED, Answered, messages_of
from report import report
from running import run, run_again
from texts import answer, text_of
from traced import Cut, KeptTrace
from traced_file import TraceFile
from words import is_on_workers


def find_for(caller: Caller, way: str) -> Optional[programs.Program]:
    """Returns the program to run, or nothing where there is none, which is told."""
    try:
        return programs.find_program(caller.home, unproved=way == "--try")
    except programs.NoProgram as wrong:
        report(caller, [Message(text_of(os.fsencode(str(wrong))), "NoProgram", status=NO_PROGRAM)], NO_PROGRAM)
        return None


def prove_alone(caller: Caller) -> int:
    """Proves the sources and returns the status."""
    from prove import prove  # here, since most calls don't need it

    return prove(caller.home)


def tell_which(caller: Caller) -> int:
    """Prints the path of the program that a call runs, and returns the status."""
    program = find_for(caller, "")
    if program is None:
        return NO_PROGRAM
    answer(text_of(os.fsencode(program.path)) + "\n")
    return 0


def _chosen(caller: Caller, way: str) -> Tuple[Optional[programs.Program], int]:
    """Returns the program that a way leads to; or nothing, and the status with which the call ends."""
    if way != "--prove":
        return find_for(caller, way), NO_PROGRAM
    status = prove_alone(caller)
    return (None, status) if status else (programs.proved_here(caller.home), NO_PROGRAM)


def run_program(caller: Caller, way: str, asked: Asked) -> int:
    """Runs the program, tells what its answer means, and returns its status. With the way `--prove` it is proved
    before, with `--try` it is one without proof."""
    program, status = _chosen(caller, way)
    if program is None:
        return status
    try:
        answered = _answered(program.path, asked)
    except Interrupted as it:
        end_by(it.number)
    told = messages_of(caller, asked, answered) + closing(program)
    report(caller, told, answered.status)
    return answered.status


def run_checks(caller: Caller, way: str, files: Sequence[Asked]) -> int:
    """Checks files one by one, tells of each what its answer means, and returns the first status that isn't 0."""
    program, status = _chosen(caller, way)
    if program is None:
        return status
    told: List[Message] = []
    statuses = [DONE]
    try:
        for asked in files:
            answered = _checked(program.path, asked)
            told += messages_of(caller, asked, answered)
            statuses += [answered.status] if answered.status else []
    except Interrupted as it:
        end_by(it.number)
    status = statuses[1] if len(statuses) > 1 else DONE
    report(caller, told + closing(program), status)
    return status


def _checked(path: str, asked: Asked) -> Answered:
    """Checks a file; one that can't be read, which has no place among the words, is answered as the program does."""
    if asked.place is None:
        answer("read fault\n")
        return Answered(READ_FAULT, ["read fault"])
    outcome = run(path, asked.words_for_program(), asked.standard_input())
    return Answered(outcome.status, outcome.lines)


def closing(program: programs.Program) -> List[Message]:
    """Returns what is said last of a call that ran this program."""
    text = programs.closing_words(program)
    return [Message(text, "Unproved", severity="note")] if text else []


def _answered(path: str, asked: Asked) -> Answered:
    """Runs the program. A run on workers is asked for its trace and for why it is stuck, which are cut off where the
    call didn't ask for them: no other run is the same one. One in a stated order is run again for them, where its end
    is told by them, and so is a replay; a judged trace stands in its file."""
    words = asked.words_for_program()
    kept = KeptTrace()
    has_trace = is_on_workers(words)
    cut = Cut(kept, *(it in asked.options() for it in ("--vars", "--trace", "--why"))) if has_trace else None
    of_run = _traced(asked, words, ["--trace", "--why"]) if has_trace else words
    outcome = run(path, of_run, asked.standard_input(), cut)
    if words[0] == "judge":
        return Answered(outcome.status, outcome.lines, TraceFile(asked.trace_file()))
    if not has_trace and any(it.kind in TRACED for it in read_ends(outcome.lines)):
        again = run_again(path, _traced(asked, words, ["--trace", "--vars", "--why"]), asked.standard_input(), kept)
        if again.status == outcome.status and _but_why(again.lines) == _but_why(outcome.lines):
            return Answered(again.status, again.lines, kept)
        kept = KeptTrace()
    return Answered(outcome.status, outcome.lines, kept)


def _but_why(lines: Sequence[str]) -> List[End]:
    """Returns the ends that lines tell, without those that tell why a run is stuck."""
    return read_ends([it for it in lines if not it.startswith("why ")])


def _traced(asked: Asked, words: Sequence[str], options: Sequence[str]) -> List[str]:
    """Returns the words of a run with these options."""
    return [words[0], *(it for it in options if it not in asked.options()), *words[1:]]
