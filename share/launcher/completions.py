"""The completions of bash, zsh and fish, made from the help text and from the tables of docs/use/REFUSALS.md.

What is offered: in the first place the commands and the launcher's own words, behind `run` its options and files,
behind `--explain` what there is an entry of.
"""

from __future__ import annotations

import re
from dataclasses import dataclass
from typing import Callable, List, Sequence, Tuple

from manual import Help, Item
from tables import Tables
from words import OF_A_TRACE

# How the meaning of an option begins that one of show, picture and explore has beside those of a run.
_OWN = re.compile("(show|picture|explore): ")


def known_words(tables: Tables) -> List[str]:
    """Returns the numbers, names and words that --explain has an entry of, each once, in the order of the tables."""
    words = [word for entry in tables.entries for word in (entry.key, entry.name)] + list(tables.left)
    return list(dict.fromkeys(word for word in words if re.fullmatch("[A-Za-z0-9_]+", word)))


@dataclass(frozen=True)
class Words:
    """What a completion offers: commands and the launcher's own words in the first place, and behind those that stand
    ahead of others, as --try; options behind `run`; and what --explain knows."""

    first: Tuple[Item, ...]
    ahead: Tuple[str, ...]
    options: Tuple[Item, ...]
    known: Tuple[str, ...]

    def options_of(self, command: str) -> List[Item]:
        """Returns the options of a command that takes a TRACE."""
        return [it for it in self.options if name_of(it) in OF_A_TRACE[command]]

    def taking(self, count: int) -> List[str]:
        """Returns the options that are followed by at least so many words."""
        return [name_of(it) for it in self.options if len(it.term.split()) > count]


def name_of(item: Item) -> str:
    """Returns the word itself: `run` of `caf run OPTIONS FILE`, `-n` of `-n N`."""
    return re.sub(r"^caf ", "", item.term).split()[0]


def words_of(text: Help, tables: Tables) -> Words:
    """Returns what the completions offer, each word once."""
    calls = text.items("caf ")
    first = {name_of(it): it for it in reversed(calls)}
    ahead = tuple(name_of(it) for it in calls if it.term.endswith(" WORDS"))
    in_order = tuple(first[name] for name in dict.fromkeys(map(name_of, calls)))
    options = tuple(it for it in text.items("-") if not _OWN.match(it.text))
    return Words(in_order, ahead, options, tuple(known_words(tables)))


BASH = """\
# Completion of caf for bash, made from its help text.
_caf() {
    local now=${COMP_WORDS[COMP_CWORD]} one=${COMP_WORDS[COMP_CWORD - 1]} at=1 two=
    if ((COMP_CWORD > 1)); then two=${COMP_WORDS[COMP_CWORD - 2]}; fi
    COMPREPLY=()
    while ((at < COMP_CWORD)) && [[ ${COMP_WORDS[at]} == @(AHEAD) ]]; do at=$((at + 1)); done
    if ((at == COMP_CWORD)); then
        mapfile -t COMPREPLY < <(compgen -W 'FIRST' -- "$now")
        return
    fi
    case ${COMP_WORDS[at]} in
    --explain) mapfile -t COMPREPLY < <(compgen -W 'KNOWN' -- "$now") ;;
    run | judge | replay | show | picture | explore)
        if [[ $one == @(TAKE_ONE) || $two == @(TAKE_TWO) ]]; then return; fi
        if [[ $now == -* ]]; then
            case ${COMP_WORDS[at]} in
            judge) mapfile -t COMPREPLY < <(compgen -W 'JUDGED' -- "$now") ;;
            replay) mapfile -t COMPREPLY < <(compgen -W 'REPLAYED' -- "$now") ;;
            *) mapfile -t COMPREPLY < <(compgen -W 'OPTIONS' -- "$now") ;;
            esac
            return
        fi
        ;&
    check)
        compopt -o filenames 2>/dev/null
        mapfile -t COMPREPLY < <(compgen -f -- "$now")
        ;;
    esac
}
complete -F _caf caf
"""

ZSH = """\
#compdef caf
# Completion of caf for zsh, made from its help text.
_caf() {
    local at=2
    local -a first options
    first=(FIRST)
    options=(OPTIONS)
    while ((at < CURRENT)) && [[ ${words[at]} == (AHEAD) ]]; do at=$((at + 1)); done
    if ((at == CURRENT)); then
        _describe 'what to do' first
        return
    fi
    case ${words[at]} in
    judge) options=(JUDGED) ;;
    replay) options=(REPLAYED) ;;
    esac
    case ${words[at]} in
    --explain) compadd -- KNOWN ;;
    run|judge|replay|show|picture|explore)
        if [[ ${words[CURRENT - 1]} == (TAKE_ONE) || ${words[CURRENT - 2]} == (TAKE_TWO) ]]; then return; fi
        if [[ ${words[CURRENT]} == -* ]]; then _describe -o 'options' options; else _files; fi
        ;;
    check) _files ;;
    esac
}
_caf "$@"
"""


def quoted(text: str) -> str:
    """Returns the text as one word of a shell."""
    return "'" + text.replace("'", "'\\''") + "'"


def named(items: Sequence[Item]) -> str:
    """Returns the words alone, for compgen of bash."""
    return " ".join(name_of(it) for it in items)


def described(items: Sequence[Item]) -> str:
    """Returns the words with their meanings, for _describe of zsh."""
    return " ".join(quoted(f"{name_of(it)}:{it.text}") for it in items)


def filled(frame: str, words: Words, listed: Callable[[Sequence[Item]], str]) -> str:
    """Returns a completion with its words in their places."""
    places = {
        "AHEAD": "|".join(words.ahead),
        "FIRST": listed(words.first),
        "OPTIONS": listed(words.options),
        "JUDGED": listed(words.options_of("judge")),
        "REPLAYED": listed(words.options_of("replay")),
        "KNOWN": " ".join(words.known),
        "TAKE_ONE": "|".join(words.taking(1)),
        "TAKE_TWO": "|".join(words.taking(2)),
    }
    return re.sub(rf"\b({'|'.join(places)})\b", lambda it: places[it[1]], frame)


def bash_completion(words: Words) -> str:
    """Returns the completion for bash 4 and later."""
    return filled(BASH, words, named)


def zsh_completion(words: Words) -> str:
    """Returns the completion for zsh."""
    return filled(ZSH, words, described)


def fish_option(item: Item, behind: str, more: str = "") -> str:
    """Returns the line of fish for a word that begins with `-`, behind a condition."""
    name = name_of(item)
    kind = f"-l {name[2:]}" if name.startswith("--") else f"-s {name[1:]}"
    taking = " -x" if re.search(r" \[?(?!WORDS)[A-Z]", item.term) else ""
    return f"complete -c caf -n {behind} {kind}{taking}{more} -d {quoted(item.text)}"


def fish_completion(words: Words) -> str:
    """Returns the completion for fish."""
    lines = ["# Completion of caf for fish, made from its help text.", "complete -c caf -f"]
    for item in words.first:
        name = name_of(item)
        if name.startswith("-"):
            more = f" -a {quoted(' '.join(words.known))}" if name == "--explain" else ""
            lines.append(fish_option(item, "__fish_use_subcommand", more))
        else:
            lines.append(f"complete -c caf -n __fish_use_subcommand -a {name} -d {quoted(item.text)}")
    for item in words.options:
        behind = ["run", "show", "picture", "explore", *(it for it in OF_A_TRACE if item in words.options_of(it))]
        lines.append(fish_option(item, f"'__fish_seen_subcommand_from {' '.join(behind)}'"))
    lines.append("complete -c caf -n '__fish_seen_subcommand_from run judge replay show picture explore check' -F")
    return "\n".join(lines) + "\n"
