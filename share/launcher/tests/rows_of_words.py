"""Lists of words and their usage numbers, 0 where they are valid, worked out from the contract of crates/caf_words.

The usage number is the least number of words with which no valid list begins, or one more than there are where they are
a valid list cut short. Words stand between blanks; `_` stands for the empty word.
"""

from typing import Iterator, List, Tuple

_ROWS = """
1
1 chek a.f90
1 Run a.f90
1 runs a.f90
1 _ a.f90
1 --order 0 a.f90
1 -n 4
1 a.f90
1 check\xff a.f90
1 check \xff.f90
1 run -n 4 --order 0 a\xc3.f90
1 make 1 4 \x80
0 check \xc3\xa9.f90
2 check
0 check a.f90
0 check 7
0 check check
2 check _
2 check -n 2 a.f90
2 check --trace a.f90
2 check --made 1 4
2 check -a.f90
2 check -- a.f90
3 check a.f90 b.f90
3 check a.f90 _
0 run a.f90
0 run run
0 run 4
0 run n
2 run
2 run _
2 run -a.f90
2 run --
2 run --help
3 run a.f90 b.f90
3 run a.f90 -n 4
3 run 4 a.f90
0 run -n 1 a.f90
0 run -n 256 a.f90
3 run -n
4 run -n 4
3 run -n 0 a.f90
3 run -n 257 a.f90
3 run -n 04 a.f90
3 run -n +4 a.f90
3 run -n -4 a.f90
3 run -n _ a.f90
3 run -n 4x a.f90
3 run -n 0x4 a.f90
3 run -n 4.0 a.f90
3 run -n \xd9\xa4 a.f90
3 run -n 4294967300 a.f90
3 run -n 18446744073709551620 a.f90
3 run -n 99999999999999999999999999999999999999999999 a.f90
3 run -n a.f90
3 run -n --order 0 a.f90
2 run -n4 a.f90
2 run -N 4 a.f90
4 run -n 4 -n 4 a.f90
4 run -n 4 -n
4 run -n 4 -a.f90
4 run -n 4 _
5 run -n 4 a.f90 b.f90
0 run -w 1 a.f90
0 run -w 64 a.f90
3 run -w
3 run -w 0 a.f90
3 run -w 65 a.f90
3 run -w 01 a.f90
4 run -w 2
4 run -w 2 -w 3 a.f90
4 run -w 2 --order 1 a.f90
4 run -w 2 --order
0 run --order 0 a.f90
0 run --order 2147483647 a.f90
3 run --order
3 run --order 2147483648 a.f90
3 run --order 4294967296 a.f90
3 run --order 00 a.f90
3 run --order 07 a.f90
3 run --order -1 a.f90
3 run --order +0 a.f90
3 run --order a.f90
2 run --order=0 a.f90
2 run -order 0 a.f90
2 run --orders 0 a.f90
4 run --order 0
4 run --order 0 --order 0 a.f90
4 run --order 1 -w 2 a.f90
4 run --order 1 -w
5 run --order 0 a.f90 -w
0 run --steps 1 a.f90
0 run --steps 100000000 a.f90
3 run --steps
3 run --steps 0 a.f90
3 run --steps 100000001 a.f90
3 run --steps 1e3 a.f90
4 run --steps 5 --steps 5 a.f90
4 run --steps 5
0 run --fail 1@1 a.f90
0 run --fail 256@1000000 a.f90
0 run --fail 3@1 --fail 3@1 --fail 4@9 a.f90
3 run --fail
3 run --fail 3 a.f90
3 run --fail @ a.f90
3 run --fail 3@ a.f90
3 run --fail @1 a.f90
3 run --fail _ a.f90
3 run --fail 0@1 a.f90
3 run --fail 257@1 a.f90
3 run --fail 3@0 a.f90
3 run --fail 3@1000001 a.f90
3 run --fail 03@1 a.f90
3 run --fail 3@01 a.f90
3 run --fail 3@1@1 a.f90
3 run --fail 3@+1 a.f90
5 run --fail 3@1 --fail 3 a.f90
5 run --fail 3@1 --fail
4 run --fail 3@1
0 run --trace a.f90
0 run --vars a.f90
0 run --why a.f90
0 run --why --vars --trace a.f90
0 run --every a.f90
0 run --every --why --vars --trace --fail 1@2 a.f90
0 run --vars --trace a.f90
3 run --trace
3 run --trace --trace a.f90
3 run --vars --vars a.f90
3 run --why --why a.f90
3 run --every --every a.f90
0 run --trace 1
3 run --vars _
4 run --trace 1 a.f90
4 run --vars --trace
3 run --why
4 run --vars --trace --vars a.f90
2 run --Trace a.f90
2 run --trac a.f90
0 run -n 2 -w 2 --steps 9 --fail 1@2 --trace --fail 2@2 --vars a.f90
0 run --vars --fail 1@2 --order 5 --trace --steps 9 -n 2 a.f90
13 run -n 2 -w 2 --steps 9 --fail 1@2 --trace --vars a.f90 b.f90
12 run -n 2 -w 2 --steps 9 --fail 1@2 --trace --vars
11 run -n 2 -w 2 --steps 9 --fail 1@2 --trace --order 3 a.f90
0 run --made 1 4
0 run --made 0 1
0 run --made 2147483647 4096
0 run -n 2 --order 0 --made 1 4
0 run --fail 1@1 --made 1 4
3 run --made
3 run --made a.f90
3 run --made 2147483648 4
3 run --made 01 4
4 run --made 1
4 run --made 1 0
4 run --made 1 4097
4 run --made 1 +4
4 run --made 1 _
5 run --made 1 4 a.f90
5 run --made 1 4 --vars
5 run --made 1 4 _
2 run --mad 1 4
6 run -n 2 --order 0
3 run a.f90 --made 1 4
1 Judge a.trace a.f90
1 judges a.trace a.f90
2 judge
3 judge a.trace
0 judge a.trace a.f90
0 judge a.f90 a.f90
0 judge judge replay
0 judge 1 4
2 judge _ a.f90
2 judge -a.trace a.f90
2 judge --
3 judge a.trace _
3 judge a.trace -a.f90
3 judge a.trace -n 2 a.f90
4 judge a.trace a.f90 b.f90
4 judge a.trace a.f90 _
4 judge a.trace a.f90 -n
0 judge -n 1 a.trace a.f90
0 judge -n 256 a.trace a.f90
3 judge -n
3 judge -n 0 a.trace a.f90
3 judge -n 257 a.trace a.f90
4 judge -n 2
5 judge -n 2 a.trace
4 judge -n 2 -n 2 a.trace a.f90
2 judge -w 2 a.trace a.f90
2 judge --order 0 a.trace a.f90
2 judge --trace a.trace a.f90
2 judge --vars a.trace a.f90
2 judge --why a.trace a.f90
2 judge --every a.trace a.f90
2 judge --made 1 4
4 judge -n 2 --trace a.trace a.f90
4 judge -n 2 --made 1 4
0 judge --steps 100000000 a.trace a.f90
3 judge --steps 100000001 a.trace a.f90
4 judge --steps 9 --steps 9 a.trace a.f90
0 judge --fail 256@1000000 --fail 1@1 a.trace a.f90
3 judge --fail 257@1 a.trace a.f90
5 judge --fail 1@1 --fail 1@0 a.trace a.f90
0 judge --fail 1@2 -n 2 --fail 2@2 --steps 9 a.trace a.f90
2 replay
3 replay a.trace
0 replay a.trace a.f90
4 replay a.trace a.f90 b.f90
2 replay _ a.f90
3 replay a.trace --trace a.f90
0 replay --trace a.trace a.f90
0 replay --vars a.trace a.f90
0 replay --why --vars a.trace a.f90
0 replay --every --why a.trace a.f90
0 replay --vars -n 2 --fail 1@1 --trace --steps 9 a.trace a.f90
3 replay --trace --trace a.trace a.f90
3 replay --vars --vars a.trace a.f90
3 replay --why --why a.trace a.f90
3 replay --every --every a.trace a.f90
4 replay --trace a.trace
2 replay -w 2 a.trace a.f90
2 replay --order 0 a.trace a.f90
3 replay --trace -w 2 a.trace a.f90
2 replay --made 1 4
3 replay -n 257 a.trace a.f90
1 replay \xff a.f90
0 make 0 1
0 make 2147483647 4096
2 make
2 make a.f90
2 make 2147483648 4
2 make 01 4
2 make +1 4
2 make _ 4
2 make -n 4
3 make 1
3 make 1 0
3 make 1 4097
3 make 1 04
3 make 1 _
4 make 1 4 a.f90
4 make 1 4 _
"""

# Lists with `-` as FILE, which the launcher takes as standard input; the program itself has no such name.
_STANDARD_INPUT = """
0 check -
0 run -
0 run -n 4 --order 0 -
3 check - a.f90
3 check - -
3 run - -n
5 run --order 0 - 1
3 run -n - a.f90
0 judge - a.f90
0 judge a.trace -
3 judge - -
0 replay -n 2 - a.f90
4 replay - a.f90 -
2 make -
"""


def _rows(text: str) -> Iterator[Tuple[int, List[str]]]:
    for row in text.strip("\n").split("\n"):
        number, *words = row.split(" ")
        yield int(number), ["" if word == "_" else word for word in words]


def rows() -> List[Tuple[int, List[str]]]:
    """Returns the lists on which the launcher and the program agree, each behind its number."""
    return list(_rows(_ROWS))


def rows_of_standard_input() -> List[Tuple[int, List[str]]]:
    """Returns the lists with `-` that the launcher alone reads so, each behind its number."""
    return list(_rows(_STANDARD_INPUT))
