"""Segment order of small traces against what was worked out by hand, and the page of a run: that it parses, that it has
each step once, and that its numbers are the trace's."""

import html.parser
import json
import re
import unittest
import xml.etree.ElementTree
from typing import Dict, List, Optional, Tuple

from picture import page, svg
from segments import segments_of
from tests.test_show import RACED, STUCK
from tests.test_waited_for import CROSSED, CROSSED_SOURCE, TEAMS
from tests.test_waits import first_form
from trace import read_run
from views import Seen

SYNC = """\
trace 2 images 2
1 1 2 m1 write x:0 1 > ok
1 2 2 m2 write x:0 2 > ok
2 1 3 board arrive 1/-1 sync > round 1
3 2 3 board arrive 1/-1 sync > round 1
4 1 3 board leave 1/-1 1 > 0
5 1 4 m2 read x:0 > 2
5 2 3 board leave 1/-1 1 > 0
6 2 5 board stop 0 > ok
7 1 5 board stop 0 > ok
"""
EVENT = """\
1 1 2 m2 write x:0 1 > ok
2 1 3 m2 post e:0 > 0
3 2 4 m2 wait e:0 1 > 0
4 2 5 m2 read x:0 > 1
4 1 6 m2 write x:0 2 > ok
"""
LOCK = """\
1 1 2 m1 lock l:0 > 0
2 1 3 m1 write x:0 1 > ok
3 1 4 m1 unlock l:0 > 0
4 2 2 m1 lock l:0 > 0
5 2 3 m1 read x:0 > 1
"""
PAIRS = """\
1 1 2 board pair 2 > ok
2 2 2 board pair 1 > ok
3 1 2 board unpair > 0
4 2 2 board unpair > 6000
5 1 3 own print a > ok
6 2 3 own print b > ok
"""
FLAG = """\
1 1 2 m2 write x:0 1 > ok
2 1 3 own memory > ok
3 1 4 m2 atomic define f:0 1 0 > 0
4 2 5 m2 atomic ref f:0 0 0 > 1
5 2 6 own memory > ok
6 2 7 m2 read x:0 > 1
"""
GONE = """\
1 3 2 m1 write x:0 1 > ok
2 1 3 board arrive 1/-1 sync > round 1
3 2 3 board arrive 1/-1 sync > round 1
4 3 0 own fail > ok
5 3 0 board gone > ok
6 1 3 board leave 1/-1 1 > 6001
7 1 4 m1 read x:0 > 1
"""


def before(text: str) -> List[str]:
    """Returns which steps precede which by their segments, as `1<4`, by their places in the trace."""
    found = segments_of(read_run(text))
    own = [found.all[it] for it in found.of_step]
    pairs = ((at, to) for at in range(len(own)) for to in range(len(own)) if own[at].image != own[to].image)
    return [f"{at + 1}<{to + 1}" for at, to in pairs if own[at].precedes(own[to])]


class SegmentsTest(unittest.TestCase):
    def test_a_barrier_orders_all_before_it_and_all_behind_it(self) -> None:
        self.assertEqual(before(SYNC), ["1<8", "2<6", "2<9", "3<8", "4<6", "4<9", "5<8", "7<6", "7<9"])
        self.assertEqual(before(first_form(SYNC)), before(SYNC))

    def test_a_post_precedes_what_is_behind_the_wait(self) -> None:
        self.assertEqual(before(EVENT), ["1<4", "2<4"])
        self.assertEqual([it[:] for it in segments_of(read_run(EVENT)).edges], [("event", 1, 2)])

    def test_an_unlock_precedes_what_is_behind_the_next_lock(self) -> None:
        self.assertEqual(before(LOCK), ["1<5", "2<5", "3<5"])

    def test_sync_images_in_which_one_had_stopped_orders_nothing(self) -> None:
        self.assertEqual(before(PAIRS), ["2<5", "4<5"])

    def test_a_flag_hands_on_what_was_completed_before(self) -> None:
        self.assertEqual(before(FLAG), ["1<6", "2<6"])
        self.assertEqual(before(FLAG.replace("5 2 6 own memory > ok\n", "")), [])
        self.assertEqual(before(FLAG.replace("define f:0 1 0 > 0", "ref f:0 0 0 > 0")), [])

    def test_a_status_that_tells_of_a_failed_image_orders_what_that_one_did(self) -> None:
        self.assertEqual(before(GONE), ["1<7", "3<7", "4<7", "5<7"])
        self.assertEqual(before(first_form(GONE)), before(GONE))

    def test_a_race_has_no_order(self) -> None:
        self.assertEqual(before(RACED), [])


class Read(html.parser.HTMLParser):
    """Reads a page: that each element is closed in its turn; the titles of its steps; and what stands in the source."""

    VOID = ("meta", "input", "br")

    def __init__(self) -> None:
        super().__init__()
        self.open: List[str] = []
        self.ids: List[str] = []
        self.titles: Dict[str, str] = {}
        self.code: List[str] = []

    def handle_starttag(self, tag: str, attrs: List[Tuple[str, Optional[str]]]) -> None:
        self.ids += [value or "" for name, value in attrs if name == "id"]
        if tag not in self.VOID:
            self.open.append(tag)

    def handle_startendtag(self, tag: str, attrs: List[Tuple[str, Optional[str]]]) -> None:
        pass

    def handle_endtag(self, tag: str) -> None:
        if not self.open or self.open.pop() != tag:
            raise AssertionError(f"{tag} is closed out of its turn, at {self.getpos()}")

    def handle_data(self, data: str) -> None:
        if self.open[-2:] == ["g", "title"]:
            self.titles[self.ids[-1]] = self.titles.get(self.ids[-1], "") + data
        if self.open[-1:] == ["code"]:
            self.code.append(data)


def read_page(text: str) -> Read:
    """Reads a page to its end."""
    read = Read()
    read.feed(text)
    read.close()
    return read


TITLE = re.compile(r"image (\d+) step (\d+) stamp (\d+) line (\d+) (\S+): (.*)")


def lines_told(read: Read) -> List[str]:
    """Returns the lines of the trace that the steps of a page tell, in their order."""
    lines = []
    for number in range(1, len(read.titles) + 1):
        image, _, stamp, line, place, text = TITLE.fullmatch(read.titles[f"s{number}"]).groups()  # type: ignore
        lines.append(f"{stamp} {image} {line} {place} {text}")
    return lines


def steps_of(text: str) -> List[str]:
    """Returns the lines of a text that are steps."""
    return [it for it in text.split("\n") if re.match(r"\d+ \d+ \d+ (m\d+|own|board) ", it)]


def unpacked(rows: List[List[int]], images: int) -> List[Tuple[int, int, Tuple[int, ...]]]:
    """Returns the image, the number and the clock of each segment, as the page reads them."""
    found: List[Tuple[int, int, Tuple[int, ...]]] = []
    for image, number, back, *told in rows:
        clock = list(found[-back][2] if back else [0] * images)
        for place, count in zip(told[::2], told[1::2]):
            clock[place] = count
        found.append((image, number, tuple(clock)))
    return found


def accesses(images: int) -> List[str]:
    """Returns 10,000 steps of images that write to each other's memory."""
    own = range(1, images + 1)
    steps = ((at, it) for at in range(10000 // images) for it in own)
    return [f"{at + 1} {it} 12 m{1 + it % images} write halo:{it} {at} > ok" for at, it in steps]


def locks(images: int) -> List[str]:
    """Returns 10,000 steps of images that take a lock one after the other."""
    acts = ("lock gate:0 > 0", "read next:0 > 7", "write next:0 8 > ok", "unlock gate:0 > 0")
    return [f"{at + 1} {1 + at // 4 % images} {11 + at % 4} m1 {acts[at % 4]}" for at in range(10000)]


def events(images: int) -> List[str]:
    """Returns 10,000 steps of images each of which posts to the next one."""
    lines = []
    for at in range(5000):
        other = 1 + (at + 1) % images
        lines.append(f"{2 * at + 1} {1 + at % images} 31 m{other} post full:0 > 0")
        lines.append(f"{2 * at + 2} {other} 36 m{other} wait full:0 1 > 0")
    return lines


def rounds(images: int) -> List[str]:
    """Returns some 10,000 steps of images that meet in SYNC ALL."""
    asks = [f"board arrive 1/-1 sync > round {at + 1}" for at in range(10000 // images // 2)]
    pairs = [(it, it.replace("arrive 1/-1 sync > round", "leave 1/-1") + " > 0") for it in asks]
    lines = [f"{image} 13 {ask}" for pair in pairs for ask in pair for image in range(1, images + 1)]
    return [f"{at} {it}" for at, it in enumerate(lines, 1)]


class PictureTest(unittest.TestCase):
    def test_the_page_parses_and_has_each_step_once_with_its_numbers(self) -> None:
        for text in (RACED, STUCK, SYNC, EVENT, LOCK, PAIRS, FLAG, GONE):
            read = read_page(page(Seen("a title", read_run(text), ["x = 1", "if (x < 2) x = 2"])))
            self.assertEqual(read.open, [])
            self.assertEqual(len(read.ids), len(set(read.ids)))
            self.assertEqual(lines_told(read), steps_of(text))

    def test_what_it_shows_is_escaped(self) -> None:
        run = read_run("1 1 1 own print </title><script>&\x00 > ok\n")
        text = page(Seen("caf run <b>.f90", run, ["print *, '</title><script>'", "a < b & c"]))
        read = read_page(text)
        self.assertEqual(lines_told(read), ["1 1 1 own print </title><script>&? > ok"])
        self.assertEqual(read.code, ["print *, '</title><script>'", "a < b & c"])
        self.assertEqual(text.count("<script"), 1)

    def test_it_asks_nothing_of_the_net(self) -> None:
        text = page(Seen("a", read_run(RACED), []))
        outside = "(?:src|href)=\"(?!#)|https?:(?!//www.w3.org/2000/svg)|@import|url\\((?!#)"
        self.assertEqual(re.findall(outside, text), [])

    def test_the_race_leads_to_its_steps_in_its_order(self) -> None:
        text = page(Seen("a", read_run(RACED), []))
        self.assertIn('<a href="#s2">image 2, step 1, line 11</a> and <a href="#s3">image 1, step 2, line 12</a>', text)
        self.assertEqual(text.count('class="ring"'), 2)

    def test_a_stuck_run_says_who_waits_for_whom(self) -> None:
        text = page(Seen("a", read_run(STUCK), []))
        self.assertIn('<li><a href="#s1">images 1, 3</a>: line 3, waits for SYNC r1, image 2 hasn\'t come</li>', text)
        self.assertIn('<li><a href="#s4">image 2</a>: line 8, waits for lock</li>', text)
        text = page(Seen("a", read_run("var 2 one = 1\n" + CROSSED), CROSSED_SOURCE))
        self.assertIn("can go on; of images 1, 2 each waits for the next one, and image 2 for image 1.</p>", text)

    def test_the_data_are_those_of_the_segments(self) -> None:
        for text in (SYNC, EVENT, LOCK, PAIRS, FLAG, GONE, TEAMS):
            run = read_run(text)
            found = segments_of(run)
            told = re.search(r"packed = (\[.*\]), ofStep = (\[.*\]);", page(Seen("a", run, [])))
            assert told is not None
            self.assertEqual(json.loads(told[2]), found.of_step)
            wanted = [(it.image, it.number, it.clock) for it in found.all]
            self.assertEqual(unpacked(json.loads(told[1]), run.images), wanted)

    def test_a_round_has_its_team(self) -> None:
        for text, number in ((TEAMS, " (number 8)"), (first_form(TEAMS), "")):
            told = svg(Seen("a", read_run(text), []))
            self.assertEqual(told.count(f"<title>round 1 of team 2{number}</title>"), 1)
            self.assertEqual(told.count(f"<title>a collective 2 of team 2{number}</title>"), 1)

    def test_the_drawing_alone_is_xml(self) -> None:
        root = xml.etree.ElementTree.fromstring(svg(Seen("a", read_run(STUCK), [])))
        steps = [it for it in root.iter("{http://www.w3.org/2000/svg}g") if it.get("id")]
        self.assertEqual([it.get("id") for it in steps], ["s1", "s2", "s3", "s4"])
        self.assertEqual(sum(it.get("class") == "waits" for it in root.iter()), 3)
        titles = [it[0].text for it in root.iter() if it.get("class") == "awaited"]
        self.assertEqual(titles, ["image 1 waits for image 2", "image 3 waits for image 2"])

    def test_10000_steps_take_2_mb_at_most(self) -> None:
        for lines in (accesses(4), locks(16), events(16), rounds(16)):
            text = page(Seen("a", read_run("\n".join(lines)), []))
            read = read_page(text)
            self.assertEqual([read.titles[f"s{number}"] for number in range(1, len(lines) + 1)], lines)
            self.assertLess(len(text), 2000000)
