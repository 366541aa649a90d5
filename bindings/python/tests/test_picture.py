"""The picture of an index: its boxes against docs/FORMAT.md and against lists made at random, and the SVG document as a reader of XML sees it."""
from __future__ import annotations

import itertools
import random
import re
import time
import unittest
import xml.etree.ElementTree as ET
from typing import Dict, Iterator, List, NamedTuple, Tuple

import picture
import reading
import slots
from boxes import (
    BOXES, FEW, FIRST_ROWS, LAST_ROWS, LEAST, MERGED, Box, Kind, Row, Run, Section,
    directory_boxes, record_boxes, runs, sections, trailer_boxes, whole_boxes,
)

from .common import DAMAGED, RACK, REPOSITORY, random_rack

FINE = 1000.0  # pixels for each byte: nothing is so narrow that it would be merged
TITLE = "The example index: 111 bytes, two lists"
SVG = "{http://www.w3.org/2000/svg}"
MOST = 2_000_000  # bytes of a picture


def spans(several) -> List[Tuple[Kind, int, int]]:
    """Of each box: what it is, and from which byte up to which it goes."""
    return [(box.kind, box.start, box.end) for box in several]


def rows(section: Section) -> List[Row]:
    return [row for row in section.rows if isinstance(row, Row)]


def all_boxes(index: bytes, scale: float) -> List[Box]:
    """Records, directory and trailer, without the strip."""
    about = reading.read(index)
    records = (record_boxes(index, about.block, of, scale) for of in about.lists)
    return [*itertools.chain(*records), *directory_boxes(about, scale), *trailer_boxes(about)]


def strip(index: bytes, scale: float) -> List[Box]:
    return list(whole_boxes(reading.read(index), scale))


def index_of(u: int, block: int, *lists: Tuple[int, List[int]]) -> bytes:
    """An index of lists that are given by cut and slots."""
    return slots.index_of(u, block, [slots.record(u, block, cut, each) for cut, each in lists])


class Example(unittest.TestCase):
    """The table of the last section of docs/FORMAT.md."""

    def setUp(self):
        self.index = RACK.read_bytes()
        self.whole, self.records, self.directory, self.trailer = sections(self.index)
        self.list_0, self.list_1 = rows(self.records)

    def test_the_boxes_of_list_0(self):
        self.assertEqual(spans(self.list_0.boxes), [
            (Kind.HEAD, 0, 12),
            (Kind.ENTRY, 12, 20), (Kind.ENTRY, 20, 28), (Kind.ENTRY, 28, 36), (Kind.ENTRY, 36, 44),
            (Kind.BLOCK, 44, 47), (Kind.BLOCK, 47, 50), (Kind.BLOCK, 50, 53), (Kind.BLOCK, 53, 55)])

    def test_the_boxes_of_list_1(self):
        self.assertEqual(spans(self.list_1.boxes), [(Kind.HEAD, 55, 67), (Kind.BITS, 67, 69), (Kind.ENTRY, 69, 77), (Kind.BLOCK, 77, 79)])

    def test_the_boxes_of_the_end(self):
        self.assertEqual(spans(rows(self.directory)[0].boxes), [(Kind.DIRECTORY, 79, 83), (Kind.DIRECTORY, 83, 87)])
        self.assertEqual(spans(rows(self.trailer)[0].boxes), [(Kind.TRAILER, at, at + 4) for at in (87, 91, 95, 99, 103, 107)])

    def test_the_strip(self):
        self.assertEqual(spans(rows(self.whole)[0].boxes),
                         [(Kind.RECORD, 0, 55), (Kind.RECORD, 55, 79), (Kind.DIRECTORY, 79, 87), (Kind.TRAILER, 87, 111)])

    def test_what_the_numbers_say(self):
        self.assertEqual([box.numbers for box in self.list_0.boxes if box.numbers], [
            ("cut 0", "n 15", "L 11"), ("slot 1", "@0"), ("slot 8", "@3"), ("slot 18", "@6"), ("slot 27", "@9")])
        self.assertEqual([box.numbers for box in self.list_1.boxes if box.numbers], [("cut 16", "n 3", "L 2"), ("slot 26", "@0")])

    def test_which_slots_are_named(self):
        self.assertEqual([" ".join(box.labels[0]) for box in self.list_0.boxes if box.kind is Kind.BLOCK],
                         ["1 4 5 6", "8 12 15 16", "18 20 25 26", "27 28 30"])
        self.assertEqual(" ".join(self.list_1.boxes[1].labels[0]), "slots 1 to 16: 4 set: 3 5 12 16")
        self.assertEqual(" ".join(self.list_1.boxes[3].labels[0]), "26 30 31")

    def test_what_directory_and_trailer_say(self):
        self.assertEqual([" ".join(box.labels[0]) for box in rows(self.directory)[0].boxes], ["list 0: byte 0", "list 1: byte 55"])
        self.assertEqual([" ".join(box.labels[0]) for box in rows(self.trailer)[0].boxes], ["edition 1", "u 32", "B 4", "k 2", "D 79", "tag SLOT"])

    def test_the_tooltips(self):
        self.assertEqual([box.tip for box in self.list_1.boxes], [
            "head of list 1\nbytes 55 to 66 of the index (12 bytes)\n"
            "cut 16: slots up to it are bits\nn 3: so many slots above it are gaps\nL 2: so many code bytes",
            "bits of list 1\nbytes 67 to 68 of the index (2 bytes)\nslots 1 to 16: 4 set: 3 5 12 16",
            "skip entry of list 1, of block 0\nbytes 69 to 76 of the index (8 bytes)\nfirst slot 26\ncodes from code byte 0 on",
            "block 0 of list 1\nbytes 77 to 78 of the index (2 bytes)\n3 slots from slot 26 on: 26 30 31\ncodes 03 00"])

    def test_names_and_notes(self):
        self.assertEqual((self.list_0.name, self.list_0.notes), ("list 0", ("cut 0", "15 slots", "55 bytes")))
        self.assertEqual((self.list_1.name, self.list_1.notes), ("list 1", ("cut 16", "7 slots", "24 bytes")))
        self.assertEqual(rows(self.whole)[0].notes, ("111 bytes", "2 lists", "u 32", "B 4"))

    def test_its_bytes_are_shown(self):
        shown = [row.values for section in (self.records, self.directory, self.trailer) for row in rows(section)]
        self.assertEqual(b"".join(shown), self.index)

    def test_the_scale_is_one_for_all_but_the_strip(self):
        self.assertEqual(self.records.scale * 55, BOXES)
        self.assertEqual({self.records.scale, self.directory.scale, self.trailer.scale}, {self.records.scale})
        self.assertIn("at the scale of the records", self.trailer.caption)

    def test_the_picture_in_docs_is_this_one(self):
        self.assertEqual((REPOSITORY / "docs" / "index.svg").read_bytes().decode("utf-8"), picture.draw(self.index, TITLE))


class Runs(unittest.TestCase):
    """At a scale of 1 a part needs LEAST (4) bytes for a box of its own, and MERGED (64) bytes are enough for a shared one."""

    def runs(self, *seams: int, scale: float = 1.0) -> List[Run]:
        return list(runs(seams, seams[-1] - seams[0], scale))

    def test_wide_parts_stand_alone(self):
        self.assertEqual(self.runs(5, 9, 14), [Run(0, 1, 5, 9), Run(1, 2, 9, 14)])

    def test_a_narrow_part_between_wide_ones(self):
        self.assertEqual(self.runs(0, 4, 7, 11), [Run(0, 1, 0, 4), Run(1, 2, 4, 7), Run(2, 3, 7, 11)])

    def test_narrow_neighbours_share(self):
        self.assertEqual(self.runs(0, 3, 6, 20, 21, 22), [Run(0, 2, 0, 6), Run(2, 3, 6, 20), Run(3, 5, 20, 22)])

    def test_enough_of_them_begin_a_new_one(self):
        # 200 bytes are 3 boxes of 64, or of 66 2/3, bytes; parts of 1 byte reach that with 67, 67 and the 66 that are left.
        self.assertEqual(self.runs(*range(201)), [Run(0, 67, 0, 67), Run(67, 134, 67, 134), Run(134, 200, 134, 200)])

    def test_the_scale(self):
        self.assertEqual(self.runs(0, 2, 4, scale=2.0), [Run(0, 1, 0, 2), Run(1, 2, 2, 4)])
        self.assertEqual(self.runs(0, 7, 14, scale=0.5), [Run(0, 2, 0, 14)])

    def test_parts_without_bytes(self):
        self.assertEqual(self.runs(0, 4, 4), [Run(0, 1, 0, 4)])
        self.assertEqual(self.runs(0, 0, 4, 4, 8), [Run(1, 2, 0, 4), Run(3, 4, 4, 8)])
        self.assertEqual(self.runs(0, 1, 1, 2), [Run(0, 3, 0, 2)])
        self.assertEqual(self.runs(3, 3, 3), [])

    def test_no_parts(self):
        self.assertEqual(self.runs(7), [])


class Boxes(unittest.TestCase):
    def assert_tiled(self, index: bytes, tiles: List[Box]):
        self.assertEqual([box.start for box in tiles], [0] + [box.end for box in tiles[:-1]])
        self.assertEqual(tiles[-1].end, len(index))
        self.assertTrue(all(box.length > 0 for box in tiles))

    def test_they_tile_any_index(self):
        chance = random.Random(11)
        for _ in range(60):
            index = random_rack(chance).index
            for scale in FINE, 3.0, 0.4, 0.01:
                self.assert_tiled(index, all_boxes(index, scale))
                self.assert_tiled(index, strip(index, scale))

    def test_the_rows_tile_an_index_whose_lists_all_have_one(self):
        chance = random.Random(12)
        for _ in range(40):
            index = random_rack(chance, most_u=5000).index
            whole, *others = sections(index)
            self.assert_tiled(index, [*rows(whole)[0].boxes])
            self.assert_tiled(index, [box for section in others for row in rows(section) for box in row.boxes])

    def test_merging_loses_no_part(self):
        chance = random.Random(13)
        for _ in range(40):
            index = random_rack(chance).index
            fine = all_boxes(index, FINE)
            for scale in 1.0, 0.2:
                merged = all_boxes(index, scale)
                for kind in Kind:
                    bytes_of = [sum(box.length for box in boxes if box.kind is kind) for boxes in (fine, merged)]
                    self.assertEqual(bytes_of[0], bytes_of[1])
                # A block of one slot has no box where it stands alone, and is counted where it is merged: only these may be more.
                for kind in set(Kind) - {Kind.BLOCK}:
                    self.assertEqual(sum(box.holds for box in merged if box.kind is kind), sum(box.kind is kind for box in fine))

    def test_which_slots_are_named(self):
        chance = random.Random(14)
        for _ in range(60):
            rack = random_rack(chance, most_u=3000, most_lists=3)
            about = reading.read(rack.index)
            for of, cut, held in zip(about.lists, rack.cuts, rack.lists):
                found = list(record_boxes(rack.index, rack.block, of, FINE))
                tail = [slot for slot in held if slot > cut]
                self.assert_blocks(found, [tail[at:at + rack.block] for at in range(0, len(tail), rack.block)])
                self.assert_bits(found, cut, [slot for slot in held if slot <= cut])

    def assert_blocks(self, boxes: List[Box], blocks: List[List[int]]):
        entries = [box for box in boxes if box.kind is Kind.ENTRY]
        self.assertEqual([box.numbers[0] for box in entries], [f"slot {block[0]:,}" for block in blocks])
        self.assertEqual(["no codes" in box.tip for box in entries], [len(block) == 1 for block in blocks])
        named = [box.labels[0] for box in boxes if box.kind is Kind.BLOCK]
        expected = [(number, block) for number, block in enumerate(blocks) if len(block) > 1]
        self.assertEqual(named, [tuple(f"{slot:,}" for slot in block) if len(block) <= FEW else (f"block {number:,}:", f"{len(block)} slots")
                                 for number, block in expected])

    def assert_bits(self, boxes: List[Box], cut: int, low: List[int]):
        bits = [box for box in boxes if box.kind is Kind.BITS]
        self.assertEqual(len(bits), 1 if cut else 0)
        for box in bits:
            named = f": {' '.join(f'{slot:,}' for slot in low)}" if 0 < len(low) <= FEW else ""
            self.assertTrue(box.tip.endswith(f"\nslots 1 to {cut:,}: {len(low):,} set{named}"), box.tip)

    def test_a_cut_inside_a_byte(self):
        # Slot 1 of five has the top bit, slot 5 the fifth; the lowest three bits of the byte are beyond the cut.
        index = index_of(12, 4, (5, [1, 5]))
        self.assertEqual(index[12], 0b10001000)
        self.assertTrue(all_boxes(index, FINE)[1].tip.endswith("slots 1 to 5: 2 set: 1 5"))
        self.assertEqual(rows(sections(index)[1])[0].notes, ("cut 5", "2 slots", "13 bytes"))

    def test_codes_of_two_and_three_bytes(self):
        # Differences less one: 127 (7F), 128 (80 01), 16,383 (FF 7F), 16,384 (80 80 01), and 1,015,548 (FC FD 3D): 124 + 125 * 128 + 61 * 16,384.
        held = [1, 129, 258, 16_642, 33_027, 1_048_576]
        box = all_boxes(index_of(1_048_576, 8, (0, held)), FINE)[2]
        self.assertEqual((box.kind, box.length), (Kind.BLOCK, 1 + 2 + 2 + 3 + 3))
        self.assertEqual(box.labels[0], ("1", "129", "258", "16,642", "33,027", "1,048,576"))
        self.assertTrue(box.tip.endswith("\ncodes 7f 80 01 ff 7f 80 80 01 fc fd 3d"))

    def test_an_empty_list_is_a_head(self):
        boxes = all_boxes(index_of(1, 1, (0, [])), FINE)
        self.assertEqual(spans(boxes)[:2], [(Kind.HEAD, 0, 12), (Kind.DIRECTORY, 12, 16)])
        self.assertEqual(boxes[0].numbers, ("cut 0", "n 0", "L 0"))

    def test_a_list_of_bits_alone(self):
        boxes = all_boxes(index_of(100, 4, (100, list(range(1, 101, 2)))), FINE)
        self.assertEqual(spans(boxes)[:3], [(Kind.HEAD, 0, 12), (Kind.BITS, 12, 25), (Kind.DIRECTORY, 25, 29)])
        self.assertEqual(boxes[1].labels[0], ("slots 1 to 100:", "50 set"))

    def test_merged_boxes_say_how_many(self):
        # 100 entries of 8 bytes at a tenth of a pixel each make 80 pixels: one box. Their blocks have 3 codes of 1 byte: 30 pixels, one box.
        index = index_of(400, 4, (0, list(range(1, 401))))
        head, entries, blocks = all_boxes(index, 0.1)[:3]
        self.assertEqual((entries.start, entries.end, entries.holds, entries.labels), (12, 812, 100, (("100", "entries"),)))
        self.assertEqual(entries.tip, "100 skip entries of list 0, of blocks 0 to 99\nbytes 12 to 811 of the index (800 bytes)\nfirst slots 1 to 397")
        self.assertEqual((blocks.start, blocks.end, blocks.holds, blocks.labels), (812, 1112, 100, (("100", "blocks"),)))
        self.assertEqual(blocks.tip, "blocks 0 to 99 of list 0\nbytes 812 to 1,111 of the index (300 bytes)\n400 slots from slot 1 on")
        self.assertEqual((head.holds, head.length), (1, 12))


class RowsOfLists(unittest.TestCase):
    def lines(self, lists: int) -> List[str]:
        """The names of the rows, and the texts that stand for others."""
        record = slots.record(9, 3, 0, [2, 4])
        section = sections(slots.index_of(9, 3, [record] * lists))[1]
        return [row.name if isinstance(row, Row) else row for row in section.rows]

    def test_twelve_lists_have_rows(self):
        self.assertEqual(FIRST_ROWS + LAST_ROWS, 12)
        self.assertEqual(self.lines(12), [f"list {name}" for name in range(12)])

    def test_of_more_the_first_and_the_last(self):
        first = [f"list {name}" for name in range(8)]
        self.assertEqual(self.lines(13), [*first, "list 8: 1 row not shown", "list 9", "list 10", "list 11", "list 12"])
        self.assertEqual(self.lines(14), [*first, "lists 8 to 9: 2 rows not shown", "list 10", "list 11", "list 12", "list 13"])

    def test_the_longest_that_has_a_row_fills_the_width(self):
        small, large = slots.record(800, 3, 0, [2]), slots.record(800, 3, 800, [])
        for place, length in (0, 112), (11, 20):  # 12 bytes and 100 of bits; 12 bytes and an entry. List 11 of 20 has no row.
            records = [small] * 20
            records[place] = large
            self.assertEqual(sections(slots.index_of(800, 3, records))[1].scale, BOXES / length)


class Element(NamedTuple):
    """A box as the document has it; bytes and length are read out of its tooltip."""

    kind: str
    first: int
    length: int
    x: float
    y: float
    width: float
    height: float


def elements(root: ET.Element) -> Iterator[Element]:
    for group in root.iter(f"{SVG}g"):
        title, rect = group.find(f"{SVG}title"), group.find(f"{SVG}rect")
        where = re.search(r"^bytes? ([\d,]+)(?: to [\d,]+)? of the index \(([\d,]+) bytes?\)$", title.text, re.MULTILINE)
        first, length = (int(number.replace(",", "")) for number in where.groups())
        yield Element(rect.get("class").split()[1], first, length, *(float(rect.get(name)) for name in ("x", "y", "width", "height")))


# The widths of signs in DejaVu Sans, the widest sans-serif font that browsers commonly take, in thousandths of its size.
DEJAVU: Dict[str, int] = {
    **dict.fromkeys("0123456789", 637), **dict.fromkeys("bdgpqhnu", 635), **dict.fromkeys(" .,", 318), **dict.fromkeys("ijlI", 296),
    **dict.fromkeys("vxyk", 592), **dict.fromkeys("()", 391), "a": 613, "c": 550, "e": 616, "f": 353, "m": 975, "o": 612, "r": 412, "s": 521,
    "t": 393, "w": 818, "z": 525, ":": 337, "@": 1000, "A": 685, "B": 687, "D": 771, "L": 558, "O": 788, "S": 635, "T": 611,
}
BOLD = 1.13  # so much wider are its bold letters, on the average of a text


class Text(NamedTuple):
    """A text of the document with the pixels that it takes."""

    words: str
    left: float
    top: float
    right: float
    foot: float

    def touches(self, other: Text) -> bool:
        return self.left < other.right and other.left < self.right and self.top < other.foot and other.top < self.foot


def texts(parent: ET.Element) -> Iterator[Text]:
    for text in parent.iter(f"{SVG}text"):
        style = set(text.get("class").split())
        size = 17 if "title" in style else 13 if style & {"caption", "name"} else 11
        width = size * sum(602 if "hex" in style else DEJAVU[sign] for sign in text.text) / 1000
        if style & {"title", "caption"}:
            width *= BOLD
        x, y = float(text.get("x")), float(text.get("y"))
        left = x - width / 2 if style & {"mid", "hex"} else x - width if "end" in style else x
        yield Text(text.text, left, y - 0.73 * size, left + width, y)  # capitals are 0.73 of the size high


def varied() -> Iterator[Tuple[str, bytes]]:
    """Indexes of very different shapes: small and large records, few and many lists, blocks and bits."""
    chance = random.Random(15)
    yield "the example", RACK.read_bytes()
    yield "one empty list of one slot", index_of(1, 1, (0, []))
    yield "bits alone", index_of(64, 4, (64, [3, 60]), (64, []))
    yield "block length 1", index_of(40, 1, (0, [1, 5, 9]), (8, [2, 3, 8, 40]))
    yield "a long and a short record", index_of(1_048_576, 4, (1_048_576, [7, 1_048_576]), (0, [9]), (0, list(range(1, 90_001))))
    # Four blocks of two slots, with codes of 2 or 1 bytes: a record of 50 bytes, in which six digits are just too wide for a number of four bytes.
    yield "large slots", index_of(1_048_576, 2, (0, [900_001, 900_300, 910_000, 910_400, 920_000, 920_010, 930_000, 930_010]))
    yield "many lists", slots.index_of(9, 3, [slots.record(9, 3, 0, [])] * 700)
    for number in range(30):
        rack = random_rack(chance, most_u=chance.choice([20, 100, 5000]), most_lists=chance.choice([3, 20, 60]))
        yield f"rack {number}", rack.index


class Document(unittest.TestCase):
    def test_it_is_an_svg_document_of_its_size(self):
        root = ET.fromstring(picture.draw(RACK.read_bytes(), TITLE))
        self.assertEqual(root.tag, f"{SVG}svg")
        self.assertEqual(root.get("width"), "960")
        self.assertEqual(root.get("viewBox"), f"0 0 960 {root.get('height')}")
        ground = root.find(f"{SVG}rect")
        self.assertEqual((ground.get("class"), ground.get("width"), ground.get("height")), ("ground", "960", root.get("height")))
        self.assertIn(".ground { fill: #ffffff }", root.find(f"{SVG}style").text)

    def test_every_box_is_drawn_with_its_tooltip(self):
        for name, index in varied():
            with self.subTest(name):
                root = ET.fromstring(picture.draw(index, name))
                drawn = [group.find(f"{SVG}title").text for group in root.iter(f"{SVG}g")]
                self.assertEqual(drawn, [box.tip for section in sections(index) for row in rows(section) for box in row.boxes])

    def test_widths_are_in_proportion(self):
        for name, index in varied():
            with self.subTest(name):
                content = sections(index)
                drawn = iter(elements(ET.fromstring(picture.draw(index, name))))
                for section in content:
                    longest = max(self.assert_row([next(drawn) for _ in row.boxes], section.scale) for row in rows(section))
                    self.assertLess(longest, 828.01)
                    if section in content[:2]:
                        self.assertAlmostEqual(longest, 828, delta=0.01)
                self.assertEqual(list(drawn), [])

    def assert_row(self, row: List[Element], scale: float) -> float:
        """Each box is as wide as its bytes and stands where the one before it ends; gives how wide they are together."""
        for box in row:
            self.assertAlmostEqual(box.width, box.length * scale, delta=0.006)  # two decimals are written
            self.assertAlmostEqual(box.x, 960 - 14 - 828 + (box.first - row[0].first) * scale, delta=0.006)
            self.assertEqual((box.y, box.height), (row[0].y, row[0].height))
        return sum(box.length for box in row) * scale

    def test_the_ratios_of_the_example(self):
        drawn = list(elements(ET.fromstring(picture.draw(RACK.read_bytes(), TITLE))))
        kinds = "record", "head", "bits", "entry", "block", "directory", "trailer"
        of_kind = {kind: [box.width for box in drawn if box.kind == kind] for kind in kinds}
        self.assertEqual({kind: len(widths) for kind, widths in of_kind.items()},
                         {"record": 2, "head": 2, "bits": 1, "entry": 5, "block": 5, "directory": 3, "trailer": 7})
        self.assertAlmostEqual(of_kind["record"][0] / of_kind["record"][1], 55 / 24, delta=0.001)
        self.assertAlmostEqual(of_kind["head"][0] / of_kind["bits"][0], 12 / 2, delta=0.003)
        self.assertAlmostEqual(of_kind["head"][0] / of_kind["entry"][0], 12 / 8, delta=0.001)
        self.assertAlmostEqual(of_kind["block"][0] / of_kind["block"][3], 3 / 2, delta=0.001)

    def test_texts_stay_in_their_boxes(self):
        for name, index in varied():
            with self.subTest(name):
                for group in ET.fromstring(picture.draw(index, name)).iter(f"{SVG}g"):
                    x, y, width, height = (float(group.find(f"{SVG}rect").get(side)) for side in ("x", "y", "width", "height"))
                    for text in texts(group):
                        self.assertTrue(x < text.left and text.right < x + width and y < text.top and text.foot < y + height, text)

    def test_texts_do_not_touch_each_other_or_leave_the_picture(self):
        for name, index in varied():
            with self.subTest(name):
                root = ET.fromstring(picture.draw(index, "A title"))
                written = sorted(texts(root), key=lambda text: text.top)
                for at, text in enumerate(written):
                    self.assertTrue(0 < text.left and text.right < 960 and 0 < text.top and text.foot < float(root.get("height")), text)
                    below = itertools.takewhile(lambda other: other.top < text.foot, written[at + 1:])
                    self.assertEqual([other for other in below if text.touches(other)], [], text)

    def test_every_value_of_the_example_is_written(self):
        root = ET.fromstring(picture.draw(RACK.read_bytes(), TITLE))
        words = [" ".join(text.text for text in group.findall(f"{SVG}text[@class='mid']")) for group in root.iter(f"{SVG}g")]
        self.assertEqual(words, [
            "list 0: 55 bytes", "list 1: 24 bytes", "2 starts", "24 bytes",
            "cut 0 n 15 L 11", "slot 1 @0", "slot 8 @3", "slot 18 @6", "slot 27 @9", "1 4 5 6", "8 12 15 16", "18 20 25 26", "27 28 30",
            "cut 16 n 3 L 2", "3 5 12 16", "slot 26 @0", "26 30 31",
            "list 0: byte 0", "list 1: byte 55", "edition 1", "u 32", "B 4", "k 2", "D 79", "tag SLOT"])
        digits = "".join(text.text for text in root.iter(f"{SVG}text") if text.get("class") == "hex")
        self.assertEqual(bytes.fromhex(digits), RACK.read_bytes())

    def test_positions_stand_below_the_seams(self):
        root = ET.fromstring(picture.draw(RACK.read_bytes(), TITLE))
        numbers = [int(text.text) for text in root.findall(f"{SVG}text") if text.get("class") == "note mid"]
        self.assertEqual(numbers, [0, 55, 79, 87, 111] + [0, 12, 20, 28, 36, 44, 47, 50, 53, 55] + [55, 67, 69, 77, 79] + [79, 83, 87]
                         + [87, 91, 95, 99, 103, 107, 111])

    def test_the_ends_of_a_row_are_always_written(self):
        for name, index in varied():
            with self.subTest(name):
                places = (text for text in ET.fromstring(picture.draw(index, name)).findall(f"{SVG}text") if text.get("class") == "note mid")
                of_rows = [[text.text for text in below] for _, below in itertools.groupby(places, lambda text: text.get("y"))]
                drawn = [(row.boxes, section.scale) for section in sections(index) for row in rows(section)]
                self.assertEqual([below[0] for below in of_rows], [f"{boxes[0].start:,}" for boxes, _ in drawn])
                wide = [(boxes[-1].end - boxes[0].start) * scale > 150 for boxes, scale in drawn]  # room for any two positions
                self.assertEqual([below[-1] for below in itertools.compress(of_rows, wide)],
                                 [f"{boxes[-1].end:,}" for boxes, _ in itertools.compress(drawn, wide)])

    def test_what_is_too_narrow_for_a_name_is_said(self):
        # A record of 131,084 bytes: a pixel is 158 of them. The head and the whole of the other record are less.
        drawn = picture.draw(index_of(1_048_576, 4, (1_048_576, []), (0, [9])), TITLE)
        words = [text.text for text in ET.fromstring(drawn).findall(f"{SVG}text")]
        self.assertEqual([said for said in words if said.startswith("too narrow for a name")], [
            "too narrow for a name: directory (8 bytes), trailer (24 bytes)", "too narrow for a name: head (12 bytes)",
            "too narrow for a name: head (12 bytes), skip entry (8 bytes)"])
        self.assertEqual((words.count("bits"), words.count("skip entry")), (2, 1))  # above its boxes and in the legend; in the legend alone

    def test_the_legend(self):
        for index, merged in (RACK.read_bytes(), []), (slots.index_of(9, 3, [slots.record(9, 3, 0, [])] * 700), ["several in one box"]):
            root = ET.fromstring(picture.draw(index, TITLE))
            words = [text.text for text in root.findall(f"{SVG}text")]
            kinds = ["record of a list", "head", "bits", "skip entry", "block: its code bytes", "directory", "trailer"]
            self.assertEqual(words[-len(kinds + merged):], kinds + merged)

    def test_the_same_bytes_give_the_same_text(self):
        for name, index in varied():
            self.assertEqual(picture.draw(index, name), picture.draw(bytes(bytearray(index)), name))


class Titles(unittest.TestCase):
    def drawn(self, title: str) -> Tuple[str, str]:
        """The title of the document, and what of it is written in the picture."""
        root = ET.fromstring(picture.draw(RACK.read_bytes(), title))
        return root.find(f"{SVG}title").text or "", root.find(f"{SVG}text[@class='title']").text or ""

    def test_any_signs(self):
        for title in "<b> & \"it's\" ]]> <!-- &amp; -->", "</svg>", "Regal 7, Fächer 1\u20139", "\U0001F4E6 \u68da", "":
            self.assertEqual(self.drawn(title), (title, title))

    def test_signs_that_xml_cannot_hold(self):
        self.assertEqual(self.drawn("a\x00b\x1bc\ud800d\ufffee"), ("a\ufffdb\ufffdc\ufffdd\ufffde",) * 2)
        self.assertEqual(self.drawn("a\nb\tc\rd"), ("a b c d",) * 2)

    def test_it_can_be_encoded(self):
        self.assertIn("\ufffd", picture.draw(RACK.read_bytes(), "\udcff").encode("utf-8").decode("utf-8"))

    def test_a_long_one_is_cut_to_the_width(self):
        for given in "1234567890" * 100, "one slot " * 1000:
            whole, written = self.drawn(given)
            self.assertEqual(whole, given)
            self.assertTrue(written.endswith("...") and given.startswith(written[:-3]), written)
            title = next(texts(ET.fromstring(picture.draw(RACK.read_bytes(), given))))
            self.assertEqual(title.words, written)
            self.assertTrue(700 < title.right < 960 - 14, title)


class Large(unittest.TestCase):
    def assert_small(self, index: bytes) -> ET.Element:
        begun = time.process_time()
        drawn = picture.draw(index, "A large index")
        self.assertLess(time.process_time() - begun, 10)  # about a second; the bound is for slow machines
        self.assertLess(len(drawn.encode("utf-8")), MOST)
        return ET.fromstring(drawn)

    def tips(self, root: ET.Element, kind: str) -> List[str]:
        return [group.find(f"{SVG}title").text for group in root.iter(f"{SVG}g") if group.find(f"{SVG}rect").get("class") == f"box {kind}"]

    def held(self, tips: List[str]) -> int:
        return sum(int(re.match(r"([\d,]+) skip entries", tip)[1].replace(",", "")) for tip in tips)

    def test_a_million_blocks_of_one_slot(self):
        root = self.assert_small(index_of(1_048_576, 1, (0, list(range(1, 1_048_577)))))
        self.assertEqual(self.held(self.tips(root, "entry")), 1_048_576)
        self.assertEqual(self.tips(root, "block"), [])

    def test_half_a_million_blocks_of_two(self):
        root = self.assert_small(index_of(1_048_576, 2, (0, list(range(1, 1_048_577)))))
        self.assertEqual(self.held(self.tips(root, "entry")), 524_288)
        self.assertEqual(self.tips(root, "block"), [
            "blocks 0 to 524,287 of list 0\nbytes 4,194,316 to 4,718,603 of the index (524,288 bytes)\n1,048,576 slots from slot 1 on"])

    def test_as_many_lists_as_there_may_be(self):
        root = self.assert_small(slots.index_of(1, 1, [slots.record(1, 1, 0, [])] * 4096))
        self.assertEqual(len(self.tips(root, "head")), 12)
        self.assertIn("lists 8 to 4,091: 4,084 rows not shown", [text.text for text in root.findall(f"{SVG}text")])

    def test_as_many_bytes_as_there_may_be(self):
        # A record of bits alone has 12 + 131,072 bytes; 127 of them, with directory and trailer, are 16,648,200 of the 16,777,216 bytes.
        record = slots.record(1_048_576, 64, 1_048_576, range(1, 1_048_577, 3))
        index = slots.index_of(1_048_576, 64, [record] * 127)
        self.assertEqual(len(index), 16_648_200)
        self.assertEqual(len(self.tips(self.assert_small(index), "bits")), 12)

    def test_as_many_boxes_as_a_row_can_have(self):
        # Twelve rows of boxes that are just wide enough to stand alone: 138 entries of 8 bytes, and blocks of 2 and of 4 bytes in turn.
        held = list(itertools.accumulate([1] + ([1, 1, 1] + [200, 200, 1]) * 69))
        index = index_of(1_048_576, 3, *[(0, held)] * 12)
        self.assertEqual(len(self.tips(self.assert_small(index), "entry")), 12 * 139)


class Refusing(unittest.TestCase):
    def test_a_refused_index_is_not_drawn(self):
        for number, place, index in DAMAGED:
            with self.assertRaises(slots.Refused) as caught:
                picture.draw(index, TITLE)
            self.assertEqual((caught.exception.number, caught.exception.place), (number, place))

    def test_an_index_is_bytes_and_a_title_is_text(self):
        for index, title in (bytearray(RACK.read_bytes()), TITLE), ("SLOT", TITLE), (RACK.read_bytes(), b"title"), (RACK.read_bytes(), None):
            with self.assertRaises(TypeError):
                picture.draw(index, title)


if __name__ == "__main__":
    unittest.main()
