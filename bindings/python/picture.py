"""A picture of an index: what its bytes are, in proportion, as an SVG document.

    import picture

    text = picture.draw(index, "The lists of aisle 7")

From top to bottom: the whole index in one strip, a row for each record, the directory, the trailer, and a legend of the colours. Every part of the
index is a box as wide as its bytes are many. What fits into a box is written in it, and its tooltip says all of it: what the part is, which bytes of
the index it has, and what they hold. A row in which a byte is wide enough shows the bytes too, in hexadecimal.

Each of the four sections has its scale, which a bar at its right shows. All records have the same one: the longest that has a row fills the width.
Directory and trailer are drawn at the scale of the records where their bytes can be read so and go into the width. Otherwise each has a scale of its
own, and its caption says so.

An index that the library refuses is not drawn: slots.Refused goes through. The same bytes and the same title give the same text.

boxes.py says what to draw, and this module how, in pixels. Fonts are not known here, so that the width of a text is estimated by the widest common
fonts: a text is written only where it surely fits.
"""
from __future__ import annotations

import itertools
import xml.etree.ElementTree as ET
from dataclasses import dataclass
from typing import Dict, List, Optional, Sequence, Union

from boxes import BOXES, Box, Kind, Label, Row, Section, many, sections

__all__ = ["draw", "svg"]

WIDTH = 960   # pixels: the whole picture
MARGIN = 14
LEFT = WIDTH - MARGIN - BOXES  # where the boxes of a row begin
SMALL = 11    # pixels: the sizes of texts
NAME = 13
TITLE = 17
LINE = 13     # pixels: from one line of small text to the next
PAD = 2       # pixels: what stays free at least between a text and the sides of its box
FOOT = 18     # pixels: the height of the bytes at the foot of a box
COMB = 5      # pixels: the height of the teeth at the foot of a box that holds several
TICK = 3      # pixels: the length of the mark at a position

# The name of a part of a row, which stands above its boxes: of one, and of several.
_PART = {
    Kind.RECORD: ("record", "records"), Kind.HEAD: ("head", "head"), Kind.BITS: ("bits", "bits"), Kind.ENTRY: ("skip entry", "skip entries"),
    Kind.BLOCK: ("code bytes", "code bytes"), Kind.DIRECTORY: ("directory", "directory"), Kind.TRAILER: ("trailer", "trailer"),
}

# The fills are light, so that dark text reads well on all of them. Neighbours differ in lightness too, for grey print and for readers who do not see
# all colours.
_STYLE = {
    "text": f"font-family: sans-serif; font-size: {SMALL}px; fill: #1a1a1a",
    ".title": f"font-size: {TITLE}px; font-weight: bold",
    ".caption": f"font-size: {NAME}px; font-weight: bold",
    ".name": f"font-size: {NAME}px",
    ".note": "fill: #4a4a4a",
    ".mid": "text-anchor: middle",
    ".end": "text-anchor: end",
    ".hex": "font-family: monospace; text-anchor: middle",
    ".box": "stroke: #4a4a4a; stroke-width: 0.8",
    ".line": "stroke: #4a4a4a; stroke-width: 0.8; fill: none",
    ".seam": "stroke: #4a4a4a; stroke-width: 0.6; stroke-opacity: 0.45; fill: none",
    ".foot": "fill: #ffffff; fill-opacity: 0.5",
    ".comb": "fill: url(#slots-comb)",
    ".ground": "fill: #ffffff",
    ".record": "fill: #ececec",
    ".head": "fill: #edbb80",
    ".bits": "fill: #cde5f7",
    ".entry": "fill: #fff6c8",
    ".block": "fill: #8fc1ad",
    ".directory": "fill: #dccbec",
    ".trailer": "fill: #b0b9c8",
}

# The widths of characters in ems, none less than in the widest of the common sans-serif fonts.
_EMS: Dict[str, float] = {
    **dict.fromkeys("abcdeghknopqsuvxyz0123456789", 0.64), **dict.fromkeys("ABCDEFGHJKLNOPQRSTUVXYZ", 0.8), **dict.fromkeys("ijlI", 0.43),
    **dict.fromkeys("frt-:;()[]!|'\"", 0.46), **dict.fromkeys(" .,", 0.37), "m": 0.98, "w": 0.83, "M": 0.87, "W": 1.0, "@": 1.02,
}
_ASCII_EMS = 1.1  # of other printable ASCII
_OTHER_EMS = 1.5  # of all else
_BOLD = 1.15      # so much wider is bold text

Attributes = Dict[str, Union[str, float]]


@dataclass(frozen=True)
class _Frame:
    """A rectangle of the picture, in pixels."""

    x: float
    y: float
    width: float
    height: float

    def attributes(self, style: str) -> Attributes:
        return {"class": style, "x": self.x, "y": self.y, "width": self.width, "height": self.height}


@dataclass(frozen=True)
class _Place:
    """The number below a seam, with the pixels that it needs."""

    text: str
    seam: float
    left: float
    right: float


def draw(index: bytes, title: str) -> str:
    """The picture of an index as a whole SVG document. Raises slots.Refused where the library refuses the index."""
    if not isinstance(title, str):
        raise TypeError(f"title must be str, not {type(title).__name__}")
    return svg(title, sections(index))


def svg(title: str, content: Sequence[Section]) -> str:
    """The SVG document of these sections."""
    clean = _clean(title)
    root = ET.Element("svg", {"xmlns": "http://www.w3.org/2000/svg", "class": "slots", "role": "img", "width": str(WIDTH)})
    root.text = "\n"
    _put(root, "title", {}, clean)
    _put(root, "style", {}, "".join(f"\nsvg.slots {what} {{ {how} }}" for what, how in _STYLE.items()) + "\n")
    _put_comb(root)
    ground = _put(root, "rect", {"class": "ground", "width": WIDTH})
    y: float = MARGIN + TITLE
    _text(root, MARGIN, y, _shortened(clean, WIDTH - 2 * MARGIN), "title")
    for section in content:
        y = _draw_section(root, section, y + 12)
    height = _figure(_draw_legend(root, content, y + 8) + MARGIN)
    ground.set("height", height)
    root.set("height", height)
    root.set("viewBox", f"0 0 {WIDTH} {height}")
    return ET.tostring(root, encoding="unicode") + "\n"


def _draw_section(root: ET.Element, section: Section, y: float) -> float:
    """Draws a section from y on, and gives where it ends."""
    y += 20
    _text(root, MARGIN, y, section.caption, "caption")
    _draw_scale(root, section.scale, y)
    for remark in section.remarks:
        y += LINE + 2
        _text(root, MARGIN, y, remark, "note")
    y += 10
    for row in section.rows:
        y = _draw_row(root, row, section.scale, y) if isinstance(row, Row) else _draw_left_out(root, row, y)
    return y


def _draw_left_out(root: ET.Element, words: str, y: float) -> float:
    _text(root, LEFT, y + LINE, words, "note")
    return y + 2 * LINE


def _draw_scale(root: ET.Element, scale: float, y: float) -> None:
    """A bar of a round number of bytes, at the right end of a caption."""
    number = _round_number(100 / scale)
    length = number * scale
    left = WIDTH - MARGIN - length
    _put(root, "path", {"class": "line", "d": f"M{_figure(left)} {_figure(y - 8)}v8m0 -4h{_figure(length)}m0 -4v8"})
    _text(root, left - 6, y, many(number, "byte"), "note end")


def _round_number(most: float) -> int:
    """The largest of 1, 2, 5, 10, 20, 50 .. that is not above most, which is at least 1."""
    ten = 1
    while 10 * ten <= most:
        ten *= 10
    return max(step * ten for step in (1, 2, 5) if step * ten <= most)


def _draw_row(root: ET.Element, row: Row, scale: float, y: float) -> float:
    """Draws a row from y on, and gives where it ends, with what stays free below it."""
    height = 3 * LINE + 5 + FOOT if row.values else 2 * LINE + 10
    _text(root, MARGIN, y + LINE, row.name, "name")
    for number, note in enumerate(row.notes, 2):
        _text(root, MARGIN, y + 1 + number * LINE, note, "note")
    named = _named_parts(row, scale) if row.parted else _parts(row)
    if row.parted:
        _draw_part_names(root, row, named, scale, y + SMALL)
    y += LINE + 3 if row.parted else 2
    start = row.boxes[0].start
    for box in row.boxes:
        frame = _Frame(LEFT + (box.start - start) * scale, y, box.length * scale, height)
        _draw_box(root, box, frame, row.values[box.start - start:box.end - start])
    y += height
    _draw_positions(root, row, scale, y)
    y += TICK + LINE
    narrow = ", ".join(f"{_part_name(part)} ({many(part.length, 'byte')})" for part in _parts(row) if part not in named)
    if narrow:
        y += LINE
        _text(root, LEFT, y, f"too narrow for a name: {narrow}", "note")
    return y + LINE


def _draw_box(root: ET.Element, box: Box, frame: _Frame, values: bytes) -> None:
    """Draws a box, what fits into it, and its bytes if they are given."""
    group = _put(root, "g", {})
    _put(group, "title", {}, box.tip)
    _put(group, "rect", frame.attributes(f"box {box.kind.name.lower()}"))
    if box.holds > 1:
        _put(group, "rect", _Frame(frame.x, frame.y + frame.height - COMB, frame.width, COMB).attributes("comb"))
    if values:
        _draw_values(group, values, _Frame(frame.x, frame.y + frame.height - FOOT, frame.width, FOOT))
    free = frame.height - (FOOT if values else COMB if box.holds > 1 else 0)
    share = frame.width / max(1, len(box.numbers))
    if box.numbers and all(_width(word) <= share - 2 * PAD for word in box.numbers):
        _draw_seams(group, frame, len(box.numbers))
        for number, word in enumerate(box.numbers):
            _draw_lines(group, [word], _Frame(frame.x + number * share, frame.y, share, free))
    else:
        _draw_lines(group, _fitting(box.labels, frame.width - 2 * PAD, int(free // LINE)), _Frame(frame.x, frame.y, frame.width, free))


def _draw_values(group: ET.Element, values: bytes, frame: _Frame) -> None:
    """The bytes at the foot of a box, each in hexadecimal."""
    _put(group, "rect", frame.attributes("foot"))
    _draw_seams(group, frame, len(values))
    share = frame.width / len(values)
    for number, byte in enumerate(values):
        _text(group, frame.x + (number + 0.5) * share, frame.y + LINE, f"{byte:02x}", "hex")


def _draw_seams(group: ET.Element, frame: _Frame, shares: int) -> None:
    """Thin lines that part a frame into equal shares."""
    if shares > 1:
        step = frame.width / shares
        lines = (f"M{_figure(frame.x + number * step)} {_figure(frame.y)}v{_figure(frame.height)}" for number in range(1, shares))
        _put(group, "path", {"class": "seam", "d": "".join(lines)})


def _draw_lines(group: ET.Element, lines: Sequence[str], frame: _Frame) -> None:
    """Lines of text in the middle of a frame."""
    top = frame.y + (frame.height - len(lines) * LINE) / 2
    for number, line in enumerate(lines, 1):
        _text(group, frame.x + frame.width / 2, top + number * LINE - 3, line, "mid")


def _draw_part_names(root: ET.Element, row: Row, named: Sequence[Box], scale: float, y: float) -> None:
    for part in named:
        _text(root, LEFT + (part.start - row.boxes[0].start) * scale, y, _part_name(part), "note")


def _named_parts(row: Row, scale: float) -> List[Box]:
    """The parts of a row whose name above the boxes ends before the next part; that of the last may go to the edge of the picture."""
    parts = _parts(row)
    start = row.boxes[0].start
    ends = [(part.start - start) * scale for part in parts[1:]] + [BOXES]
    return [part for part, end in zip(parts, ends)
            if part.length * scale >= 1 and (part.start - start) * scale + _width(_part_name(part)) + PAD <= end]


def _parts(row: Row) -> List[Box]:
    """The row with all boxes of one kind taken together."""
    return [_together(kind, list(boxes)) for kind, boxes in itertools.groupby(row.boxes, lambda box: box.kind)]


def _together(kind: Kind, boxes: Sequence[Box]) -> Box:
    return Box(kind, boxes[0].start, boxes[-1].end - boxes[0].start, "", holds=sum(box.holds for box in boxes))


def _part_name(part: Box) -> str:
    one, several = _PART[part.kind]
    return one if part.holds == 1 else several


def _draw_positions(root: ET.Element, row: Row, scale: float, y: float) -> None:
    """The positions of the seams below a row, as far as there is room."""
    start = row.boxes[0].start
    for place in _spaced([_place(seam, start, scale) for seam in [*(box.start for box in row.boxes), row.boxes[-1].end]]):
        _put(root, "path", {"class": "line", "d": f"M{_figure(place.seam)} {_figure(y)}v{TICK}"})
        _text(root, (place.left + place.right) / 2, y + TICK + SMALL - 1, place.text, "note mid")


def _place(position: int, start: int, scale: float) -> _Place:
    """The number stands below its seam, or a little to the side where it would leave the width of a row."""
    text = f"{position:,}"
    half = _width(text) / 2
    seam = LEFT + (position - start) * scale
    middle = min(max(seam, LEFT + half), LEFT + BOXES - half)
    return _Place(text, seam, middle - half, middle + half)


def _spaced(places: Sequence[_Place]) -> List[_Place]:
    """Those that can stand side by side: the first, from left to right what touches neither the one before nor the last, and the last."""
    first, *others, last = places
    kept = [first]
    for place in others:
        if kept[-1].right + 2 * PAD <= place.left and place.right + 2 * PAD <= last.left:
            kept.append(place)
    return [*kept, last] if kept[-1].right + 2 * PAD <= last.left else kept


def _draw_legend(root: ET.Element, content: Sequence[Section], y: float) -> float:
    """Draws what the colours mean, and gives where it ends."""
    swatches = [(kind.value, f"box {kind.name.lower()}") for kind in Kind]
    if any(box.holds > 1 for section in content for row in section.rows if isinstance(row, Row) for box in row.boxes):
        swatches.append(("several in one box", "box comb"))
    x: float = MARGIN
    for words, style in swatches:
        _put(root, "rect", _Frame(x, y, 16, 12).attributes(style))
        _text(root, x + 22, y + 10, words, "note")
        x += 34 + _width(words)
    return y + 12


def _put_comb(root: ET.Element) -> None:
    """The teeth along the foot of a box that stands for several."""
    definitions = _put(root, "defs", {})
    pattern = _put(definitions, "pattern", {"id": "slots-comb", "width": 4, "height": COMB, "patternUnits": "userSpaceOnUse"})
    _put(pattern, "path", {"class": "line", "d": f"M2 0v{COMB}"})


def _fitting(labels: Sequence[Label], width: float, lines: int) -> List[str]:
    """The first of the labels that fits, as lines; none where none does."""
    for label in labels:
        wrapped = _balanced(label, width)
        if len(wrapped) <= lines and all(_width(line) <= width for line in wrapped):
            return wrapped
    return []


def _balanced(label: Label, width: float) -> List[str]:
    """The words of a label in as few lines as the width lets, and these as even as they can be."""
    lines = _wrapped(label, width)
    while True:
        widest = max(map(_width, lines))
        narrower = _wrapped(label, widest - 1)
        if len(narrower) > len(lines) or max(map(_width, narrower)) >= widest:
            return lines
        lines = narrower


def _wrapped(label: Label, width: float) -> List[str]:
    """The words of a label, as many in each line as the width lets. A word that is too wide has a line for itself."""
    lines = [label[0]]
    for word in label[1:]:
        longer = f"{lines[-1]} {word}"
        if _width(longer) <= width:
            lines[-1] = longer
        else:
            lines.append(word)
    return lines


def _width(text: str) -> float:
    """How many pixels a small text has at most."""
    return SMALL * sum(map(_ems, text))


def _ems(sign: str) -> float:
    return _EMS.get(sign, _ASCII_EMS if " " <= sign <= "~" else _OTHER_EMS)


def _shortened(title: str, width: float) -> str:
    """The title, or as much of its front as has room, with three dots behind it."""
    ems = width / TITLE / _BOLD
    if sum(map(_ems, title)) <= ems:
        return title
    dots = "..."
    room = ems - sum(map(_ems, dots))
    fitting = itertools.takewhile(lambda end: end <= room, itertools.accumulate(map(_ems, title)))
    return title[:sum(1 for _ in fitting)] + dots


def _clean(text: str) -> str:
    """The text as XML can hold it: white space is a space each, and signs that no XML document may have become U+FFFD."""
    return "".join(" " if sign in "\t\n\r" else sign if _is_xml(ord(sign)) else "\ufffd" for sign in text)


def _is_xml(code: int) -> bool:
    return 0x20 <= code <= 0xD7FF or 0xE000 <= code <= 0xFFFD or 0x10000 <= code <= 0x10FFFF


def _text(parent: ET.Element, x: float, y: float, text: str, style: str) -> None:
    _put(parent, "text", {"class": style, "x": x, "y": y}, text)


def _put(parent: ET.Element, tag: str, attributes: Attributes, text: Optional[str] = None) -> ET.Element:
    """A new element at the end of parent, on a line of its own."""
    written = {name: value if isinstance(value, str) else _figure(value) for name, value in attributes.items()}
    element = ET.SubElement(parent, tag, written)
    element.text = text
    element.tail = "\n"
    return element


def _figure(number: float) -> str:
    """A number with at most two decimals, and without those that are 0."""
    return f"{number:.2f}".rstrip("0").rstrip(".")
