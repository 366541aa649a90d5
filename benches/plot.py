"""plot.py RESULTS SVG: draws how the time of looking and of asking grows, from results.tsv.

Three panels: looking as the index grows, asking as the names grow, asking as the slots sought grow; the last two without looking. A time is told as a
multiple of the library's for the first point of its panel. Points where what is left is too little to tell something are left out."""
import csv
import math
import pathlib
import sys
from typing import Callable, Dict, List, NamedTuple, Sequence, Tuple

WIDTH, HEIGHT = 1200, 430
TOP, BOTTOM, LEFT, RIGHT, GAP = 62, 112, 66, 26, 70
PANEL = (WIDTH - LEFT - RIGHT - 2 * GAP) / 3
COLOURS = {"library": "#1f5fa8", "second": "#c8601a"}
DASHES = {"plain": "", "by skips": "7 4", "look": ""}
FONT = 'font-family="Helvetica, Arial, sans-serif"'

Point = Tuple[float, float]


class Note(NamedTuple):
    """Words beside the point of a line that is nearest to x."""

    side: str
    line: str
    x: float
    right: float
    down: float
    anchor: str
    words: str


# By panel. The colours tell the sides, so that a note for both stands at one of their lines.
NOTES = {
    "Looking at an index": [
        Note("second", "look", 5e5, -9, -9, "end", "second implementation"),
        Note("library", "look", 5e5, 9, 17, "start", "library"),
    ],
    "Asking, by names": [
        Note("second", "by skips", 12, 0, -11, "middle", "by skips"),
        Note("library", "plain", 12, 0, -11, "middle", "plain"),
    ],
    "Asking, by slots sought": [
        Note("library", "50 %, plain", 100, 0, -11, "middle", "50 %, plain"),
        Note("library", "1 %, plain", 40, 0, -11, "middle", "1 %, plain"),
        Note("library", "1 %, by skips", 100, 12, 15, "start", "by skips"),
    ],
}


class Axis(NamedTuple):
    """From the least to the most value shown, by powers or evenly, with the values that have a mark."""

    low: float
    high: float
    log: bool
    marks: Sequence[float]

    def place(self, value: float) -> float:
        """0 at the low end, 1 at the high one."""
        scale: Callable[[float], float] = math.log10 if self.log else float
        return (scale(value) - scale(self.low)) / (scale(self.high) - scale(self.low))


class Panel(NamedTuple):
    title: str
    across: str
    lines: Dict[Tuple[str, str], List[Point]]
    x: Axis
    y: Axis


def rounded(value: float, up: bool) -> float:
    """The next of 1, 2 and 5 times a power of ten."""
    power = 10.0 ** math.floor(math.log10(value))
    steps = [power * step for step in (1, 2, 5, 10)]
    return next(step for step in steps if step >= value * 0.999) if up else next(step for step in reversed(steps) if step <= value * 1.001)


def powers(low: float, high: float) -> Axis:
    """An axis by powers of ten that has these values, and marks at the powers."""
    low, high = rounded(low, False), rounded(high, True)
    first, last = math.ceil(math.log10(low) - 1e-9), math.floor(math.log10(high) + 1e-9)
    return Axis(low, high, True, [10.0**power for power in range(first, last + 1)])


def even(high: float) -> Axis:
    """An axis from 0 on, with four to eight marks."""
    step = 10.0 ** math.floor(math.log10(high))
    step = next(step * part for part in (0.1, 0.2, 0.5, 1.0, 2.0) if high / (step * part) <= 8)
    marks = [step * i for i in range(math.ceil(high / step - 1e-9) + 1)]
    return Axis(0, marks[-1], False, marks)


def read(path: str, topic: str, field: str) -> Dict[Tuple[str, str], List[Point]]:
    """The lines of a panel, by side and name."""
    lines: Dict[Tuple[str, str], List[Point]] = {}
    with open(path, newline="") as file:
        for row in csv.DictReader(file, delimiter="\t"):
            if row["topic"] == topic and row["side"] in COLOURS and (field == "whole" or row["telling"] == "yes"):
                x = float(row["bytes"] if topic == "plot look" else row["x"])
                lines.setdefault((row["side"], row["call"]), []).append((x, float(row[field])))
    return lines


def panels(path: str) -> List[Panel]:
    made = []
    for topic, field, title, across in [
        ("plot look", "whole", "Looking at an index", "bytes of the index"),
        ("plot names", "own", "Asking, by names", "lists named, each of 5 %"),
        ("plot candidates", "own", "Asking, by slots sought", "slots of the smaller list"),
    ]:
        lines = read(path, topic, field)
        xs = [x for points in lines.values() for x, _ in points]
        ys = [y for points in lines.values() for _, y in points]
        x = Axis(1, 16, False, [1, 4, 8, 12, 16]) if topic == "plot names" else powers(min(xs), max(xs))
        made.append(Panel(title, across, lines, x, even(max(ys)) if topic == "plot names" else powers(min(ys), max(ys))))
    return made


def number(value: float) -> str:
    """10 k, 1 M; small ones as they are."""
    if value >= 1e6:
        return f"{value / 1e6:g} M"
    return f"{value / 1e3:g} k" if value >= 1e4 else f"{value:g}"


def text(x: float, y: float, words: str, size: int = 12, anchor: str = "middle", more: str = "") -> str:
    return f'<text x="{x:.1f}" y="{y:.1f}" {FONT} font-size="{size}" text-anchor="{anchor}" fill="#333" {more}>{words}</text>'


def grid(panel: Panel, left: float) -> List[str]:
    """The lines across, with their values."""
    bottom = HEIGHT - BOTTOM
    made = []
    for mark in panel.y.marks:
        y = bottom - panel.y.place(mark) * (bottom - TOP)
        made.append(f'<line x1="{left:.1f}" y1="{y:.1f}" x2="{left + PANEL:.1f}" y2="{y:.1f}" stroke="#e3e3e3"/>')
        made.append(text(left - 7, y + 4, number(mark), 11, "end"))
    return made


def frame(panel: Panel, left: float) -> List[str]:
    """The axes, the marks below, and the words for them."""
    bottom = HEIGHT - BOTTOM
    made = [f'<path d="M{left:.1f} {TOP}V{bottom}H{left + PANEL:.1f}" fill="none" stroke="#888"/>']
    for mark in panel.x.marks:
        x = left + panel.x.place(mark) * PANEL
        made.append(f'<line x1="{x:.1f}" y1="{bottom}" x2="{x:.1f}" y2="{bottom + 5}" stroke="#888"/>')
        made.append(text(x, bottom + 19, number(mark), 11))
    made.append(text(left + PANEL / 2, bottom + 40, panel.across))
    made.append(text(left + PANEL / 2, TOP - 18, panel.title, 15, more='font-weight="bold"'))
    return made


def drawn(panel: Panel, left: float, side: str, name: str, points: List[Point]) -> List[str]:
    """One line with its points; hollow points belong to the list of 1 %."""
    bottom = HEIGHT - BOTTOM
    placed = [(left + panel.x.place(x) * PANEL, bottom - panel.y.place(y) * (bottom - TOP)) for x, y in points]
    way = name.split(", ")[-1]
    dash = f' stroke-dasharray="{DASHES[way]}"' if DASHES[way] else ""
    path = "L".join(f"{x:.1f} {y:.1f}" for x, y in placed)
    fill = "#fff" if name.startswith("1 %") else COLOURS[side]
    made = [f'<path d="M{path}" fill="none" stroke="{COLOURS[side]}" stroke-width="2"{dash}/>']
    made += [f'<circle cx="{x:.1f}" cy="{y:.1f}" r="3" fill="{fill}" stroke="{COLOURS[side]}" stroke-width="1.4"/>' for x, y in placed]
    return made


def noted(panel: Panel, left: float) -> List[str]:
    """The notes of a panel, each at the point of its line that is nearest to where it belongs."""
    bottom = HEIGHT - BOTTOM
    made = []
    for note in NOTES[panel.title]:
        points = panel.lines.get((note.side, note.line), [])
        for x, y in sorted(points, key=lambda point: abs(math.log(point[0] / note.x)))[:1]:
            across, down = left + panel.x.place(x) * PANEL, bottom - panel.y.place(y) * (bottom - TOP)
            made.append(text(across + note.right, down + note.down, note.words, 12, note.anchor))
    return made


def legend() -> List[str]:
    y = HEIGHT - 28
    made = []
    entries = [("library", COLOURS["library"], "", None), ("second implementation", COLOURS["second"], "", None)]
    entries += [("plain", "#555", "", None), ("by skips", "#555", DASHES["by skips"], None)]
    entries += [("against a list of 50 %", "#555", "", "#555"), ("against a list of 1 %", "#555", "", "#fff")]
    x = 90.0
    for words, colour, dash, fill in entries:
        dashed = f' stroke-dasharray="{dash}"' if dash else ""
        made.append(f'<line x1="{x}" y1="{y}" x2="{x + 34}" y2="{y}" stroke="{colour}" stroke-width="2"{dashed}/>')
        if fill is not None:
            made.append(f'<circle cx="{x + 17}" cy="{y}" r="3.4" fill="{fill}" stroke="{colour}" stroke-width="1.4"/>')
        made.append(text(x + 42, y + 4, words, 12, "start"))
        x += 42 + 7.2 * len(words) + 34
    return made


def drawing(panel: Panel, left: float) -> List[str]:
    """A whole panel."""
    lines = [part for (side, name), points in panel.lines.items() for part in drawn(panel, left, side, name, points)]
    return grid(panel, left) + frame(panel, left) + lines + noted(panel, left)


def picture(path: str) -> str:
    parts = [f'<svg xmlns="http://www.w3.org/2000/svg" viewBox="0 0 {WIDTH} {HEIGHT}" width="{WIDTH}" height="{HEIGHT}">']
    parts.append("<title>How the time of looking and of asking grows</title>")
    parts.append(f'<rect width="{WIDTH}" height="{HEIGHT}" fill="#fff"/>')
    for i, panel in enumerate(panels(path)):
        parts += drawing(panel, LEFT + i * (PANEL + GAP))
    middle = TOP + (HEIGHT - BOTTOM - TOP) / 2
    parts.append(text(16, middle, "time (the library's first point is 1)", more=f'transform="rotate(-90 16 {middle})"'))
    return "\n".join(parts + legend() + ["</svg>"]) + "\n"


def main(arguments: List[str]) -> int:
    if len(arguments) != 2:
        print(__doc__, file=sys.stderr)
        return 2
    pathlib.Path(arguments[1]).write_text(picture(arguments[0]))
    return 0


if __name__ == "__main__":
    sys.exit(main(sys.argv[1:]))
