"""report.py FOLDER RAW..   makes RESULTS.md and results.tsv in a folder, of what runs of the program have measured
report.py - RAW..        prints RESULTS.md

The least time of all runs counts. Both files have ratios alone: a time would say more of the machine than of the library. In results.tsv `whole` and
`own` are multiples of the library's time for the same row, and in the rows of a plot of the library's time for the first point of the plot. `own` is
the time less that of looking at the same index; `telling` says whether that is enough of the call to tell something."""
import math
import pathlib
import platform
import shutil
import subprocess
import sys
from typing import Dict, Iterable, List, NamedTuple, Optional, Tuple

OTHERS = ["second", "CRoaring", "beside"]
TELLING = 0.03  # of a call: a smaller own share is lost in what two times differ by
TINY = 0.1  # nanoseconds
SLOW = 1.05
SLOWEST = 12

# The topics in the order of the report, and whether what a call does beside looking is shown.
TOPICS = {"look": False, "ask": True, "count": True, "test": True, "next": True, "write": False, "close": False}


class Time(NamedTuple):
    """Of one side: the whole call, and looking at the same index."""

    whole: float
    look: float

    @property
    def own(self) -> float:
        return max(self.whole - self.look, TINY)

    @property
    def telling(self) -> bool:
        return self.whole - self.look >= TELLING * self.whole


class Row(NamedTuple):
    topic: str
    rack: str
    what: str
    x: str
    size: int
    times: Dict[str, Time]

    def ratio(self, other: str) -> Optional[float]:
        """The library's time by that of another side."""
        return self.times["library"].whole / self.times[other].whole if other in self.times else None

    def own_ratio(self, other: str) -> Optional[float]:
        """The same without looking, where both have enough of that."""
        if other not in self.times:
            return None
        mine, its = self.times["library"], self.times[other]
        return mine.own / its.own if mine.telling and its.telling else None


Facts = Dict[str, str]
Rows = Dict[Tuple[str, ...], Row]


def take(line: str, facts: Facts, rows: Rows) -> None:
    """One line of a run: something of the run itself, or the times of a side for a row."""
    if line.startswith("# "):
        name, value = line[2:].split("\t")
        facts[name] = value
        return
    topic, rack, what, x, size, side, whole, look = line.split("\t")
    row = rows.setdefault((topic, rack, what, x), Row(topic, rack, what, x, int(size), {}))
    before = row.times.get(side, Time(math.inf, math.inf))
    row.times[side] = Time(min(float(whole), before.whole), min(float(look), before.look))


def read(paths: List[str]) -> Tuple[Facts, List[Row]]:
    facts: Facts = {}
    rows: Rows = {}
    for path in paths:
        for line in pathlib.Path(path).read_text().splitlines():
            take(line, facts, rows)
    facts["runs"] = str(len(paths))
    return facts, list(rows.values())


def line(cells: Iterable[str]) -> str:
    return "| " + " | ".join(cells) + " |"


def cell(row: Optional[Row], side: str, own: bool) -> str:
    """A ratio, and in brackets that of the own share; · where that tells nothing."""
    ratio = row.ratio(side) if row is not None else None
    if row is None or ratio is None:
        return ""
    share = row.own_ratio(side)
    return f"{ratio:.2f}" + (f" ({'·' if share is None else f'{share:.2f}'})" if own else "")


def unique(names: Iterable[str]) -> List[str]:
    return list(dict.fromkeys(names))


def table(corner: str, cells: Dict[Tuple[str, str], Row], side: str, own: bool) -> List[str]:
    """A table over two names of each row: the first goes down, the second across."""
    across = unique(name for _, name in cells)
    lines = [line([corner] + across), "|---|" + "---:|" * len(across)]
    for down in unique(name for name, _ in cells):
        lines.append(line([down] + [cell(cells.get((down, name)), side, own) for name in across]))
    return lines


def tables(topic: str, rows: List[Row], side: str) -> List[str]:
    """The tables of a topic beside one other side. Questions go down, as they are many, and there is a table for each size of the index."""
    if not any(side in row.times for row in rows):
        return []
    if topic != "ask":
        return ["", f"library / {side}:", ""] + table("index", {(row.rack, row.what): row for row in rows}, side, TOPICS[topic])
    lines: List[str] = []
    for size in unique(row.rack.split(", ")[0] for row in rows):
        cells = {(row.what, row.rack[len(size) + 2 :]): row for row in rows if row.rack.startswith(size)}
        lines += ["", f"library / {side}, index of {size}:", ""] + table("lists named", cells, side, True)
    return lines


def mean(ratios: List[float]) -> float:
    return math.exp(sum(map(math.log, ratios)) / len(ratios))


def known(rows: List[Row], side: str, own: bool) -> List[Tuple[float, Row]]:
    """The ratios there are, with their rows."""
    pairs = [(row.own_ratio(side) if own else row.ratio(side), row) for row in rows]
    return [(ratio, row) for ratio, row in pairs if ratio is not None]


def summary(topic: str, rows: List[Row], side: str, own: bool) -> List[str]:
    """One line: the mean of a topic's ratios, how many are above 1, and the largest."""
    pairs = known(rows, side, own)
    if not pairs:
        return []
    ratios = [ratio for ratio, _ in pairs]
    worst, row = max(pairs, key=lambda pair: pair[0])
    slow = sum(ratio > SLOW for ratio in ratios)
    name = f"{topic}, own share" if own else topic
    return [line([name, str(len(ratios)), f"{mean(ratios):.2f}", f"{min(ratios):.2f}", f"{worst:.2f}", str(slow), f"{row.rack}: {row.what}"])]


def summaries(by_topic: Dict[str, List[Row]], side: str) -> List[str]:
    lines = ["", f"library / {side}:", "", line(["topic", "rows", "mean", "least", "most", f"above {SLOW}", "the row with the most"]), "|---|" + "---:|" * 5 + "---|"]
    for topic, rows in by_topic.items():
        lines += summary(topic, rows, side, False) + (summary(topic, rows, side, True) if TOPICS[topic] else [])
    return lines


def slowest(rows: List[Row]) -> List[str]:
    """The rows in which the library is slowest beside the second implementation, by whole calls."""
    pairs = [pair for pair in known(rows, "second", False) if pair[0] > SLOW and pair[1].topic in TOPICS]
    pairs = sorted(pairs, key=lambda pair: -pair[0])[:SLOWEST]
    lines = ["", f"Where the library is slowest beside second, of those above {SLOW}:", "", line(["topic", "index", "call", "library / second"]), "|---|---|---|---:|"]
    return lines + [line([row.topic, row.rack, row.what, f"{ratio:.2f}"]) for ratio, row in pairs] if pairs else []


def output(command: List[str]) -> str:
    """The first line that a command prints; empty where there is no such command."""
    if shutil.which(command[0]) is None:
        return ""
    done = subprocess.run(command, stdout=subprocess.PIPE, stderr=subprocess.DEVNULL, universal_newlines=True)
    return (done.stdout.splitlines() or [""])[0]


def processor() -> str:
    path = pathlib.Path("/proc/cpuinfo")
    lines = path.read_text().splitlines() if path.exists() else []
    names = [text.split(":", 1)[1].strip() for text in lines if text.startswith("model name")]
    return names[0] if names else "unknown"


def head(facts: Facts, sides: List[str]) -> List[str]:
    machine = platform.machine().replace("x86_64", "x86-64")
    lines = [
        "# How fast the library is",
        "",
        "`./bench` makes this page; [README.md](README.md) says how it measures. It has ratios of times alone: below 1 the library is the faster one.",
        "In brackets stands the *own share*: a call less looking at the same index. `·` is where that is under 3 % of the call of either side and tells nothing.",
        "",
        f"- machine: {machine}, {processor()}",
        f"- rounds: {facts.get('rounds', '?')} in each of {facts['runs']} runs, of which the least time counts",
        f"- CRoaring: {facts.get('CRoaring', '?')}",
    ]
    if "beside" in sides:
        lines.append("- beside: another build of the library")
    versions = [("rustc", output(["rustc", "--version"])), ("C compiler", output(["cc", "--version"])), ("kit", output(["rt", "version"]))]
    return lines + [f"- {name}: {text}" for name, text in versions if text]


def page(facts: Facts, rows: List[Row]) -> str:
    sides = [side for side in OTHERS if any(side in row.times for row in rows)]
    by_topic = {topic: [row for row in rows if row.topic == topic] for topic in TOPICS}
    by_topic = {topic: of_topic for topic, of_topic in by_topic.items() if of_topic}
    lines = head(facts, sides) + ["", "## In short", "", "Means are geometric."]
    for side in sides:
        lines += summaries(by_topic, side)
    lines += slowest(rows)
    for topic, of_topic in by_topic.items():
        lines += ["", f"## {topic}"] + [text for side in sides for text in tables(topic, of_topic, side)]
    return "\n".join(lines) + "\n"


def firsts(rows: List[Row]) -> Dict[str, Time]:
    """The library's time for the first point of each plot that tells something."""
    found: Dict[str, Time] = {}
    for row in rows:
        time = row.times["library"]
        if row.x and (time.telling or row.topic == "plot look"):
            found.setdefault(row.topic, time)
    return found


def values(rows: List[Row]) -> str:
    """results.tsv."""
    lines = ["\t".join(["topic", "index", "call", "x", "bytes", "side", "whole", "own", "telling"])]
    first = firsts(rows)
    for row in rows:
        unit = first[row.topic] if row.x else row.times["library"]
        for side, time in row.times.items():
            cells = [row.topic, row.rack, row.what, row.x, str(row.size), side]
            cells += [f"{time.whole / unit.whole:.4g}", f"{time.own / unit.own:.4g}" if time.telling else "", "yes" if time.telling else "no"]
            lines.append("\t".join(cells))
    return "\n".join(lines) + "\n"


def main(arguments: List[str]) -> int:
    if len(arguments) < 2:
        print(__doc__, file=sys.stderr)
        return 2
    facts, rows = read(arguments[1:])
    if arguments[0] == "-":
        print(page(facts, rows), end="")
        return 0
    folder = pathlib.Path(arguments[0])
    (folder / "RESULTS.md").write_text(page(facts, rows))
    (folder / "results.tsv").write_text(values(rows))
    return 0


if __name__ == "__main__":
    sys.exit(main(sys.argv[1:]))
