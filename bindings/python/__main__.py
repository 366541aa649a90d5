"""The command line: look, show, ask, next, pack and draw, run as `python3 bindings/python COMMAND ..`.

What a command finds goes to standard output. A refusal of the library is found too: it is printed as `refused: ..`, with status 1. For 17 a second
line tells the byte.
A file that cannot be read or written, a wrong text for `pack` and wrong usage are one line `slots: ..` on standard error, with status 2.
"""
from __future__ import annotations

import argparse
import contextlib
import os
import re
import sys
from typing import Any, Callable, Dict, Iterable, Iterator, List, NoReturn, Tuple

import bills
import packing
import reading
import saving
import slots

WAYS = {"plain": slots.Way.PLAIN, "skips": slots.Way.BY_SKIPS}
COLUMNS = ("list", "cut", "count", "in bits", "in tail", "blocks", "code bytes", "bytes")


def look(given: argparse.Namespace) -> int:
    with _index(given.file) as index:
        slots.look(index)
    print("accepted")
    return 0


def show(given: argparse.Namespace) -> int:
    with _index(given.file) as index:
        read = reading.read(index)
    _print(_described(read))
    return 0


def ask(given: argparse.Namespace) -> int:
    with _index(given.file) as index:
        answer = slots.ask(index, given.way, given.names)
    costs = _costs(index, given.names, answer) if given.way is slots.Way.BY_SKIPS else []  # plainly nothing is sought, and no list has a cost
    _print([f"{_many(len(answer.slots), 'slot')}, {_cost(answer.looks, answer.codes)}", *costs, *map(str, answer.slots)])
    return 0


def next(given: argparse.Namespace) -> int:
    with _index(given.file) as index:
        slot = slots.next(index, given.name, given.slot)
    print("none" if slot is None else slot)
    return 0


def pack(given: argparse.Namespace) -> int:
    with open(given.lists, "rb") as text:
        index = packing.pack(text, given.lists)
    made = reading.read(index)  # looks at it, before it gets a file
    saving.save(given.index, index, given.lists)
    _print(_described(made))
    return 0


def draw(given: argparse.Namespace) -> int:
    import picture  # only this command needs it

    title = os.path.basename(given.file) if given.title is None else given.title
    with _index(given.file) as index:
        drawn = picture.draw(index, _printable(title))
    saving.save(given.out, drawn.encode("utf-8"), given.file)
    return 0


class _Found(slots.Refused):
    """A refusal with 17, and the byte that the library tells nothing of."""

    def __init__(self, refused: slots.Refused, found: reading.Beyond) -> None:
        super().__init__(refused.number, refused.place)
        self.found = found

    def __str__(self) -> str:
        found = self.found
        return (f"{super().__str__()}\nwith cut {found.cut}, byte {found.at} of the file (counted from 0) "
                f"is 0x{found.value:02X}; without the bits beyond the cut it would be 0x{found.clear:02X}")


@contextlib.contextmanager
def _index(path: str) -> Iterator[bytes]:
    """The bytes of an index, for a call that judges them."""
    index = _bytes(path)
    try:
        yield index
    except slots.Refused as refused:
        if refused.refusal is slots.Refusal.BAD_BITS:
            raise _Found(refused, reading.beyond_cut(index, refused.place)) from None
        raise


def _bytes(path: str) -> bytes:
    try:
        with open(path, "rb") as file:
            return file.read(slots.MOST_BYTES + 1)  # of a larger file so much that the library refuses it with 1
    except OSError as error:
        raise OSError(error.errno, error.strerror, path) from None  # a failed read does not tell what was read


def _print(lines: Iterable[str]) -> None:
    print("\n".join(lines))  # at once, as an answer may have a million lines


def _described(index: reading.Index) -> Iterator[str]:
    yield f"u {index.u}, B {index.block}, {_many(len(index.lists), 'list')}, {index.size} bytes"
    yield ""
    yield from _table(index.lists)
    yield ""
    yield f"directory {index.directory_bytes} bytes, trailer {reading.TRAILER} bytes"


def _table(lists: List[reading.List]) -> Iterator[str]:
    """One line for each list, below one with the names of the columns; each column as wide as the widest in it."""
    rows = [(each.name, each.cut, each.count, each.count - each.tail, each.tail, each.blocks, each.code_bytes, each.length) for each in lists]
    cells = [COLUMNS, *(tuple(map(str, row)) for row in rows)]
    widths = [max(map(len, column)) for column in zip(*cells)]
    for row in cells:
        yield "  ".join(cell.rjust(width) for cell, width in zip(row, widths))


def _costs(index: bytes, names: List[int], answer: slots.Answer) -> Iterator[str]:
    """What each list named cost, in the order named, with a bound for its looks; the starting list, where nothing is sought, has a mark instead."""
    lists = reading.read(index).lists
    for name, q, looks, codes in zip(names, bills.searches(index, lists, names), answer.looks_at, answer.codes_at):
        bound = "" if q is None else f" ({_bound(q, lists[name].blocks)})"
        mark = f" (the starting list: {_many(lists[name].count, 'candidate')})" if q is None else ""
        yield f"list {name}: {_many(looks, 'look')}{bound}, {_many(codes, 'code')}{mark}"


def _bound(q: int, m: int) -> str:
    e, most = bills.best(q, m)
    return f"at most {most}: {_many(q, 'search', 'es')}, {_many(m, 'block')}, e {e}"


def _cost(looks: int, codes: int) -> str:
    return f"{_many(looks, 'look')}, {_many(codes, 'code')}"


def _many(count: int, what: str, ending: str = "s") -> str:
    return f"{count} {what}" if count == 1 else f"{count} {what}{ending}"


def _way(text: str) -> slots.Way:
    if text not in WAYS:  # its number is not taken, or a way that was forgotten would turn the first name into one
        raise argparse.ArgumentTypeError(f"'{packing.short(text)}' is no way; write plain or skips")
    return WAYS[text]


def _name(text: str) -> int:
    return _number("list", text)


def _slot(text: str) -> int:
    return _number("slot", text)


def _number(of: str, text: str) -> int:
    """Any number that the library takes; whether there is such a list or slot is for the library to say."""
    if not re.fullmatch("0*[0-9]{1,10}", text) or int(text[-10:]) >= 2**32:
        raise argparse.ArgumentTypeError(f"'{packing.short(text)}' is not the number of a {of}")
    return int(text[-10:])  # what stands before is zeros


Argument = Tuple[str, Dict[str, Any]]
FILE: Argument = ("file", {"metavar": "FILE", "help": "an index"})

# Of each command: what runs it, what it does, more about it with an example, and its arguments.
COMMANDS: List[Tuple[Callable[[argparse.Namespace], int], str, str, List[Argument]]] = [
    (look, "say whether an index is sound", """\
Prints `accepted`, or `refused:` with the number, the reason and the place. Where
a bit beyond a cut is set (17), a second line tells its byte.

example:
  python3 bindings/python look crates/rack/data/rack.idx""", [FILE]),
    (show, "show what an index consists of", """\
Prints u, B and the size of the index, then a line for each list: its cut, how
many slots it holds, how many of them as bits and how many in the tail, how many
blocks and code bytes the tail has, and how many bytes its record has.

example:
  python3 bindings/python show crates/rack/data/rack.idx""", [FILE]),
    (ask, "ask which slots stand in all lists named", """\
Prints how many slots there are and what the search cost, and then one slot to a
line. The names are the numbers of the lists, 1 to 16 of them, counted from 0.

By skips, a line for each name stands before the slots: how often a skip entry of
that list was compared with the slot sought (looks), and how many of its codes were
read. The list with the fewest slots (of several, the one named first) is the
starting list. Its slots are the candidates, which are sought in the other lists,
one list after the other; what one of them lacks is sought no more. The starting
list itself costs nothing. The plain way does not search, and no list has a cost.

Behind the looks of a list stands a bound for them, and what it is made of: q, how
many searches there were (one for each candidate that comes to the list and lies
above its cut), m, how many blocks the list has, and e. For every whole e from 0 on,
the looks are at most q + 2qe + 2 * floor(m / 2^e). That is proved: they never pass
it. Shown is the bound for the e for which it is least (of several, the smallest e).
docs/LOOKS.md has more.

example:
  python3 bindings/python ask crates/rack/data/rack.idx skips 0 1""", [
        FILE,
        ("way", {"metavar": "WAY", "type": _way, "help": "plain: each list is read along; skips: by leaps over blocks"}),
        ("names", {"metavar": "NAME", "type": _name, "nargs": "*", "default": [], "help": "a list"})]),
    (next, "tell the next slot of a list, from a slot on", """\
Prints the least slot of the list that is not below SLOT, which itself counts, or
`none` where the list holds no slot from there on. The name is the number of the
list, counted from 0.

example:
  python3 bindings/python next crates/rack/data/rack.idx 0 7""", [
        FILE,
        ("name", {"metavar": "NAME", "type": _name, "help": "a list"}),
        ("slot", {"metavar": "SLOT", "type": _slot, "help": "the slot to begin at"})]),
    (pack, "pack lists of slots from a text into an index", f"""\
Each list is cut where its record becomes smallest. The index is written only where
all went well; then what it consists of is printed as by `show`. The text:

{packing.FORMAT}
example:
  python3 bindings/python pack lists.txt rack.idx""", [
        ("lists", {"metavar": "LISTS", "help": "the text"}),
        ("index", {"metavar": "INDEX", "help": "the index to be written; what stood there is replaced"})]),
    (draw, "draw an index as a picture", """\
Writes a picture of the lists and their parts, for any web browser.

example:
  python3 bindings/python draw crates/rack/data/rack.idx rack.svg""", [
        FILE,
        ("out", {"metavar": "OUT.svg", "help": "the picture to be written; what stood there is replaced"}),
        ("--title", {"metavar": "TEXT", "help": "what stands above the picture (the name of the file)"})]),
]


class _Parser(argparse.ArgumentParser):
    def error(self, message: str) -> NoReturn:
        self.exit(2, f"slots: {_printable(message)} (--help tells more)\n")


def _parser() -> argparse.ArgumentParser:
    parser = _Parser(prog="python3 bindings/python", description="Looks at an index of packed lists of slots, shows, asks, makes and draws one.",
                     epilog="Each command has a --help of its own, with an example. Status: 0; 1 for a refusal; 2 for a wrong file or wrong usage.")
    commands = parser.add_subparsers(metavar="COMMAND", dest="command", required=True)
    for run, does, more, arguments in COMMANDS:
        made = commands.add_parser(run.__name__, help=does, description=f"{does[0].upper()}{does[1:]}.", epilog=more,
                                   formatter_class=argparse.RawDescriptionHelpFormatter)
        made.set_defaults(run=run)
        for name, settings in arguments:
            made.add_argument(name, **settings)
    return parser


def _printable(text: str) -> str:
    """The text in one line, whatever names and arguments are in it: a line end or another sign that is not printed is spelled out."""
    return "".join(sign if sign.isprintable() else repr(sign)[1:-1] for sign in text)


def _wrong(words: str) -> int:
    with contextlib.suppress(OSError):  # the status still tells
        print(f"slots: {_printable(words)}", file=sys.stderr)
    return 2


def _mute() -> None:
    """Lets standard output lead nowhere: what it still holds cannot be written, and Python would complain of that once more at its end."""
    if sys.stdout is not None:
        os.dup2(os.open(os.devnull, os.O_WRONLY), sys.stdout.fileno())


def _run() -> int:
    try:
        given = _parser().parse_args()
        return int(given.run(given))
    except slots.Refused as refused:
        print(f"refused: {refused}")
        return 1
    finally:
        if sys.stdout is not None:
            sys.stdout.flush()  # here, where a failure is still caught


def main() -> int:
    try:
        return _run()
    except packing.Wrong as wrong:
        return _wrong(str(wrong))
    except BrokenPipeError:
        _mute()
        return 128 + 13  # as a program that the closed pipe ends by signal 13
    except KeyboardInterrupt:
        _mute()
        return 128 + 2
    except OSError as error:
        _mute()
        if isinstance(error, slots.NoLibrary):
            return _wrong(str(error))
        return _wrong(f"{'standard output' if error.filename is None else error.filename}: {error.strerror}")


if __name__ == "__main__":
    sys.exit(main())
