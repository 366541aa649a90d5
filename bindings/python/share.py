"""Which slots do lists 0 and 1 of an index share, and what did it cost to find out?   python3 share.py rack.idx"""
import sys

import slots


def main(path: str) -> int:
    try:
        with open(path, "rb") as file:
            index = file.read()
        slots.look(index)
        answer = slots.ask(index, slots.Way.BY_SKIPS, [0, 1])
    except (OSError, slots.Refused) as error:
        print(error, file=sys.stderr)
        return 1
    for slot in answer.slots:
        print(slot)
    print(f"{answer.looks} looks, {answer.codes} codes")
    return 0


if __name__ == "__main__":
    if len(sys.argv) != 2:
        sys.exit("share.py takes one argument, the path of an index")
    sys.exit(main(sys.argv[1]))
