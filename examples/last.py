#!/usr/bin/env python3
"""Follows samples that come without an end, and tells of each block what is odd in the last ones.

    last.py PROGRAM WINDOW SCALE KEEP BLOCK

The samples are lines of the standard input, an empty one where a sample is missing. KEEP of them are kept. Behind each BLOCK
it prints how far the newest window is from its nearest one, and which of the windows is furthest from its nearest one.
"""
import itertools
import sys
from pathlib import Path

sys.path.insert(0, str(Path(__file__).resolve().parent.parent / "clients" / "python"))
from mprof import Session  # noqa: E402


def distance_text(entry):
    return "- from -" if entry.square is None else "%d from %d" % (entry.square, entry.index)


def oddest_text(discords):
    for start, square, index in zip(discords.start, discords.squares, discords.index):
        return ", the oddest one is %d, %d from %d" % (start, square, index)
    return ""


def main(program, window, scale, keep, block):
    samples = (line.strip() for line in sys.stdin)
    with Session(window, scale, program=program) as session:
        session.keep(0, keep)
        while part := list(itertools.islice(samples, block)):
            count = session.append(0, part)
            if count < window:
                continue
            newest = distance_text(session.entry(0, count - window))
            oddest = oddest_text(session.discords(0, 1))
            print("%d samples: the newest window is %s%s" % (count, newest, oddest), flush=True)


if __name__ == "__main__":
    if len(sys.argv) != 6:
        sys.exit(__doc__)
    main(sys.argv[1], *map(int, sys.argv[2:]))
