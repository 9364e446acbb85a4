#!/usr/bin/env python3
"""Follows a series sample by sample, and tells of each newest window that is further than a limit from all before it.

    follow.py PROGRAM WINDOW SCALE FILE SKIP LIMIT

FILE has a header and two columns: a name for each moment, and the sample, or nothing where it is missing. Of the first SKIP
samples nothing is told. LIMIT is a squared distance.
"""
import csv
import sys
from pathlib import Path

sys.path.insert(0, str(Path(__file__).resolve().parent.parent / "clients" / "python"))
from mprof import Session  # noqa: E402


def main(program, window, scale, file, skip, limit):
    with open(file, newline="") as lines:
        rows = list(csv.reader(lines))[1:]
    with Session(window, scale, program=program) as session:
        for entry in session.stream(0, (sample for _, sample in rows)):
            place = entry.start + window - 1
            if place >= skip and entry.square is not None and entry.square > limit:
                moment, like = rows[place][0], rows[entry.index + window - 1][0]
                print("%s: %d from the nearest, which ends with %s" % (moment, entry.square, like), flush=True)


if __name__ == "__main__":
    if len(sys.argv) != 7:
        sys.exit(__doc__)
    main(sys.argv[1], int(sys.argv[2]), int(sys.argv[3]), sys.argv[4], int(sys.argv[5]), int(sys.argv[6]))
