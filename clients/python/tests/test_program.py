"""The client with the program itself, which the environment variable MPROF names. Without it these tests are skipped.

    MPROF=../../crates/mprof/out/mprof python3 -m unittest

The small sessions are those of docs/FORMAT.md.
"""

import faulthandler
import math
import os
import tempfile
import unittest
from decimal import Decimal
from typing import Any

import mprof
from mprof import Refused, Session

PROGRAM = os.path.abspath(os.environ["MPROF"]) if "MPROF" in os.environ else ""
SIX = [1, 2, 3, 1, 2, 3]


def setUpModule() -> None:
    faulthandler.dump_traceback_later(600, exit=True)


def tearDownModule() -> None:
    faulthandler.cancel_dump_traceback_later()


@unittest.skipUnless(PROGRAM, "MPROF doesn't name the program")
class Program(unittest.TestCase):
    def session(self, window: int = 3, **settings: Any) -> Session:
        settings.setdefault("arrays", False)
        session = Session(window, program=PROGRAM, **settings)
        self.addCleanup(session._kill)
        return session

    def test_profile_entries_and_windows(self) -> None:
        with self.session() as session:
            self.assertEqual(session.append(0, SIX), 6)
            profile = session.profile(0)
            self.assertEqual(profile.start, [0, 1, 2, 3])
            self.assertEqual(profile.squares, [0, 6, 6, 0])
            self.assertEqual(profile.index, [3, 3, 0, 0])
            self.assertEqual(profile.left, [-1, -1, 0, 0])
            self.assertEqual(profile.right, [3, 3, -1, -1])
            self.assertEqual(profile.distances, [0.0, math.sqrt(6), math.sqrt(6), 0.0])
            self.assertEqual(session.entry(0, 1), mprof.Entry(1, 6, 3, -1, 3, math.sqrt(6)))
            self.assertEqual(session.nearest(0, 2).index, [[3, 2], [3, -1], [0, -1], [0, 1]])
            self.assertEqual([it.best.square for it in session.pan(0, 3, 4) if it.best], [0, 10])
            self.assertEqual(session.close(), 0)

    def test_a_profile_in_parts(self) -> None:
        with tempfile.TemporaryDirectory() as folder, self.session(folder=folder) as session:
            with open(os.path.join(folder, "s.csv"), "w") as file:
                file.write("".join("%d\n" % sample for sample in SIX))
            self.assertEqual(session.lazy(1, "s.csv", 0), 6)
            self.assertEqual(session.partial(1).uncovered, 2)
            self.assertEqual(session.advance(1, 1), mprof.Advanced(done=1, left=1))
            self.assertEqual(session.partial(1).squares, [6, 6, 6, 6])
            self.assertEqual([it.squares for it in session.parts(1, 5)], [[0, 6, 6, 0]])
            with self.assertRaises(Refused) as caught:
                session.profile(1)
            self.assertEqual(caught.exception.word, "lazy")

    def test_a_window_without_another_one(self) -> None:
        with self.session() as session:
            session.append(0, [1, 2])
            self.assertEqual(len(session.profile(0)), 0)
            session.append(0, [3])
            self.assertEqual(session.profile(0).table(), [[math.inf, -1, -1, -1]])
            self.assertEqual(session.entry(0, 0), mprof.Entry(0, None, -1, -1, -1, math.inf))

    def test_samples_at_a_scale(self) -> None:
        with self.session(scale=2) as session:
            session.append(0, [1.5, "-.25", None, Decimal("7"), math.nan, 1e-2])
            self.assertEqual(session.window(0, 1), [Decimal("-0.25"), None, Decimal("7.00")])
            self.assertEqual(session.window(0, 3), [Decimal("7.00"), None, Decimal("0.01")])
            session.open(0)
            session.append(0, [0, 0, 0, 1, 0, 0])
            self.assertEqual(session.entry(0, 0), mprof.Entry(0, 10_000, 2, -1, 2, 1.0))
            with self.assertRaises(Refused) as caught:
                session.append(0, [0.25, 0.125])
            self.assertEqual((caught.exception.word, caught.exception.at), ("sample", 2))

    def test_wide_samples(self) -> None:
        with self.session(wide=True) as session:
            least, greatest = -(2**47), 2**47 - 1
            session.append(0, [least] * 3 + [float(greatest)] * 3)
            self.assertEqual(session.entry(0, 0).square, 158456325028527549287181058050)
            self.assertRaises(Refused, session.append, 0, [greatest + 1])
        with self.session() as session:
            self.assertRaises(Refused, session.append, 0, [2**31])

    def test_several_channels(self) -> None:
        with self.session() as session:
            self.assertEqual(session.open(1, 2), 0)
            session.append(0, [1, 2, 3, 4])
            session.append(1, [(2, 7), (3, 7), (4, 8), (9, 7)])
            join = session.join(0, (1, 0))
            self.assertEqual((join.squares, join.index), ([3, 0], [0, 0]))
            self.assertEqual(session.multi(1, 2).squares, [None, None])
            self.assertEqual(session.mpdist(0, 1), mprof.Distance(0, 0.0))
            self.assertEqual(session.mpdist(0, (1, 1)) is None, False)
            session.open(2)
            self.assertIs(session.mpdist(2, 2), None)

    def test_consensus(self) -> None:
        with self.session() as session:
            session.open(1)
            session.open(2)
            for slot, samples in enumerate(([1, 2, 3, 4], [9, 1, 2, 3], [2, 3, 4, 9])):
                session.append(slot, samples)
            found = session.consensus([0, 1, 2])
            assert found is not None
            self.assertEqual((found.square, found.radius, found.series, found.start), (3, math.sqrt(3), 0, 0))
            self.assertEqual((found.nearest.index, found.nearest.squares), ([0, 1, 0], [0, 0, 3]))
            session.open(2)
            self.assertIs(session.consensus([0, 1, 2]), None)

    def test_what_is_found_in_a_profile(self) -> None:
        with self.session() as session:
            session.append(0, SIX)
            found = session.match(0, 0, 0, session.square_of("2.5"), 10)
            self.assertEqual((found.index, found.squares), ([0, 3], [0, 0]))
            (motif,) = session.motifs(0, 2, 6, 6)
            self.assertEqual((motif.start, motif.matches.index), (0, [0, 3]))
            discords = session.discords(0, 2)
            self.assertEqual((discords.start, discords.squares, discords.index), ([1, 3], [6, 0], [3, 0]))
            self.assertEqual(session.segments(0, 2, 0), [mprof.Segment(3, 0, 6)])
            session.open(0)
            session.append(0, [5] * 6)
            self.assertEqual(session.chains(), mprof.Chains([[0, 2], [1], [3]], 0))
            self.assertEqual(session.chain(0, 0), [0, 2])
            session.open(0)
            self.assertEqual(session.chains(), mprof.Chains([], None))

    def test_the_last_samples_are_kept(self) -> None:
        with self.session() as session:
            session.keep(0, 5)
            self.assertEqual(session.append(0, [*SIX, 1]), 7)
            profile = session.profile(0)
            self.assertEqual((profile.start, profile.index), ([2, 3, 4], [0, 1, 2]))
            with self.assertRaises(Refused) as caught:
                session.entry(0, 1)
            self.assertEqual((caught.exception.line, caught.exception.word), (5, "index"))
            self.assertRaises(Refused, session.chains)

    def test_samples_one_by_one(self) -> None:
        with self.session() as session:
            session.keep(0, 5)
            entries = list(session.stream(0, [*SIX, 1]))
            self.assertEqual([entry.start for entry in entries], [0, 1, 2, 3, 4])
            self.assertEqual([entry.square for entry in entries], [None, None, 6, 6, 6])

    def test_files(self) -> None:
        with tempfile.TemporaryDirectory() as folder:
            with open(os.path.join(folder, "day.csv"), "w") as file:
                file.write("time,low,high\n1,2.0,7\n2,,7.5\n")
            with self.session(scale=1, folder=folder) as session:
                session.open(1, 2)
                self.assertEqual(session.load(1, "day.csv", [1, 2], header=True), 2)
                with self.assertRaises(Refused) as caught:
                    session.load(0, "day.csv", 1)
                self.assertEqual((caught.exception.word, caught.exception.at), ("record", 1))
                with self.assertRaises(Refused) as caught:
                    session.load(0, "none.csv", 1)
                self.assertEqual(caught.exception.word, "file")
                with self.assertRaises(mprof.ReadFailed):
                    session.load(0, folder, 1)

    def test_many_samples_and_long_reports(self) -> None:
        with self.session(wide=True, scale=3) as session:
            session.keep(0, 40)
            # more than one line holds
            self.assertEqual(session.append(0, [k * 0.001 + 10_000_000 for k in range(120_000)]), 120_000)
            self.assertEqual(session.profile(0).start, list(range(119_960, 119_998)))
            session.open(0)
            session.append(0, [k * k % 101 for k in range(2_500)])
            for _ in range(3):
                self.assertEqual(len(session.nearest(0, 4)), 2_498)

    def test_settings_outside_their_limits(self) -> None:
        for settings in ({"window": 2}, {"scale": 10}, {"workers": 33}, {"tile": 0}, {"scale": -1}):
            self.assertRaises(mprof.WordsRefused, self.session, **settings)

    def test_the_end(self) -> None:
        session = self.session()
        self.assertEqual(session.end(), 0)
        self.assertRaises(mprof.MprofError, session.profile, 0)
        session = self.session()
        self.assertRaises(Refused, session.ask, "frob")
        self.assertEqual(session.end(), 1)

    def test_made_series(self) -> None:
        made = mprof.generate(8, 7, 500, program=PROGRAM)
        self.assertEqual(made.best, mprof.Pair(398, 209, 273))
        self.assertEqual(made.discord, mprof.Pair(2750, 369, 113))
        self.assertEqual(made.segment, mprof.Segment(452, 31059, 37064))
        self.assertEqual(mprof.generate(3, 0, 3, program=PROGRAM), mprof.Made(3, 1, None, None, None))


if __name__ == "__main__":
    unittest.main()
