"""What the client does by itself, shown with a stand-in for the program."""

import faulthandler
import json
import math
import os
import pickle
import sys
import tempfile
import unittest
from decimal import Decimal
from fractions import Fraction
from typing import Any, Dict, List, Union

import mprof
from mprof import Refused, Session, rounded, spell

try:
    import numpy
except ImportError:
    numpy = None  # type: ignore[assignment]

RUN = os.path.join(
    os.path.dirname(os.path.abspath(__file__)), "../../../crates/stored_runs/data/session_of_the_client"
)
FAKE = os.path.join(os.path.dirname(os.path.abspath(__file__)), "fake.py")
OK: Dict[str, Any] = {"kind": "ok", "line": 1}


def setUpModule() -> None:
    # a session that waits for ever ends the tests
    faulthandler.dump_traceback_later(120, exit=True)


def tearDownModule() -> None:
    faulthandler.cancel_dump_traceback_later()


class Faked(unittest.TestCase):
    def setUp(self) -> None:
        folder = tempfile.TemporaryDirectory()
        self.addCleanup(folder.cleanup)
        self.folder = folder.name

    def session(self, answers: List[Union[str, Dict[str, Any]]], window: int = 3, **settings: Any) -> Session:
        """A session that is answered so. The first answer is that to the version."""
        texts = [it if isinstance(it, str) else json.dumps(it, sort_keys=True, separators=(",", ":")) for it in answers]
        with open(os.path.join(self.folder, "answers"), "w") as file:
            file.write("".join(text + "\n" for text in texts))
        settings.setdefault("arrays", False)
        session = Session(window, program=[sys.executable, "-I", "-S", FAKE, self.folder], **settings)
        self.addCleanup(session._kill)
        return session

    def written(self, name: str) -> str:
        with open(os.path.join(self.folder, name)) as file:
            return file.read()


class Spelling(unittest.TestCase):
    def test_numbers_have_all_digits_and_no_exponent(self) -> None:
        rows = [
            (7, "7"),
            (-0.5, "-0.5"),
            (0.1, "0.1"),
            (1e-7, "0.0000001"),
            (1.5e-9, "0.0000000015"),
            (1e22, "10000000000000000000000"),
            (-2.5e16, "-25000000000000000"),
            (140737488355327.0, "140737488355327.0"),
            (Decimal("1E+3"), "1000"),
            (Decimal("-1.50"), "-1.50"),
            (Decimal("1E-9"), "0.000000001"),
            ("+.5", "+.5"),
            (" 7. ", "7."),
            ("five", "five"),
        ]
        for sample, text in rows:
            self.assertEqual(spell(sample), text)

    def test_missing_samples(self) -> None:
        for sample in (None, math.nan, Decimal("NaN"), "", " ", "?"):
            self.assertEqual(spell(sample), "?")
        self.assertEqual(spell("NA"), "NA")

    def test_no_samples(self) -> None:
        for sample in (math.inf, -math.inf, Decimal("Infinity"), True, "1 2", "1,2", "1\n2", "1\r2", "1\u00a02"):
            self.assertRaises(ValueError, spell, sample)
        for sample in (Fraction(1, 2), [1], b"1"):
            self.assertRaises(TypeError, spell, sample)

    def test_rounded_to_the_nearest_and_to_the_even_one_of_two(self) -> None:
        samples = [0.1 + 0.2, "2.5", Decimal("3.5"), None, -1e-12, 12345678901234567890, math.nan]
        wanted = ["0", "2", "4", None, "0", "12345678901234567890", None]
        self.assertEqual(rounded(samples, 0), [None if it is None else Decimal(it) for it in wanted])
        texts = [spell(it) for it in rounded([0.1 + 0.2, 1e-12, 1e300], 2)]
        self.assertEqual(texts, ["0.30", "0.00", "1" + "0" * 300 + ".00"])

    @unittest.skipIf(numpy is None, "there is no numpy")
    def test_numbers_of_numpy(self) -> None:
        rows = [
            (numpy.float64(1e-7), "0.0000001"),
            (numpy.float64("nan"), "?"),
            (numpy.float32(0.1), "0.1"),
            (numpy.float32(16777216), "16777216"),
            (numpy.float16("nan"), "?"),
            (numpy.int64(-(2**47)), "-140737488355328"),
            (numpy.uint8(255), "255"),
        ]
        for sample, text in rows:
            self.assertEqual(spell(sample), text)
        self.assertRaises(ValueError, spell, numpy.float32("inf"))


class Lines(Faked):
    def test_settings_and_the_version(self) -> None:
        self.session([OK], window=12, scale=3, workers=2, tile=64).close()
        self.assertEqual(self.written("words"), "--window 12 --scale 3 --workers 2 --tile 64")
        self.assertEqual(self.written("asked"), "session 2 json\n")
        self.session([OK], wide=True).close()
        self.assertEqual(self.written("words"), "--window 3 --scale 0")
        self.assertEqual(self.written("asked"), "session 2 wide json\n")

    def test_a_path_counts_from_here_and_not_from_the_folder(self) -> None:
        self.session([OK]).close()
        python = os.path.relpath(sys.executable)
        Session(3, program=[python, "-I", "-S", FAKE, self.folder], folder=self.folder).close()
        self.assertEqual(self.written("asked"), "session 2 json\n")

    def test_each_command(self) -> None:
        samples = {"samples": 0}
        windows: Dict[str, Any] = {"windows": []}
        entry = {"window": {"dist": None, "index": None, "left": None, "right": None, "start": 0}}
        rows: List[Any] = [
            (lambda it: it.open(1, 8), samples, "open 1 8"),
            (lambda it: it.open(1), samples, "open 1 1"),
            (lambda it: it.keep(0, 1800), samples, "keep 0 1800"),
            (lambda it: it.load(0, "a.csv", 1), samples, "load 0 a.csv 1"),
            (lambda it: it.load(0, "a.csv", [1, 0], header=True), samples, "load 0 a.csv 1,0 header"),
            (lambda it: it.lazy(1, "a.csv", 2), samples, "lazy 1 a.csv 2"),
            (lambda it: it.lazy(1, "a.csv", 2, header=True), samples, "lazy 1 a.csv 2 header"),
            (lambda it: it.append(0, [1, None, "0.5"]), samples, "append 0 1 ? 0.5"),
            (lambda it: it.append(1, [(1, 2.5), [None, Decimal(3)]]), samples, "append 1 1,2.5 ?,3"),
            (lambda it: it.advance(1, 262_144), {"done": 3, "left": 0}, "advance 1 262144"),
            (lambda it: it.partial(1), {"left": 2, **windows}, "partial 1"),
            (lambda it: it.window((1, 7), 3), {"samples": []}, "window 1.7 3"),
            (lambda it: it.profile((0, 1)), windows, "profile 0.1"),
            (lambda it: it.profile(), windows, "profile 0"),
            (lambda it: it.entry(0, 5), entry, "entry 0 5"),
            (lambda it: it.join(0, (1, 2)), windows, "join 0 1.2"),
            (lambda it: it.multi(1, 2), windows, "multi 1 2"),
            (lambda it: it.nearest(0, 4), windows, "nearest 0 4"),
            (lambda it: it.pan((1, 1), 3, 258), {"lengths": []}, "pan 1.1 3 258"),
            (lambda it: it.match(0, 1, 2, 10**30, 9), {"matches": []}, "match 0 1 2 1%s 9" % ("0" * 30)),
            (lambda it: it.match(0, 1, 2, 3), {"matches": []}, "match 0 1 2 3 262144"),
            (lambda it: it.motifs(0, 1, 2, 3, 4, 5), {"motifs": []}, "motifs 0 1 2 3 4 5"),
            (lambda it: it.motifs(0, 1, 2, 3), {"motifs": []}, "motifs 0 1 2 3 1 1024"),
            (lambda it: it.discords(0, 3), {"discords": []}, "discords 0 3"),
            (lambda it: it.chain(0, 1), {"chain": []}, "chain 0 1"),
            (lambda it: it.chains(), {"chains": [], "longest": None}, "chains 0"),
            (lambda it: it.segments(0, 2, 0), {"segments": []}, "segments 0 2 0"),
            (lambda it: it.segments(0, 2), {"segments": []}, "segments 0 2 5"),
            (lambda it: it.mpdist(0, 1), {"dist": None}, "mpdist 0 1"),
            (lambda it: it.consensus([0, (1, 1), 2]), {"centre": None}, "consensus 0 1.1 2"),
            (lambda it: it.end(), {}, "end"),
        ]
        answers = [{"kind": line.split()[0], "line": 2 + k, **answer} for k, (_, answer, line) in enumerate(rows)]
        session = self.session([OK, *answers])
        for call, _, _ in rows:
            call(session)
        self.assertEqual(session.close(), 0)
        self.assertEqual(self.written("asked").splitlines()[1:], [line for _, _, line in rows])

    def test_a_stored_run_has_the_lines_and_their_answers(self) -> None:
        with open(os.path.join(RUN, "output")) as file:
            answers: List[Union[str, Dict[str, Any]]] = list(file.read().splitlines())
        with self.session(answers) as session:
            self.assertEqual(session.append(0, [1, 2, 3, 1, 2, 3]), 6)
            self.assertEqual(session.profile(0).squares, [0, 6, 6, 0])
            with self.assertRaises(Refused):
                session.append(0, [4, "five"])
        with open(os.path.join(RUN, "input")) as file:
            self.assertEqual(self.written("asked"), file.read())

    @unittest.skipIf(numpy is None, "there is no numpy")
    def test_arrays_are_appended(self) -> None:
        rows: List[Any] = [
            (numpy.array([1, -2]), "1 -2"),
            (numpy.array([0.1, numpy.nan]), "0.1 ?"),
            (numpy.array([0.1, numpy.nan], dtype=numpy.float32), "0.1 ?"),
            (numpy.array([[1.5, 2.0], [numpy.nan, 4.0]]), "1.5,2.0 ?,4.0"),
            (numpy.array([[0.1, 2.0]], dtype=numpy.float32), "0.1,2"),
            (numpy.array([Decimal("0.1"), None], dtype=object), "0.1 ?"),
            (numpy.ma.masked_equal([1.5, 2.5], 2.5), "1.5 ?"),  # type: ignore[no-untyped-call]
        ]
        session = self.session([OK, *[{"kind": "ok", "line": 2 + k, "samples": 2} for k in range(len(rows))]])
        for samples, _ in rows:
            session.append(0, samples)
        session.close()
        self.assertEqual(self.written("asked").splitlines()[1:], ["append 0 " + fields for _, fields in rows])

    def test_samples_are_sent_in_as_many_lines_as_they_need(self) -> None:
        # 11 bytes each: 95,324 of them and the nine of the command are 1,048,573 bytes
        samples = [1_000_000_000] * 100_000
        first = {"kind": "ok", "line": 2, "samples": 95_324}
        session = self.session([OK, first, {"kind": "ok", "line": 3, "samples": 100_000}])
        self.assertEqual(session.append(0, samples), 100_000)
        session.close()
        asked = self.written("asked").splitlines()[1:]
        self.assertEqual([len(line) for line in asked], [8 + 11 * 95_324, 8 + 11 * 4_676])
        refused = {"kind": "refused", "line": 3, "word": "sample 6"}
        session = self.session([OK, first, refused])
        with self.assertRaises(Refused) as caught:
            session.append(0, samples)
        self.assertEqual((caught.exception.line, caught.exception.word, caught.exception.at), (3, "sample", 95_330))

    def test_an_item_that_fills_a_line_by_itself_is_sent(self) -> None:
        session = self.session([OK, {"kind": "refused", "line": 2, "word": "long"}])
        with self.assertRaises(Refused) as caught:
            session.append(0, ["1" * 2_000_000])
        self.assertEqual(caught.exception.word, "long")

    def test_what_is_no_line_is_not_sent(self) -> None:
        session = self.session([OK])
        for line in ("", " \t", "# profile 0", " #", "profile 0\nprofile 0", b"\r"):
            self.assertRaises(ValueError, session.ask, line)
        for name in ("", "a b.csv", "a\tb", "a\nb"):
            self.assertRaises(ValueError, session.load, 0, name, 1)
        self.assertRaises(ValueError, session.append, 0, ["1 2"])
        self.assertRaises(TypeError, session.open, "0", 1)
        self.assertRaises(TypeError, session.match, 0, 0, 0, 1.5)
        session.close()
        self.assertEqual(self.written("asked"), "session 2 json\n")

    def test_squares_of_distances(self) -> None:
        session = self.session([OK], scale=2)
        rows: List[Any] = [(1, 10_000), ("0.5", 2_500), (0.07, 49), (Decimal("0.125"), 156), (Fraction(1, 3), 1_111)]
        for distance, square in rows:
            self.assertEqual(session.square_of(distance), square)
        self.assertRaises(ValueError, session.square_of, -1)


class Reports(Faked):
    PROFILE = {
        "kind": "profile",
        "line": 2,
        "windows": [
            {"dist": "158456325028527549287181058050", "index": 4, "left": 2, "right": 4, "start": 3},
            {"dist": None, "index": None, "left": None, "right": None, "start": 4},
        ],
    }
    NEAREST = {
        "kind": "nearest",
        "line": 2,
        "windows": [
            {"nearest": [{"dist": "0", "index": 3}, {"dist": "6", "index": 2}], "start": 0},
            {"nearest": [], "start": 1},
        ],
    }

    def test_profile_as_lists(self) -> None:
        profile = self.session([OK, self.PROFILE], scale=1).profile(0)
        self.assertEqual(profile.start, [3, 4])
        self.assertEqual(profile.squares, [158456325028527549287181058050, None])
        self.assertEqual(profile.index, [4, -1])
        self.assertEqual(profile.left, [2, -1])
        self.assertEqual(profile.right, [4, -1])
        self.assertEqual(profile.distances, [39806572953285.94, math.inf])
        self.assertEqual(profile.table(), [[39806572953285.94, 4, 2, 4], [math.inf, -1, -1, -1]])
        self.assertEqual(len(profile), 2)

    @unittest.skipIf(numpy is None, "there is no numpy")
    def test_profile_as_arrays(self) -> None:
        profile: Any = self.session([OK, self.PROFILE], arrays=None).profile(0)
        self.assertEqual(profile.squares[0], 158456325028527549287181058050)
        self.assertIs(profile.squares[1], None)
        for column, wanted in ((profile.start, [3, 4]), (profile.index, [4, -1]), (profile.left, [2, -1])):
            self.assertEqual(column.dtype, numpy.dtype("int64"))
            self.assertEqual(column.tolist(), wanted)
        self.assertEqual(profile.distances.dtype, numpy.dtype("float64"))
        table = profile.table()
        self.assertEqual(table.shape, (2, 4))
        self.assertEqual(table[1].tolist(), [math.inf, -1, -1, -1])

    @unittest.skipIf(numpy is None, "there is no numpy")
    def test_arrays_without_a_window(self) -> None:
        empty = {"kind": "", "line": 2, "windows": []}
        profile: Any = self.session([OK, empty], arrays=True).profile(0)
        self.assertEqual((profile.index.shape, profile.distances.shape, profile.table().shape), ((0,), (0,), (0, 4)))
        ranks: Any = self.session([OK, empty], arrays=True).nearest(0, 3)
        self.assertEqual((ranks.index.shape, ranks.squares.shape), ((0, 3), (0, 3)))

    def test_join_has_no_left_and_no_right(self) -> None:
        windows = [{"dist": "9", "index": 0, "start": 0}, {"dist": None, "index": None, "start": 1}]
        join = self.session([OK, {"kind": "join", "line": 2, "windows": windows}]).join(0, 1)
        self.assertEqual(join.table(), [[3.0, 0, -1, -1], [math.inf, -1, -1, -1]])

    def test_ranks_are_filled_up(self) -> None:
        ranks = self.session([OK, self.NEAREST]).nearest(0, 2)
        self.assertEqual(ranks.start, [0, 1])
        self.assertEqual(ranks.index, [[3, 2], [-1, -1]])
        self.assertEqual(ranks.squares, [[0, 6], [None, None]])
        self.assertEqual(ranks.distances, [[0.0, math.sqrt(6)], [math.inf, math.inf]])

    @unittest.skipIf(numpy is None, "there is no numpy")
    def test_ranks_as_arrays(self) -> None:
        ranks: Any = self.session([OK, self.NEAREST], arrays=True).nearest(0, 2)
        self.assertEqual(ranks.index.tolist(), [[3, 2], [-1, -1]])
        self.assertEqual((ranks.squares.shape, ranks.squares.dtype), ((2, 2), numpy.dtype(object)))

    def test_lengths_of_a_range(self) -> None:
        best = {"dist": "16", "index": 3, "start": 0}
        rows = [{"best": best, "discord": None, "length": 4, "windows": 5}]
        (found,) = self.session([OK, {"kind": "pan", "lengths": rows, "line": 2}], scale=1).pan(0, 4, 4)
        self.assertEqual((found.length, found.windows, found.discord), (4, 5, None))
        self.assertEqual(found.best, mprof.Found(start=0, square=16, distance=0.4, index=3))

    def test_parts_of_a_profile(self) -> None:
        row = {"dist": "16", "index": 2, "left": None, "right": 2, "start": 0}
        none = {"dist": None, "index": None, "left": None, "right": None, "start": 0}
        answers: List[Union[str, Dict[str, Any]]] = [OK]
        for line, (left, window) in enumerate([(1, none), (0, row)]):
            answers.append({"kind": "advance", "line": 2 * line + 2, "done": 1, "left": left})
            answers.append({"kind": "partial", "line": 2 * line + 3, "left": left, "windows": [window]})
        first, whole = self.session(answers, scale=1).parts(1, 1)
        self.assertEqual((first.uncovered, first.squares, first.distances), (1, [None], [math.inf]))
        self.assertEqual((whole.uncovered, whole.squares, whole.distances, whole.right), (0, [16], [0.4], [2]))
        self.assertEqual(self.written("asked").splitlines()[1:], ["advance 1 1", "partial 1"] * 2)

    def test_samples_of_a_window(self) -> None:
        answer = {"kind": "window", "line": 2, "samples": ["-0.25", "?", "7.00"], "start": 1}
        samples = self.session([OK, answer]).window(0, 1)
        self.assertEqual(samples, [Decimal("-0.25"), None, Decimal("7.00")])

    def test_a_long_report_is_read(self) -> None:
        windows = [{"dist": "1", "index": 1, "left": None, "right": 1, "start": place} for place in range(100_000)]
        answers: List[Union[str, Dict[str, Any]]] = [OK]
        answers += [{"kind": "profile", "line": 2 + k, "windows": windows} for k in range(3)]
        session = self.session(answers)
        for _ in range(3):
            self.assertEqual(len(session.profile(0)), 100_000)
        self.assertEqual(session.close(), 0)


class Ends(Faked):
    def test_refused_lines(self) -> None:
        session = self.session([
            OK,
            {"kind": "refused", "line": 2, "word": "index"},
            {"kind": "refused", "line": 3, "word": "sample 2"},
            {"kind": "refused", "line": 4, "word": "odd"},
            {"kind": "ok", "line": 5, "samples": 3},
        ])
        with self.assertRaises(Refused) as caught:
            session.entry(0, 4)
        self.assertEqual((caught.exception.line, caught.exception.word, caught.exception.at), (2, "index", None))
        self.assertEqual(str(caught.exception), "line 2 is refused: index (no window starts there)")
        with self.assertRaises(Refused) as caught:
            session.append(0, [4, "five"])
        self.assertEqual((caught.exception.line, caught.exception.word, caught.exception.at), (3, "sample", 2))
        self.assertIn("item 2", str(caught.exception))
        self.assertRaises(Refused, session.ask, "odd")
        self.assertEqual(session.append(0, [4]), 3)

    def test_each_status_has_its_exception(self) -> None:
        rows = [
            (2, mprof.WordsRefused),
            (3, mprof.ReadFailed),
            (4, mprof.WriteFailed),
            (5, mprof.InputTooLong),
            (6, mprof.OutOfMemory),
            (0, mprof.Ended),
            (77, mprof.Ended),
        ]
        for status, error in rows:
            with self.assertRaises(error) as caught:
                with self.session([OK, "exit %d" % status]) as session:
                    session.profile(0)
            self.assertIs(type(caught.exception), error)
            self.assertEqual(caught.exception.status, status)
            self.assertIn(str(status), str(caught.exception))
            self.assertEqual(session.close(), status)
            self.assertRaises(mprof.MprofError, session.profile, 0)

    def test_a_status_behind_the_last_line_is_told(self) -> None:
        with self.assertRaises(mprof.WriteFailed):
            with self.session([OK, "leave"]):
                pass
        with self.assertRaises(mprof.WriteFailed):
            with self.session([OK, "leave"]) as session:
                session._process.wait()
                session.append(0, ["1" * 500_000])

    def test_words_outside_the_grammar(self) -> None:
        with self.assertRaises(mprof.WordsRefused):
            self.session(["mprof: words: --window M"], window=2)

    def test_a_program_that_ended_by_a_signal(self) -> None:
        session = self.session([OK])
        session._process.kill()
        with self.assertRaises(mprof.Ended) as caught:
            session.profile(0)
        self.assertEqual(caught.exception.status, -9)
        self.assertIn("signal 9", str(caught.exception))

    def test_a_program_that_writes_no_json(self) -> None:
        with self.assertRaises(mprof.MprofError) as caught:
            self.session(["refused 1 version"])
        self.assertIn("older", str(caught.exception))

    def test_no_program(self) -> None:
        self.assertRaises(FileNotFoundError, Session, 3, program="/no/such/program")

    def test_a_session_that_was_broken_off_does_not_go_on(self) -> None:
        session = self.session([OK, "{}", "{}"])

        class Stop(Exception):
            pass

        def stop(line: bytes) -> bytes:
            raise Stop

        session._answer = stop  # type: ignore
        self.assertRaises(Stop, session.profile, 0)
        del session._answer
        with self.assertRaises(mprof.MprofError) as caught:
            session.profile(0)
        self.assertNotIsInstance(caught.exception, mprof.Ended)
        self.assertRaises(mprof.Ended, session.close)

    def test_an_error_in_the_block_is_passed_on(self) -> None:
        with self.assertRaises(KeyError):
            with self.session([OK]):
                raise KeyError

    def test_errors_are_pickled(self) -> None:
        for error in (Refused(2, "sample", 5), mprof.OutOfMemory(6)):
            again = pickle.loads(pickle.dumps(error))
            self.assertEqual((type(again), str(again)), (type(error), str(error)))


class Streams(Faked):
    def test_entries_come_as_samples_do(self) -> None:
        none: Dict[str, Any] = {"dist": None, "index": None, "left": None, "right": None}
        session = self.session([
            OK,
            {"kind": "ok", "line": 2, "samples": 1},
            {"kind": "ok", "line": 3, "samples": 2},
            {"kind": "ok", "line": 4, "samples": 3},
            {"kind": "entry", "line": 5, "window": {**none, "start": 0}},
            {"kind": "ok", "line": 6, "samples": 4},
            {"kind": "entry", "line": 7, "window": {"dist": "4", "index": 0, "left": 0, "right": None, "start": 1}},
        ])
        taken = []

        def samples() -> Any:
            for sample in (1, 2, None, 4):
                taken.append(sample)
                yield sample

        found = [(entry.start, entry.distance, entry.left, len(taken)) for entry in session.stream(0, samples())]
        self.assertEqual(found, [(0, math.inf, -1, 3), (1, 2.0, 0, 4)])
        lines = ["append 0 1", "append 0 2", "append 0 ?", "entry 0 0", "append 0 4", "entry 0 1"]
        session.close()
        self.assertEqual(self.written("asked").splitlines()[1:], lines)


class Series(unittest.TestCase):
    def test_words_and_summary(self) -> None:
        script = "import sys; print('generated 500 493\\nbest 398 209 273\\ndiscord -\\nsegment 452 31059/37064')"
        made = mprof.generate(8, 7, 500, program=[sys.executable, "-c", script])
        self.assertEqual((made.samples, made.windows), (500, 493))
        self.assertEqual(made.best, mprof.Pair(398, 209, 273))
        self.assertEqual(made.discord, None)
        self.assertEqual(made.segment, mprof.Segment(452, 31059, 37064))
        self.assertEqual(mprof.Segment(3, 2, 6).value, Fraction(1, 3))

    def test_statuses(self) -> None:
        with self.assertRaises(mprof.WordsRefused):
            mprof.generate(2, 0, 3, program=[sys.executable, "-c", "import sys; sys.exit(2)"])


if __name__ == "__main__":
    unittest.main()
