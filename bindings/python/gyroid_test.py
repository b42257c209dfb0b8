#!/usr/bin/env python3
"""Tests of gyroid.py: its documentation, the answers of the C example, refusals, tables, threads and the float state.

    GYROID_LIBRARY=PATH/libgyroid.so python3 bindings/python/gyroid_test.py

GYROID_EXAMPLE names the compiled bindings/example.c, whose lines must then be made here byte for byte; otherwise they
are held against what the gate asks of them. What this machine lacks is skipped, and said.
"""
import ctypes
import doctest
import math
import os
import re
import shutil
import struct
import subprocess
import sys
import tempfile
import threading
import unittest
from dataclasses import replace
from pathlib import Path
from unittest import mock

# No compiled file is left beside the source.
sys.dont_write_bytecode = True

import gyroid
from gyroid import Bounds, Description, Interval, Layer, Piece, Refused, State, Surface, Table, TieRule

HERE = Path(__file__).resolve().parent
ROOT = HERE.parents[1]
EXAMPLE = os.environ.get("GYROID_EXAMPLE")

CORE = Description.constant(10240, 2048)
RAMP = Description.linear(10240, (0, 0, 0), (10240, 0, 0), -256, 256)
CUBE = Bounds((0, 0, 0), (1024, 1024, 1024))
ORIGIN = [Interval.point(0.0)] * 3
# With a period of one tick no tick cube is settled: all are cells.
FINEST = Description.constant(1, 0)
# The box of bindings/float_state/check, whose mark hangs on denormals.
HANGING = Description.linear(10240, (0, 0, 0), (0, 0, 20480), -256, 256), Bounds((1280, 8960, 0), (1440, 9280, 320))

ON_BOUNDS = [gyroid.grade_range, gyroid.level_piece]
ON_WORLD = [
    gyroid.jet,
    gyroid.affine_jet,
    lambda core, world: gyroid.derivatives(core, world, Piece.START),
    gyroid.residual,
    gyroid.affine_residual,
    gyroid.box_state,
    lambda core, world: gyroid.facet_residual(core, [ORIGIN, ORIGIN, world]),
]
ON_POINT = [gyroid.fast_distance, gyroid.fast]
ON_CORE = [gyroid.curvature, gyroid.lipschitz, gyroid.saturated, gyroid.graded, gyroid.planes]


def cubes(side):
    return Bounds((0, 0, 0), (side, side, side))


class Case(unittest.TestCase):
    def refused(self, number, call, *given, **named):
        with self.assertRaises(Refused) as raised:
            call(*given, **named)
        self.assertEqual(raised.exception.number, number)


class SourcesTest(Case):
    """The module beside the header, the Rust crate and the gate."""

    def test_calls_are_the_headers(self):
        header = (ROOT / "bindings/gyroid.h").read_text()
        calls = dict(re.findall(r"^uint32_t gyroid_(\w+)\(([^)]*)\);", header, re.MULTILINE))
        self.assertEqual(len(calls), 18)
        kinds = {"size_t": ctypes.c_size_t, "uint32_t": ctypes.c_uint32, "int64_t": ctypes.c_int64}
        for name, taken in calls.items():
            pointers = (ctypes.c_void_p, ctypes.c_char_p)
            wanted = [pointers if "*" in word else (kinds[word.split()[0]],) for word in taken.split(",")]
            self.assertEqual(len(gyroid._TAKEN[name]), len(wanted), name)
            for kind, among in zip(gyroid._TAKEN[name], wanted):
                self.assertIn(kind, among, name)
            self.assertIn(name, gyroid.__all__)
        self.assertEqual(set(calls), set(gyroid._TAKEN))

    def test_numbers_are_the_headers(self):
        header = (ROOT / "bindings/gyroid.h").read_text()
        numbers = {name: int(number) for name, number in re.findall(r"GYROID_(\w+) = (\d+)", header)}
        for name in ("NETWORK", "PRIMITIVE"):
            self.assertEqual(Surface[name], numbers[name])
        for name in ("START", "RAMP", "END"):
            self.assertEqual(Piece[name], numbers[name])
        for name in ("INSIDE", "OUTSIDE", "UNSETTLED"):
            self.assertEqual(State[name], numbers[name])
        for name in ("GRADE_AXIS", "LOWEST_AXIS"):
            self.assertEqual(TieRule[name], numbers["TIES_TO_" + name])
        self.assertEqual((gyroid.SLOT, gyroid.LAYER), (numbers["SLOT"], numbers["LAYER"]))
        refusals = {number for name, number in numbers.items() if name.startswith("REFUSED_")}
        self.assertEqual(set(gyroid._TEXTS), refusals)

    def test_texts_of_refusals_are_the_crates(self):
        crate = (ROOT / "bindings/rust/src/refusal.rs").read_text()
        texts = {int(number): text for number, text in re.findall(r'(\d+) => "(.*)",', crate)}
        self.assertEqual(gyroid._TEXTS, texts)
        self.assertEqual(str(Refused(13)), "refused 13: the table has too few slots for the cells")

    def test_every_public_name_is_documented(self):
        for name in gyroid.__all__:
            if name not in ("SLOT", "LAYER"):
                self.assertIn(">>>", getattr(gyroid, name).__doc__, name)


class ExampleTest(Case):
    """What bindings/example.c asks and prints."""

    def lines(self):
        world = [Interval(0.0, 0.5), Interval(0.0, 1.0), Interval(0.0, 1.0)]
        enclosure = gyroid.residual(CORE, world)
        yield "state %d, residual from %.17g to %.17g" % (gyroid.box_state(CORE, world), *enclosure)
        table = gyroid.walk(CORE, CUBE, 1, TieRule.GRADE_AXIS, slots=64)
        yield "%d cells" % len(table)
        for state, depth, (low, high) in table:
            yield "state %d, depth %d, x from %d to %d" % (state, depth, low[0], high[0])
        yield "layer %d: inside %d, outside %d, unsettled %d" % table.layers(0, 1)[0]

    def test_lines(self):
        if EXAMPLE:
            said = subprocess.run([EXAMPLE], stdout=subprocess.PIPE, check=True).stdout
            self.assertEqual("".join(line + "\n" for line in self.lines()).encode(), said)
            return
        print("GYROID_EXAMPLE is not set: its lines are held against what .ci/compare asks of them")
        facts = re.findall(r"""grep -q '(.*)' "\$scratch/said"$""", (ROOT / ".ci/compare").read_text(), re.MULTILINE)
        self.assertGreaterEqual(len(facts), 3)
        for fact in facts:
            self.assertTrue(any(re.search(fact, line) for line in self.lines()), fact)


class RefusalTest(Case):
    """Each call's refusals, by number."""

    def on_description(self):
        """Every call but the layer report, of a description alone."""
        yield from ON_CORE
        for call in ON_BOUNDS:
            yield lambda core, call=call: call(core, CUBE)
        for call in ON_WORLD:
            yield lambda core, call=call: call(core, ORIGIN)
        for call in ON_POINT:
            yield lambda core, call=call: call(core, (0.0, 0.0, 0.0))
        yield lambda core: gyroid.walk(core, CUBE, 0)

    def test_descriptions(self):
        refused = [
            (1, replace(CORE, start=4097)),
            (2, Description.constant(0, 2048)),
            (2, Description.linear(10240, (1, 2, 3), (1, 2, 3), 0, 1)),
            (3, replace(CORE, kind=1)),
            (3, replace(CORE, level_kind=2)),
            (3, replace(CORE, rotation=(1, 1, 0, 0))),
            (4, Description.linear(10240, (0, 0, 0), (10240, 10240, 0), 0, 1)),
            (5, Description.linear(10240, (0, 0, 0), (10240, 0, 0), 257, 0)),
        ]
        calls = list(self.on_description())
        self.assertEqual(len(calls), 17)
        for number, core in refused:
            for call in calls:
                # The range reads the level alone, and has numbers of its own.
                if call is not calls[len(ON_CORE)]:
                    self.refused(number, call, core)

    def test_range(self):
        self.refused(1, gyroid.grade_range, replace(CORE, start=4097), CUBE)
        self.refused(7, gyroid.grade_range, replace(CORE, level_kind=2), CUBE)
        self.refused(8, gyroid.grade_range, Description.linear(10240, (1, 2, 3), (1, 2, 3), 0, 1), CUBE)
        self.assertEqual(gyroid.grade_range(replace(CORE, period=0), CUBE), (2048, 2048, 1))

    def test_boxes_and_points(self):
        for call in ON_BOUNDS:
            self.refused(1, call, CORE, Bounds((0, 0, 0), (0, 0, 2**20 + 1)))
            self.refused(6, call, CORE, Bounds((0, 1, 0), (0, 0, 0)))
        for call in ON_WORLD:
            self.refused(9, call, CORE, [Interval(1.0, 0.0)] * 3)
            self.refused(9, call, CORE, [Interval.point(math.nan)] * 3)
            self.refused(10, call, CORE, [Interval.point(2.0**40 + 1)] * 3)
        for call in ON_POINT:
            self.refused(9, call, CORE, (0.0, math.nan, 0.0))
            self.refused(10, call, CORE, (0.0, 0.0, -(2.0**40) - 1))
        self.refused(1, gyroid.derivatives, CORE, ORIGIN, 3)

    def test_walk(self):
        self.refused(1, gyroid.walk, CORE, CUBE, 1, 2)
        self.refused(11, gyroid.walk, CORE, Bounds((0, 0, 0), (1, 0, 1)), 1)
        self.refused(12, gyroid.walk, CORE, CUBE, -1)
        self.refused(12, gyroid.walk, CORE, CUBE, 25)
        self.refused(13, gyroid.walk, CORE, CUBE, 1, slots=2)
        self.refused(13, gyroid.walk, CORE, CUBE, 1, slots=0)

    def test_layers(self):
        table = gyroid.walk(CORE, CUBE, 1)
        self.refused(15, gyroid.layers, b"", 0, 1)
        self.refused(15, gyroid.layers, bytes(96), 1, 0)
        self.refused(15, Table(bytes(96)).layers, 0, 1)
        self.refused(16, table.layers, 1, 1)
        self.refused(16, table.layers, 1, 0)
        self.refused(16, table.layers, -(2**20) - 1, 0)
        self.refused(16, table.layers, 0, 2**20 + 1)

    def test_numbers_beyond_64_bits_are_not_wrapped(self):
        for turn in (2**64, -(2**64)):
            self.refused(1, gyroid.box_state, Description.constant(10240 + turn, 2048), ORIGIN)
            self.refused(1, gyroid.level_piece, CORE, Bounds((0, 0, 0), (1, 1, 1 + turn)))
            self.refused(12, gyroid.walk, CORE, CUBE, 1 + turn)
            self.refused(12, gyroid.walk, CORE, CUBE, 1 + turn, slots=3)
        table = gyroid.walk(CORE, CUBE, 1)
        self.refused(16, table.layers, 0, 1 + 2**64)
        self.refused(16, table.layers, -(2**64), 1)
        for turn in (2**32, -(2**32), 2**64):
            self.refused(1, gyroid.walk, CORE, CUBE, 1, turn)
            self.refused(1, gyroid.derivatives, CORE, ORIGIN, turn)


class GivenTest(Case):
    """What cannot be lent at all."""

    def says(self, kind, text, call, *given):
        with self.assertRaises(kind) as raised:
            call(*given)
        self.assertIn(text, str(raised.exception))

    def test_lengths(self):
        said = "intervals of a box: 3 are wanted, and 2 are given"
        self.says(ValueError, said, gyroid.residual, CORE, ORIGIN[:2])
        self.says(ValueError, "ends of an interval: 2 are wanted, and 3 are given", gyroid.jet, CORE, [(0, 0, 0)] * 3)
        said = "corners of a triangle: 3 are wanted, and 4 are given"
        self.says(ValueError, said, gyroid.facet_residual, CORE, [ORIGIN] * 4)
        self.says(ValueError, "coordinates of a point: 3 are wanted, and 1 are given", gyroid.fast, CORE, [0.0])
        said = "corners of a box: 2 are wanted, and 6 are given"
        self.says(ValueError, said, gyroid.walk, CORE, (0, 0, 0, 1, 1, 1), 1)
        said = "lows of a box: 3 are wanted, and 2 are given"
        self.says(ValueError, said, gyroid.level_piece, CORE, ((0, 0), (1, 1, 1)))
        said = "highs of a box: 3 are wanted, and 0 are given"
        self.says(ValueError, said, gyroid.level_piece, CORE, ((0, 0, 0), ()))
        said = "entries of a description: 18 are wanted, and 17 are given"
        self.says(ValueError, said, Description.from_entries, range(17))
        for name, count in (("from_", 3), ("to", 3), ("rotation", 4), ("translation", 3)):
            with self.assertRaisesRegex(ValueError, f"numbers of {name}: {count} are wanted, and 2 are given"):
                replace(CORE, **{name: (0, 0)})

    def test_whole_numbers(self):
        self.says(TypeError, "float", gyroid.graded, Description.constant(10240.0, 0))
        self.says(TypeError, "float", gyroid.level_piece, CORE, Bounds((0, 0, 0), (1, 1, 1.0)))
        self.says(TypeError, "float", gyroid.walk, CORE, CUBE, 1.0)
        self.says(TypeError, "float", gyroid.walk, CORE, CUBE, 1, 0.0)
        self.says(TypeError, "float", gyroid.layers, bytes(32), 0.5, 1)

    def test_status_that_no_call_answers(self):
        self.says(RuntimeError, "status 101, which no call answers", gyroid._found, 101)

    def test_lists_do_for_tuples(self):
        core = Description.linear(10240, [0, 0, 0], [10240, 0, 0], -256, 256)
        self.assertEqual((core, hash(core)), (RAMP, hash(RAMP)))
        self.assertEqual(gyroid.level_piece(core, [[0, 0, 0], [1, 1, 1]]), Piece.RAMP)


class AnswerTest(Case):
    """Answers that the documentation does not show."""

    def test_none(self):
        wide = [Interval(0.0, 10.0)] * 3
        endless = [Interval(0.0, math.inf)] * 3
        far = [Interval.point(1e12)] * 3
        self.assertIsNone(gyroid.affine_jet(CORE, wide))
        self.assertIsNone(gyroid.affine_residual(CORE, endless))
        self.assertIsNone(gyroid.residual(FINEST, far))
        self.assertIs(gyroid.box_state(CORE, endless), State.UNSETTLED)

    def test_beyond_the_ramp(self):
        """At x = 12 the level is held at 0.25, and its affine extension is at 0.35."""
        place = [Interval.point(12.0), *ORIGIN[1:]]
        held, extended = gyroid.residual(RAMP, place), gyroid.affine_residual(RAMP, place)
        self.assertAlmostEqual(held.lo - extended.lo, 0.1)
        self.assertAlmostEqual(gyroid.jet(RAMP, place).value.lo - gyroid.affine_jet(RAMP, place).value.lo, 0.35)

    def test_entries_are_in_document_01s_order(self):
        core = Description.from_entries(range(18))
        self.assertEqual(core.entries(), tuple(range(18)))
        self.assertEqual((core.from_, core.to, core.start, core.end), ((3, 4, 5), (6, 7, 8), 9, 10))
        self.assertEqual((core.rotation, core.translation), ((11, 12, 13, 14), (15, 16, 17)))

    def test_derivatives_are_in_rows(self):
        place = [Interval.point(v) for v in (1.0, 2.0, 3.0)]
        found = gyroid.derivatives(CORE, place, Piece.START)
        of = 2 * math.pi / 10
        x, y, z = (of * v for v in (1.0, 2.0, 3.0))
        sin, cos = math.sin, math.cos
        gradient = [
            cos(x) * cos(y) - sin(z) * sin(x),
            cos(y) * cos(z) - sin(x) * sin(y),
            cos(z) * cos(x) - sin(y) * sin(z),
        ]
        hessian = [
            [-sin(x) * cos(y) - sin(z) * cos(x), -cos(x) * sin(y), -cos(z) * sin(x)],
            [-cos(x) * sin(y), -sin(y) * cos(z) - sin(x) * cos(y), -cos(y) * sin(z)],
            [-cos(z) * sin(x), -cos(y) * sin(z), -sin(z) * cos(x) - sin(y) * cos(z)],
        ]
        for interval, value in zip(found.gradient, gradient):
            self.assertAlmostEqual(interval.lo, of * value)
        for row, values in zip(found.hessian, hessian):
            for interval, value in zip(row, values):
                self.assertAlmostEqual(interval.lo, of * of * value)

    def test_text_of_a_state(self):
        self.assertEqual([f"{state:>9}" for state in State], ["   inside", "  outside", "unsettled"])


class TableTest(Case):
    """The walk's table: how it grows, and what bytes are one."""

    def test_growth(self):
        # 17^3 tick cubes take more slots than are lent first, and 26^3 more than are lent then.
        for side in (17, 26):
            table = gyroid.walk(FINEST, cubes(side), 24)
            self.assertEqual(len(table), side**3)
            self.assertEqual(len(bytes(table)), 32 * (side**3 + 1))
            lent = gyroid.walk(FINEST, cubes(side), 24, slots=side**3 + 3)
            self.assertEqual(bytes(lent), bytes(table) + bytes(64))
            self.refused(13, gyroid.walk, FINEST, cubes(side), 24, slots=side**3)

    def test_growth_ends(self):
        # Depth 2 has 4 cells at most, and no more slots are lent than these want.
        with mock.patch.object(gyroid, "_walked", side_effect=Refused(13)) as walked:
            self.refused(13, gyroid.walk, CORE, CUBE, 2)
            self.assertEqual([lent.args[-1] for lent in walked.call_args_list], [5])
            self.refused(13, gyroid.walk, CORE, CUBE, 24)
            self.assertEqual(
                [lent.args[-1] for lent in walked.call_args_list[1:]],
                [2**12, 2**14, 2**16, 2**18, 2**20, 2**22, 2**24, 2**24 + 1],
            )
        # No other refusal is asked again.
        with mock.patch.object(gyroid, "_walked", side_effect=Refused(11)) as walked:
            self.refused(11, gyroid.walk, CORE, CUBE, 24)
            walked.assert_called_once()

    def test_cells_fill_the_box(self):
        box = Bounds((-3000, -2000, -1000), (1000, 2000, 3000))
        table = gyroid.walk(replace(CORE, start=-512), box, 9)
        volumes = dict.fromkeys(State, 0)
        for cell in table:
            volumes[cell.state] += cell.bounds.volume()
        head = table.head()
        self.assertEqual(head.solid, volumes[State.INSIDE])
        self.assertEqual(head.open, volumes[State.OUTSIDE] + volumes[State.UNSETTLED])
        self.assertEqual(head.solid + head.open, box.volume())
        self.assertEqual((head.first, head.evaluated), (1, 2 * len(table) - 1))
        self.assertEqual(max(cell.depth for cell in table), 9)
        report = table.layers(-1000, 3000)
        self.assertEqual([layer.z for layer in report], list(range(-1000, 3000)))
        self.assertEqual({layer.area() for layer in report}, {4000 * 4000})
        for state in State:
            self.assertEqual(sum(getattr(layer, str(state)) for layer in report), volumes[state])

    def test_layers_of_any_bytes(self):
        table = gyroid.walk(CORE, CUBE, 1)
        layer = Layer(0, 512 * 1024, 0, 512 * 1024)
        for given in (table, bytes(table), bytearray(bytes(table)), memoryview(bytes(table))):
            self.assertEqual(gyroid.layers(given, 0, 1), [layer])

    @staticmethod
    def slots(*rows):
        return b"".join(struct.pack("<8i", *row) for row in rows)

    def test_a_chain_in_another_order(self):
        head, last, first = (2, 2, 3, 7, 0, 9, 0, 0), (0, 3, 1, 0, 0, 2, 1, 1), (1, 1 + 256 * 24, -1, 0, 0, 1, 1, 1)
        table = Table(self.slots(head, last, first))
        cells = [(State.INSIDE, 24, ((-1, 0, 0), (1, 1, 1))), (State.UNSETTLED, 0, ((1, 0, 0), (2, 1, 1)))]
        self.assertEqual(list(table), cells)
        self.assertEqual(table.head(), (2, 2, 3, 7, 9))

    def test_broken_bytes(self):
        head, first, last = (1, 2, 3, 0, 0, 0, 0, 0), (2, 1, 0, 0, 0, 1, 1, 1), (0, 2, 1, 0, 0, 2, 1, 1)
        self.assertEqual(len(Table(self.slots(head, first, last))), 2)
        self.assertEqual(list(Table(bytes(33))), [])
        broken = [
            (b"", "the head wants 32 bytes, and there are 0"),
            (bytes(31), "the head wants 32 bytes, and there are 31"),
            (self.slots(head, first) + bytes(31), "2 cells and the head want 3 slots, and 95 bytes have 2"),
            (self.slots((1, -1) + head[2:], first, last), "4294967295 cells and the head want 4294967296 slots"),
            (self.slots((3,) + head[1:], first, last), "slot 3 is named for cell 1 of 2, among 3 slots"),
            (self.slots(head, (0,) + first[1:], last), "slot 0 is named for cell 2 of 2, among 3 slots"),
            (self.slots(head, (1,) + first[1:], last), "slot 1 is named behind the last of 2 cells"),
            (self.slots((1, 1) + head[2:], first, last), "slot 2 is named behind the last of 1 cells"),
            (self.slots((1, 0) + head[2:], first, last), "slot 1 is named behind the last of 0 cells"),
            (self.slots(head, first, (0, 4) + last[2:]), "slot 2 has the state 4, which is none"),
            (self.slots(head, first, (0, 256 * 3) + last[2:]), "slot 2 has the state 0, which is none"),
        ]
        for data, said in broken:
            with self.assertRaises(ValueError) as raised:
                Table(data)
            self.assertIn("no table: " + said, str(raised.exception))


class ThreadTest(Case):
    def test_walks_at_once(self):
        cores = [Description.linear(10240, (0, 0, 0), (0, 0, 20480), -256, end) for end in (0, 64, 128, 256)]
        walked = lambda core: bytes(gyroid.walk(core, cubes(20480), 14))
        alone = [walked(core) for core in cores]
        found = [None] * len(cores)
        start = threading.Barrier(len(cores))

        def run(place):
            start.wait()
            found[place] = walked(cores[place])

        threads = [threading.Thread(target=run, args=(place,)) for place in range(len(cores))]
        for thread in threads:
            thread.start()
        for thread in threads:
            thread.join()
        self.assertEqual(len(set(alone)), len(cores))
        self.assertEqual(found, alone)


class FloatStateTest(Case):
    """The default state for each call, and the thread's own after it."""

    DENORMALS_ARE_ZERO = 0x1F80 | 0x8040

    def setUp(self):
        self.library = gyroid._c_library()
        self.found = self.state()
        self.addCleanup(self.library.fesetenv, self.found)

    def state(self):
        found = gyroid._Environment()
        self.library.fegetenv(found)
        return found

    def in_state(self, mxcsr, call):
        """What a call answers in a state, and the state that it leaves."""
        self.library.fesetenv(gyroid._Environment(self.found.x87, mxcsr))
        try:
            answer = call()
            return answer, self.state().mxcsr
        finally:
            self.library.fesetenv(self.found)

    @staticmethod
    def guarded():
        return [cell.state for cell in gyroid.walk(*HANGING, 0)]

    @staticmethod
    def plain():
        """The same walk in the state that is found."""
        core, bounds = HANGING
        entries, corners = gyroid._lend_whole(core.entries()), gyroid._lend_bounds(bounds)
        table = (ctypes.c_uint8 * 64)()
        status = gyroid._library().gyroid_walk(entries, 18, corners, 6, 0, TieRule.GRADE_AXIS, table, 64)
        return [status, table[36]]

    def test_the_state_matters(self):
        self.assertEqual(self.in_state(0x1F80, self.plain)[0], [0, State.UNSETTLED])
        self.assertEqual(self.in_state(self.DENORMALS_ARE_ZERO, self.plain)[0], [0, State.OUTSIDE])

    def test_guarded(self):
        towards_zero, flags = 0x6000, 0x3F
        for mxcsr in (0x1F80, self.DENORMALS_ARE_ZERO, 0x1F80 | towards_zero, self.DENORMALS_ARE_ZERO | flags):
            self.assertEqual(self.in_state(mxcsr, self.guarded), ([State.UNSETTLED], mxcsr))

    def test_every_call_on_doubles(self):
        asked = [lambda call=call: call(RAMP, ORIGIN) for call in ON_WORLD]
        asked += [lambda call=call: call(RAMP, (0.1, 0.2, 0.3)) for call in ON_POINT]
        asked += [lambda call=call: call(RAMP) for call in ON_CORE]
        upwards = 0x1F80 | 0x4000
        for call in asked:
            answer = call()
            self.assertEqual(self.in_state(upwards, call), (answer, upwards))

    def test_refused_too(self):
        call = lambda: self.refused(2, gyroid.box_state, Description.constant(0, 0), ORIGIN)
        self.assertEqual(self.in_state(self.DENORMALS_ARE_ZERO, call), (None, self.DENORMALS_ARE_ZERO))

    def test_a_library_that_changes_it(self):
        """A shared object that gcc has built with -ffast-math, in a process of its own."""
        if shutil.which("gcc") is None:
            print("no gcc: no library is built that changes the float state")
            self.skipTest("no gcc")
        with tempfile.TemporaryDirectory(prefix="gyroid") as directory:
            source, fast = Path(directory, "empty.c"), Path(directory, "fast.so")
            source.write_text("int x;\n")
            subprocess.run(["gcc", "-shared", "-fPIC", "-ffast-math", str(source), "-o", str(fast)], check=True)
            code = (
                "import ctypes, gyroid_test as t\n"
                "case = t.FloatStateTest(); case.library = t.gyroid._c_library()\n"
                "def said(): return hex(case.state().mxcsr & ~0x3F), int(case.guarded()[0]), case.plain()[1]\n"
                "print(*said()); ctypes.CDLL({!r}); print(*said()); print(*said())"
            ).format(str(fast))
            before, *after = run_python(code).stdout.splitlines()
        self.assertEqual(before, "0x1f80 3 3")
        if after == ["0x1f80 3 3"] * 2:
            print("this gcc's -ffast-math leaves the float state as it is in a shared object: nothing is shown")
            self.skipTest("the float state is left as it is")
        self.assertEqual(after, ["0x9fc0 3 2"] * 2)


def run_python(code, **environment):
    """What a Python process of its own says, which finds the module here and the library as this process does."""
    given = {**os.environ, "PYTHONPATH": str(HERE), "GYROID_LIBRARY": gyroid._library()._name, **environment}
    return subprocess.run([sys.executable, "-B", "-c", code], env=given, cwd=os.sep, capture_output=True, text=True)


class LibraryTest(Case):
    """Where the library is found, and what is said where it is not."""

    REMEDY = "bindings/install PREFIX installs it in PREFIX/lib; GYROID_LIBRARY names one that is elsewhere"

    def said(self):
        with self.assertRaises(OSError) as raised:
            gyroid._library.__wrapped__()
        return str(raised.exception)

    def test_named_and_missing(self):
        with mock.patch.dict(os.environ, GYROID_LIBRARY="nowhere/libgyroid.so"):
            path = os.path.abspath("nowhere/libgyroid.so")
            said = self.said()
        self.assertTrue(said.startswith(f"{path} cannot be used as libgyroid.so ("), said)
        self.assertTrue(said.endswith(f"): {self.REMEDY}"), said)

    def test_another_library(self):
        with mock.patch.object(gyroid, "_path", return_value="libm.so.6"):
            said = self.said()
        self.assertTrue(said.startswith("libm.so.6 cannot be used as libgyroid.so ("), said)
        self.assertTrue(said.endswith(f"undefined symbol: gyroid_curvature): {self.REMEDY}"), said)

    def test_found_nowhere(self):
        with mock.patch.dict(os.environ, GYROID_LIBRARY=""), mock.patch("ctypes.util.find_library", return_value=None):
            self.assertEqual(self.said(), f"libgyroid.so is not found: {self.REMEDY}")

    def test_by_the_system(self):
        found = mock.patch("ctypes.util.find_library", return_value="libgyroid.so.0")
        with mock.patch.dict(os.environ, GYROID_LIBRARY=""), found as asked:
            self.assertEqual(gyroid._path(), "libgyroid.so.0")
            asked.assert_called_once_with("gyroid")

    def test_another_machine(self):
        with mock.patch("platform.machine", return_value="aarch64"):
            self.assertEqual(self.said(), "libgyroid.so is for 64-bit Linux on x86-64, and this is linux on aarch64")

    def test_beside_the_installed_module(self):
        with tempfile.TemporaryDirectory(prefix="gyroid") as directory:
            prefix = Path(directory).resolve()
            module, library = prefix / "share/gyroid/python", prefix / "lib"
            module.mkdir(parents=True)
            library.mkdir()
            shutil.copy(gyroid.__file__, module)
            shutil.copy(gyroid._library()._name, library / "libgyroid.so.0")
            code = "import gyroid; print(gyroid.graded(gyroid.Description(1)), gyroid._library()._name)"
            done = run_python(code, GYROID_LIBRARY="", PYTHONPATH=str(module))
            self.assertEqual((done.stdout, done.stderr), (f"False {library / 'libgyroid.so.0'}\n", ""))

    def test_kept_tables_are_read_without_it(self):
        done = run_python("import gyroid; print(len(gyroid.Table(bytes(32))))", GYROID_LIBRARY="/nowhere")
        self.assertEqual((done.stdout, done.stderr), ("0\n", ""))


def load_tests(loader, tests, pattern):
    tests.addTests(doctest.DocTestSuite(gyroid))
    return tests


if __name__ == "__main__":
    try:
        gyroid._library()
    except OSError as error:
        sys.exit(f"gyroid_test: {error}")
    unittest.main()
