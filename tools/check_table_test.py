#!/usr/bin/env python3
"""Tests of check_table.py: each sentence by a table made by hand, the stored listings, and damaged tables.

    python3 tools/check_table_test.py

GYROID_TABLES names a directory of tables that walks have left, as *.table: none may have a breach, and of 600 changes
of one byte each must be seen, but those of a state that no other byte tells. GYROID_LIBRARY names the shared library,
whose layer report must refuse by 15 the bytes that are unsound here, and no others. GYROID_TOOL names the command
`gyroid`, which must see the others of the 600 by walking the part file that stands beside a table, as *.part. What is
not set is skipped, and said.
"""
import ctypes
import os
import random
import re
import struct
import subprocess
import sys
import tempfile
import unittest
from pathlib import Path

# No compiled file is left beside the source.
sys.dont_write_bytecode = True

import check_table
from check_table import SLOT, breach, listing_breach, unsound

ROOT = Path(__file__).resolve().parents[1]
TABLES = os.environ.get("GYROID_TABLES")
LIBRARY = os.environ.get("GYROID_LIBRARY")
TOOL = os.environ.get("GYROID_TOOL")
LIMIT = 2**20
DAMAGES = 600

# The box x 0 to 4, y 0 to 2, z 0 to 2: its lower half is inside, its upper half is a cube that is halved across x.
THREE = [(1, 1, (0, 0, 0, 2, 2, 2)), (2, 2, (2, 0, 0, 3, 2, 2)), (3, 2, (3, 0, 0, 4, 2, 2))]


def volume(box):
    return (box[3] - box[0]) * (box[4] - box[1]) * (box[5] - box[2])


def table(cells, spare=b"", solid=None, rest=None):
    """The bytes of cells in their order, each a state, a depth and a box. Volumes that are not given are added up."""
    if solid is None:
        solid = sum(volume(box) for state, _, box in cells if state == 1)
    if rest is None:
        rest = sum(volume(box) for state, _, box in cells if state != 1)
    slots = [struct.pack("<IIIQQI", 1, len(cells), 2 * len(cells) - 1, solid, rest, 0)]
    for slot, (state, depth, box) in enumerate(cells, 1):
        slots.append(struct.pack("<IBBH6i", (slot + 1) % (len(cells) + 1), state, depth, 0, *box))
    return b"".join(slots) + spare


def listing(cells):
    """The text of the same."""
    solid = sum(volume(box) for state, _, box in cells if state == 1)
    rest = sum(volume(box) for state, _, box in cells if state != 1)
    rows = [(len(cells), 2 * len(cells) - 1, solid, rest)] + [(state, *box) for state, _, box in cells]
    return "".join(" ".join(map(str, row)) + "\n" for row in rows)


def changed(data, place, form, number):
    """The bytes with another number at a place."""
    data = bytearray(data)
    struct.pack_into("<" + form, data, place, number)
    return bytes(data)


def needle(axis, low, high):
    """A box of one tick by one, but for its length on an axis."""
    box = [0, 0, 0, 1, 1, 1]
    box[axis], box[axis + 3] = low, high
    return tuple(box)


def lowest_of_many(halvings, state):
    """A cube of 512 ticks whose lowest box is halved again and again, ties to the lowest axis."""
    box, cells = [0, 0, 0, 512, 512, 512], []
    for depth in range(1, halvings + 1):
        axis = (depth - 1) % 3
        middle = box[axis + 3] // 2
        cells.insert(0, (2, depth, tuple(box[:axis] + [middle] + box[axis + 1 :])))
        box[axis + 3] = middle
    return [(state, halvings, tuple(box))] + cells


class TableTest(unittest.TestCase):
    """What holds of a table that a walk has left."""

    def says(self, data, sentence, **how):
        self.assertEqual(breach(data, **how), sentence)

    def test_a_table_as_a_walk_leaves_it(self):
        for spare in (b"", bytes(SLOT), bytes(SLOT + 3)):
            self.says(table(THREE, spare), None)
        self.says(table([(3, 0, (-LIMIT,) * 3 + (LIMIT,) * 3)]), None)
        self.says(table([(1, 0, (5, 6, 7, 6, 7, 8))]), None)

    def test_worked_example_of_the_page(self):
        page = (ROOT / "docs/TABLE.md").read_text()
        rows = re.findall(r"^(\d{7})((?: [0-9a-f]{2})+)$", page, re.MULTILINE)
        data = bytes.fromhex("".join(numbers for _, numbers in rows))
        self.assertEqual([int(offset) for offset, _ in rows], list(range(0, len(data), 16)))
        self.assertEqual(len(data), 100)
        self.says(data, None)
        self.assertIsNone(unsound(data))
        self.assertEqual(data, table([(1, 1, (0, 0, 0, 512, 1024, 1024)), (3, 1, (512, 0, 0) + (1024,) * 3)], bytes(4)))

    def test_no_room_for_a_head(self):
        self.says(b"", "the file has 0 bytes; it should have 32 at least, for the head")
        self.says(bytes(31), "the file has 31 bytes; it should have 32 at least, for the head")

    def test_number_of_cells(self):
        data = table(THREE)
        none = "head, byte 4: the number of cells is 0; it should be 1 at least"
        self.says(changed(data, 4, "I", 0), none)
        self.says(bytes(70), none + "; all bytes are zero, as a walk that is refused by 13 leaves them")
        self.says(
            data[:-1],
            "head, byte 4: the number of cells is 3; "
            "it should be 2 at most, for the file has 127 bytes and so 3 slots",
        )

    def test_rest_of_the_head(self):
        data = table(THREE)
        self.says(changed(data, 0, "I", 2), "head, byte 0: the first cell's slot is 2; it should be 1")
        self.says(
            changed(data, 8, "I", 6),
            "head, byte 8: the number of boxes evaluated is 6; "
            "it should be 5, one less than twice the number of cells, 3",
        )
        self.says(changed(data, 30, "B", 7), "head, byte 30: the byte is 7; it should be 0")

    def test_chain(self):
        data = table(THREE)
        self.says(changed(data, 32, "I", 3), "slot 1, byte 32: the next slot is 3; it should be 2")
        self.says(
            changed(data, 96, "I", 4), "slot 3, byte 96: the next slot is 4; it should be 0, for it is the last cell"
        )

    def test_bytes_of_a_record(self):
        data = table(THREE)
        for state in (0, 4, 255):
            self.says(
                changed(data, 68, "B", state),
                f"slot 2, byte 68: the state is {state}; it should be 1 inside, 2 outside or 3 unsettled",
            )
        self.says(changed(data, 69, "B", 25), "slot 2, byte 69: the depth is 25; it should be 0 to 24")
        self.says(changed(data, 70, "B", 1), "slot 2, byte 70: the byte is 1; it should be 0")
        self.says(changed(data, 71, "B", 2), "slot 2, byte 71: the byte is 2; it should be 0")

    def test_coordinates(self):
        data = table(THREE)
        self.says(
            changed(data, 76, "i", -LIMIT - 1),
            "slot 2, byte 76: the low of y is -1048577; it should be -1048576 to 1048576",
        )
        self.says(
            changed(data, 92, "i", LIMIT + 1),
            "slot 2, byte 92: the high of z is 1048577; it should be -1048576 to 1048576",
        )
        self.says(
            changed(data, 84, "i", 2), "slot 2, byte 72: x goes from 2 to 2; the low should be below the high"
        )

    def test_volume_of_the_box(self):
        self.says(
            table(THREE, rest=9),
            "head, byte 12: solid 8 and open 9 add up to 17; "
            "it should be 16, the volume of x 0 to 4, y 0 to 2, z 0 to 2, "
            "which goes from the first cell's lows to the last cell's highs",
        )

    def test_solid_volume(self):
        sentence = "head, byte 12: the solid volume is {}; it should be 8, the tick cubes of the cells marked inside"
        self.says(table(THREE, solid=9, rest=7), sentence.format(9))
        self.says(table(THREE, solid=7, rest=9), sentence.format(7))

    def test_cells_out_of_order(self):
        four = [(2, 2, (x, 0, 0, x + 2, 1, 1)) for x in (0, 4, 2, 6)]
        self.says(
            table(four),
            "slot 2, byte 72: the low of x is 4; "
            "it should be 2, for the cells before leave x 2 to 4, y 0 to 1, z 0 to 1 to come",
        )

    def test_a_cell_that_no_halving_gives(self):
        first, _, third = THREE
        self.says(
            table([first, (2, 3, (2, 0, 0, 3, 1, 2)), third], rest=8),
            "slot 3, byte 104: the low of x is 3; "
            "it should be 2, for the cells before leave x 2 to 3, y 1 to 2, z 0 to 2 to come",
        )
        # A span of 4 that is cut at 3, on each axis.
        for axis, name in enumerate("xyz"):
            self.assertRegex(
                breach(table([(1, 1, needle(axis, 0, 3)), (2, 1, needle(axis, 3, 4))])),
                f"^slot 1, byte {52 + 4 * axis}: the cell is .*{name} 0 to 3.*; it should be .*{name} 0 to 4.* "
                "or a lower half that its halvings come to$",
            )

    def test_a_cell_too_many(self):
        self.says(
            table(THREE + THREE[2:], rest=8),
            "slot 4, byte 136: the cells before fill x 0 to 4, y 0 to 2, z 0 to 2; there should be no more",
        )

    def test_last_cell_below_the_first(self):
        self.says(
            table([(1, 1, (0, 0, 0, 2, 2, 2)), (2, 1, (-4, 0, 0, -2, 2, 2))], solid=8, rest=-16 % 2**64),
            "head, byte 12: solid 8 and open 18446744073709551600 add up to 18446744073709551608; "
            "it should be -8, the volume of x 0 to -2, y 0 to 2, z 0 to 2, "
            "which goes from the first cell's lows to the last cell's highs",
        )
        # Two spans below 0 have a volume above it.
        self.says(
            table([(1, 1, (0, 0, 0, 2, 2, 2)), (2, 1, (-3, -4, 0, -2, -2, 2))], solid=8, rest=0),
            "slot 1, byte 52: the cell is x 0 to 2, y 0 to 2, z 0 to 2; "
            "it should be x 0 to -2, y 0 to -2, z 0 to 2 or a lower half that its halvings come to",
        )

    def test_an_odd_span_is_halved_below_its_middle(self):
        self.says(table([(1, 1, (-3, 0, 0, -2, 1, 1)), (2, 1, (-2, 0, 0, 0, 1, 1))]), None)
        self.says(
            table([(1, 1, (-3, 0, 0, -1, 1, 1)), (2, 1, (-1, 0, 0, 0, 1, 1))]),
            "slot 1, byte 52: the cell is x -3 to -1, y 0 to 1, z 0 to 1; "
            "it should be x -3 to 0, y 0 to 1, z 0 to 1 or a lower half that its halvings come to",
        )

    def test_depth_is_the_number_of_halvings(self):
        data = table(THREE)
        self.says(
            changed(data, 69, "B", 3),
            "slot 2, byte 69: the depth is 3; it should be 2, the halvings that lead to the cell",
        )
        older = changed(changed(changed(data, 37, "B", 0), 69, "B", 0), 101, "B", 0)
        self.says(
            older,
            "slot 1, byte 37: the depth is 0; it should be 1, the halvings that lead to the cell; "
            "a table from before the depth was recorded has 0 in every cell",
        )

    def test_greatest_depth(self):
        self.says(table(lowest_of_many(24, 1)), None)
        deeper = [(state, min(depth, 24), box) for state, depth, box in lowest_of_many(25, 1)]
        self.says(
            table(deeper), "slot 1, byte 40: 25 halvings lead to the cell; there should be 24 at most"
        )

    def test_unsettled_cells_are_the_deepest(self):
        first, second, third = THREE
        self.says(
            table([(3,) + first[1:], second, third]),
            "slot 1, byte 36: the cell is unsettled at depth 1 and larger than one tick cube; "
            "it should be halved, as slot 2, byte 69 is at depth 2",
        )
        # A tick cube cannot be halved.
        self.says(table([(3, 1, (0, 0, 0, 1, 1, 1)), (3, 2, (1, 0, 0, 2, 1, 1)), (1, 2, (2, 0, 0, 3, 1, 1))]), None)

    def test_bytes_behind_the_last_cell(self):
        data = table(THREE, bytes(SLOT + 3))
        self.says(changed(data, 130, "B", 9), "behind the last cell, byte 130: the byte is 9; it should be 0")
        self.says(changed(data, 162, "B", 1), "behind the last cell, byte 162: the byte is 1; it should be 0")


class TieTest(unittest.TestCase):
    """Where longest spans tie one axis is preferred throughout a table."""

    # A cube of four ticks, halved twice from below.
    X_THEN_Y = [(2, 2, (0, 0, 0, 2, 2, 4)), (2, 2, (0, 2, 0, 2, 4, 4)), (2, 1, (2, 0, 0, 4, 4, 4))]
    Y_THEN_X = [(2, 2, (0, 0, 0, 2, 2, 4)), (2, 2, (2, 0, 0, 4, 2, 4)), (2, 1, (0, 2, 0, 4, 4, 4))]
    Z_THEN_X = [(2, 2, (0, 0, 0, 2, 4, 2)), (2, 2, (2, 0, 0, 4, 4, 2)), (2, 1, (0, 0, 2, 4, 4, 4))]
    Z_THEN_Y = [(2, 2, (0, 0, 0, 4, 2, 2)), (2, 2, (0, 2, 0, 4, 4, 2)), (2, 1, (0, 0, 2, 4, 4, 4))]

    def test_the_preferred_axis_is_found(self):
        for preferred, cells in zip("xyz", (self.X_THEN_Y, self.Y_THEN_X, self.Z_THEN_X)):
            self.assertIsNone(breach(table(cells)))
            self.assertIsNone(breach(table(cells), ties=preferred))
            for other in set("xyz") - {preferred}:
                self.assertIsNotNone(breach(table(cells), ties=other))

    def test_the_furthest_is_told(self):
        # By x it is breached at the second cell, by z at the first.
        cells = self.Y_THEN_X[:2] + [(2, 2, (0, 2, 0, 4, 4, 4))]
        self.assertEqual(
            breach(table(cells)),
            "slot 3, byte 101: the depth is 2; it should be 1, the halvings that lead to the cell",
        )
        self.assertEqual(
            breach(table(cells), ties="x"),
            "slot 2, byte 72: the low of x is 2; "
            "it should be 0, for the cells before leave x 0 to 2, y 2 to 4, z 0 to 4 to come",
        )

    def test_behind_the_preferred_axis_comes_the_lowest(self):
        self.assertEqual(
            breach(table(self.Z_THEN_Y)),
            "slot 1, byte 52: the cell is x 0 to 4, y 0 to 2, z 0 to 2; "
            "it should be x 0 to 4, y 0 to 4, z 0 to 4 or a lower half that its halvings come to",
        )


class ListingTest(unittest.TestCase):
    """The same of a listing."""

    def says(self, text, sentence):
        self.assertEqual(listing_breach(text), sentence)

    def test_stored_listing(self):
        self.says((ROOT / "crates/cells/stdout").read_text(), None)

    def test_stored_lines(self):
        """`cells` takes the lowest axis. A case is two lengths, what was read and what was printed."""
        stored = (ROOT / "crates/lines/data/lines").read_bytes()
        place, walks, refusals = 0, 0, 0
        while place < len(stored):
            given, printed = map(int, stored[place : place + 13].split())
            place += 14 + given + printed
            text = stored[place - printed : place].decode()
            if text.startswith("refused "):
                refusals += 1
                self.assertIn("leaves no cells", listing_breach(text))
            else:
                walks += 1
                self.assertIsNone(listing_breach(text, ties="x"), text[:80])
        self.assertEqual((walks, refusals), (21, 87))

    def test_lines_that_are_none(self):
        self.says("", "line 1: the text ends there; it should end with the end of a line")
        self.says(listing(THREE)[:-1], "line 4: the text ends there; it should end with the end of a line")
        self.says("refused 13\n", "line 1: `refused 13` is there; a walk that was refused leaves no cells to check")
        totals = "line 1: `{}` is there; it should be cells, evaluated, solid and open, single spaces between"
        for line in ("1 1 1", "1 1 1 0 ", "01 1 1 0", "+1 1 1 0", "1 1 1 1.5", "1  1 1 0", "1 1 1 0\r", "-0 1 1 0"):
            self.says(line + "\n1 0 0 0 1 1 1\n", totals.format(line))
        self.says("7" * 70 + "\n", totals.format("7" * 60 + ".."))
        cell = "line 2: `{}` is there; it should be a state, three lows and three highs, single spaces between"
        for line in ("", "1 0 0 0 1 1", "1 0 0 0 1 1 1 1", "inside 0 0 0 1 1 1"):
            self.says("1 1 1 0\n" + line + "\n", cell.format(line))

    def test_totals(self):
        text = listing(THREE)
        self.says(text, None)
        self.says(text.replace("3 5", "0 5"), "line 1: the number of cells is 0; it should be 1 at least")
        self.says(text.replace("3 5", "-3 5"), "line 1: the number of cells is -3; it should be 1 at least")
        self.says(
            text.replace("3 5", "3 3"),
            "line 1: the number of boxes evaluated is 3; it should be 5, one less than twice the number of cells, 3",
        )
        self.says(
            text.replace("3 5", "4 7"), "line 1: the number of cells is 4; it should be 3, the lines that follow"
        )
        self.says(
            text.replace("3 5 8 8", "3 5 8 9"),
            "line 1: solid 8 and open 9 add up to 17; it should be 16, the volume of x 0 to 4, y 0 to 2, z 0 to 2, "
            "which goes from the first cell's lows to the last cell's highs",
        )
        self.says(
            text.replace("3 5 8 8", "3 5 9 7"),
            "line 1: the solid volume is 9; it should be 8, the tick cubes of the cells marked inside",
        )

    def test_cells(self):
        text = listing(THREE)
        self.says(
            text.replace("\n2 ", "\n0 "),
            "line 3: the state is 0; it should be 1 inside, 2 outside or 3 unsettled",
        )
        self.says(
            text.replace("\n2 2", "\n2 -1048577"),
            "line 3: the low of x is -1048577; it should be -1048576 to 1048576",
        )
        self.says(text.replace("3 2 2\n", "2 2 2\n"), "line 3: x goes from 2 to 2; the low should be below the high")
        self.says(
            text.replace("\n2 2 0", "\n2 2 1"),
            "line 3: the low of y is 1; "
            "it should be 0, for the cells before leave x 2 to 4, y 0 to 2, z 0 to 2 to come",
        )
        self.says(
            text.replace("\n1 ", "\n3 ").replace("8 8", "0 16"),
            "line 2: the cell is unsettled at depth 1 and larger than one tick cube; "
            "it should be halved, as line 3 is at depth 2",
        )
        self.says(
            listing(lowest_of_many(25, 1)), "line 2: 25 halvings lead to the cell; there should be 24 at most"
        )


class SoundTest(unittest.TestCase):
    """What the layer report asks of any bytes."""

    WHOLE = (-LIMIT,) * 3 + (LIMIT,) * 3

    def says(self, data, sentence):
        self.assertEqual(unsound(data), sentence)
        if LIBRARY:
            self.assertEqual(report_status(data), 0 if sentence is None else 15)

    def test_what_is_not_asked(self):
        data = table(THREE, bytes(SLOT))
        self.says(data, None)
        for place in (8, 12, 20, 28, 31, 38, 39, 70, 130, 159):
            self.says(changed(data, place, "B", 77), None)
        # Cells in another order of their slots, cells that overlap, and depths that no halvings give.
        backwards = changed(changed(changed(changed(data, 0, "I", 3), 96, "I", 2), 64, "I", 1), 32, "I", 0)
        self.says(backwards, None)
        self.says(table([THREE[0]] * 3), None)
        self.says(changed(data, 37, "B", 24), None)
        self.says(table([(3, 0, self.WHOLE)]), None)

    def test_number_of_cells(self):
        self.says(bytes(31), "the file has 31 bytes; it should have 32 at least, for the head")
        self.says(
            bytes(96),
            "head, byte 4: the number of cells is 0; it should be 1 at least; "
            "all bytes are zero, as a walk that is refused by 13 leaves them",
        )
        self.says(
            table(THREE)[:-1],
            "head, byte 4: the number of cells is 3; "
            "it should be 2 at most, for the file has 127 bytes and so 3 slots",
        )

    def test_chain(self):
        data = table(THREE, bytes(SLOT))
        self.says(changed(data, 0, "I", 0), "head, byte 0: the next slot is 0; the chain ends after 0 of 3 cells")
        self.says(
            changed(data, 64, "I", 0), "slot 2, byte 64: the next slot is 0; the chain ends after 2 of 3 cells"
        )
        self.says(
            changed(data, 0, "I", 4), "head, byte 0: the next slot is 4; the 3 cells should be in the slots from 1 on"
        )
        self.says(
            changed(data, 32, "I", 2**32 - 1),
            "slot 1, byte 32: the next slot is 4294967295; the 3 cells should be in the slots from 1 on",
        )
        self.says(changed(data, 64, "I", 1), "slot 2, byte 64: the next slot is 1; the chain has been there before")
        self.says(
            changed(data, 96, "I", 1),
            "slot 3, byte 96: the next slot is 1; it should be 0, behind the last of 3 cells",
        )

    def test_records(self):
        data = table(THREE)
        self.says(
            changed(data, 36, "B", 4),
            "slot 1, byte 36: the state is 4; it should be 1 inside, 2 outside or 3 unsettled",
        )
        self.says(changed(data, 37, "B", 25), "slot 1, byte 37: the depth is 25; it should be 0 to 24")
        self.says(
            changed(data, 60, "i", LIMIT + 1),
            "slot 1, byte 60: the high of z is 1048577; it should be -1048576 to 1048576",
        )
        self.says(
            changed(data, 44, "i", 2), "slot 1, byte 44: y goes from 2 to 2; the low should be below the high"
        )

    def test_volumes_together(self):
        cells = [(1, 0, self.WHOLE), (1, 0, (0, 0, 0, 1, 1, 1))]
        self.says(
            table(cells, solid=0, rest=0),
            "the volumes of the cells add up to 9223372036854775809; it should be 9223372036854775808 at most",
        )


class CommandTest(unittest.TestCase):
    """The words, the lines and the exit status of the command."""

    def setUp(self):
        self.directory = tempfile.TemporaryDirectory(prefix="check_table")
        self.addCleanup(self.directory.cleanup)

    def kept(self, name, data):
        Path(self.directory.name, name).write_bytes(data)

    def run_on(self, *words):
        command = [sys.executable, str(Path(check_table.__file__).resolve()), *words]
        done = subprocess.run(command, cwd=self.directory.name, capture_output=True, text=True)
        return done.returncode, done.stdout, done.stderr

    def test_nothing_breached(self):
        self.kept("core.table", table(THREE))
        self.kept("core.txt", listing(THREE).encode())
        self.kept("one.table", table([(1, 0, (0, 0, 0, 2, 2, 2))]))
        holds = "3 cells, solid 8 and open 8 tick cubes, as a walk leaves them\n"
        self.assertEqual(self.run_on("core.table"), (0, "core.table: " + holds, ""))
        self.assertEqual(
            self.run_on("--ties", "x", "core.table", "core.txt"), (0, f"core.table: {holds}core.txt: {holds}", "")
        )
        one = "one.table: 1 cell, solid 8 and open 0 tick cubes, as a walk leaves them\n"
        self.assertEqual(self.run_on("one.table"), (0, one, ""))
        self.assertEqual(self.run_on("--sound", "core.table"), (0, "core.table: 3 cells, a sound table\n", ""))

    def test_breaches(self):
        self.kept("core.table", changed(table(THREE), 8, "I", 0))
        self.kept("core.txt", b"1 1 1 0\n\xff\n")
        status, said, _ = self.run_on("core.table", "core.txt")
        first, second = said.splitlines()
        self.assertEqual(status, 1)
        self.assertTrue(first.startswith("core.table: head, byte 8: the number of boxes evaluated is 0; "), first)
        self.assertTrue(second.startswith("core.txt: line 2: `\\xff` is there; "), second)
        self.assertEqual(self.run_on("--sound", "core.table")[0], 0)
        self.kept("empty", b"")
        self.assertEqual(
            self.run_on("empty"), (1, "empty: the file has 0 bytes; it should have 32 at least, for the head\n", "")
        )
        self.assertEqual(self.run_on("--sound", "empty")[0], 1)

    def test_ties_are_as_they_are_named(self):
        self.kept("core.table", table(TieTest.Z_THEN_X))
        self.assertEqual([self.run_on("--ties", axis, "core.table")[0] for axis in "xyz"], [1, 1, 0])

    def test_files_and_words_that_are_off(self):
        self.kept("core.txt", listing(THREE).encode())
        self.assertEqual(
            self.run_on("missing", "core.txt"),
            (
                2,
                "core.txt: 3 cells, solid 8 and open 8 tick cubes, as a walk leaves them\n",
                "check_table: cannot read missing: No such file or directory\n",
            ),
        )
        self.assertEqual(
            self.run_on("--sound", "core.txt"),
            (2, "", "check_table: core.txt is a listing, and --sound asks about the bytes of a table\n"),
        )
        for words in ((), ("--ties", "w", "core.txt"), ("--sound", "--ties", "x", "core.txt")):
            status, said, error = self.run_on(*words)
            self.assertEqual((status, said), (2, ""))
            self.assertIn("check_table: error: ", error)


def report_status(data):
    """What the library's layer report answers to the bytes."""
    library = ctypes.CDLL(os.path.abspath(LIBRARY))
    library.gyroid_layers.restype = ctypes.c_uint32
    library.gyroid_layers.argtypes = [
        ctypes.c_char_p, ctypes.c_size_t, ctypes.c_int64, ctypes.c_int64, ctypes.c_void_p, ctypes.c_size_t,
    ]
    report = ctypes.create_string_buffer(24)
    return library.gyroid_layers(data, len(data), 0, 1, report, 24)


class Stored:
    """A table of a walk, and its bytes in four parts: head, states, all of the records, and what lies behind."""

    def __init__(self, path):
        self.name = path.name
        self.data = path.read_bytes()
        self.cells = struct.unpack_from("<I", self.data, 4)[0]
        end = SLOT * (self.cells + 1)
        self.deepest = max(self.data[SLOT + 5 : end : SLOT])
        parts = [range(SLOT), range(SLOT + 4, end, SLOT), range(SLOT, end), range(end, len(self.data))]
        self.parts = [part for part in parts if part]

    def damage(self, chance):
        """Another value at a place, both by chance. In the part of the states it is another state."""
        part = chance.choice(self.parts)
        place = chance.choice(part)
        values = range(1, 4) if part.step == SLOT else range(256)
        return place, chance.choice([value for value in values if value != self.data[place]])

    def is_untold(self, place, value):
        """Whether no other byte tells the change: outside for unsettled, or unsettled for outside where an unsettled
        cell may stand."""
        slot, offset = divmod(place, SLOT)
        if offset != 4 or not 1 <= slot <= self.cells or {self.data[place], value} != {2, 3}:
            return False
        box = struct.unpack_from("<6i", self.data, SLOT * slot + 8)
        return value == 2 or volume(box) == 1 or self.data[place + 1] == self.deepest


class DamageTest(unittest.TestCase):
    """Tables that walks have left, whole and with one byte changed."""

    @classmethod
    def setUpClass(cls):
        if not TABLES:
            print("GYROID_TABLES is not set: no table of a walk is damaged")
            raise unittest.SkipTest("GYROID_TABLES is not set")
        if not LIBRARY:
            print("GYROID_LIBRARY is not set: the layer report is not asked about damaged tables")
        if not TOOL:
            print("GYROID_TOOL is not set: changes that no other byte tells are not held against a walk")
        cls.tables = [Stored(path) for path in sorted(Path(TABLES).glob("*.table"))]

    def test_whole(self):
        self.assertTrue(self.tables, f"no *.table in {TABLES}")
        for table in self.tables:
            with self.subTest(table.name):
                self.assertIsNone(breach(table.data))
                self.assertIsNone(unsound(table.data))

    def damages(self):
        """Each table once, and then small ones rather than large ones, for the time that a check takes."""
        chance = random.Random(1)
        others = DAMAGES - len(self.tables)
        weights = [1 / (table.cells + 1000) for table in self.tables]
        for table in self.tables + chance.choices(self.tables, weights, k=others):
            yield (table, *table.damage(chance))

    def beside_walk(self, table, data):
        """What the tool says of these bytes beside a walk of the table's part file: its status and its sentence."""
        with tempfile.NamedTemporaryFile(suffix=".table") as file:
            file.write(data)
            file.flush()
            words = [TOOL, "info", file.name, "--part", Path(TABLES, table.name).with_suffix(".part")]
            ended = subprocess.run(words, stdout=subprocess.DEVNULL, stderr=subprocess.PIPE, text=True)
        return ended.returncode, ended.stderr

    @unittest.skipUnless(TOOL, "GYROID_TOOL is not set")
    def test_whole_beside_walk(self):
        for table in self.tables:
            self.assertEqual(self.beside_walk(table, table.data), (0, ""))

    def test_damaged(self):
        untold = refused = 0
        for table, place, value in self.damages():
            data = changed(table.data, place, "B", value)
            with self.subTest(table.name, place=place, value=value):
                self.assertEqual(breach(data) is None, table.is_untold(place, value))
                untold += table.is_untold(place, value)
                if TOOL and table.is_untold(place, value):
                    status, sentence = self.beside_walk(table, data)
                    self.assertEqual(status, 1)
                    self.assertIn(f"byte {place}, in slot {place // SLOT}, is {value} and not ", sentence)
                if LIBRARY:
                    is_refused = report_status(data) == 15
                    self.assertEqual(is_refused, unsound(data) is not None)
                    refused += is_refused
        print(
            f"{DAMAGES} changes of one byte in {len(self.tables)} tables: {DAMAGES - untold} seen; "
            f"{untold} change a state between outside and unsettled, which no other byte tells"
            + (", and are seen beside a walk" if TOOL else "")
        )
        if LIBRARY:
            print(f"the layer report refuses {refused} of the {DAMAGES}, those that are unsound here and no others")


if __name__ == "__main__":
    unittest.main()
