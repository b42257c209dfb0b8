#!/usr/bin/env python3
"""Says the first breach of docs/TABLE.md in a table file, or in a listing as the program `cells` prints one.

    python3 tools/check_table.py [--sound | --ties x|y|z] FILE..

It is written from that page and shares nothing with the project's own readers. What holds of a table that a walk has
left is asked in this order: the head; the zeros behind the last cell; each record by itself; the box, from the first
cell's lows to the last cell's highs, against the head's volumes; the cells as the leaves of a tree of halvings of that
box, with their depths; the depth of unsettled cells; the solid volume. A listing has no chain, no depths and no zeros,
and is asked for the others.

A box is halved across a longest span, at low + span div 2. Across which axis where longest spans tie is not recorded:
one axis is preferred throughout a table, and the lowest is taken where that one is not among them; x preferred is the
lowest-axis rule. All three are tried, and a breach is told of the one that goes furthest. --ties names it.

--sound asks only what the layer report asks of any bytes.

Exit status: 0 where nothing is breached, 1 for a breach, 2 for a file that cannot be read or words that are off.
"""
import argparse
import re
import struct
import sys
from collections import namedtuple

SLOT = 32
COORDINATE_LIMIT = 2**20
GREATEST_DEPTH = 24
GREATEST_VOLUME = 2**63
INSIDE, OUTSIDE, UNSETTLED = 1, 2, 3
AXES = "xyz"

# Cells, evaluated, solid and open stand behind the first cell's slot.
HEAD = struct.Struct("<IIIQQ")
# Next slot, state, depth, zeros, lows, highs: a row. In the rows of a listing the first and the third are None.
RECORD = struct.Struct("<IBBH6i")
NEXT, STATE, DEPTH, ZEROS, BOX = 0, 1, 2, 3, slice(4, 10)

NUMBER = "(0|-?[1-9][0-9]{0,19})"
TOTALS_LINE = re.compile(" ".join([NUMBER] * 4))
CELL_LINE = re.compile(" ".join([NUMBER] * 7))

# What a table and a listing both say. `rows` makes an iterator over the rows, and `where` names the place of an entry
# by its slot and its offset there.
Walked = namedtuple("Walked", "cells evaluated solid open box rows where")


class Breach(Exception):
    """A sentence on what does not hold, and the slot at which it shows."""

    def __init__(self, slot, sentence):
        super().__init__(sentence)
        self.slot = slot


def in_table(slot, offset):
    name = f"slot {slot}" if slot else "head"
    return f"{name}, byte {SLOT * slot + offset}"


def in_listing(slot, _offset):
    return f"line {slot + 1}"


# Boxes are six numbers: three lows, then three highs.


def spans(box):
    return box[3] - box[0], box[4] - box[1], box[5] - box[2]


def volume(box):
    x, y, z = spans(box)
    return x * y * z


def told(box):
    return ", ".join(f"{axis} {box[i]} to {box[i + 3]}" for i, axis in enumerate(AXES))


def halves(box, axes):
    """The lower and the upper half across a longest span: of those that tie, the first in `axes`."""
    axis = max(axes, key=lambda axis: box[axis + 3] - box[axis])
    middle = box[axis] + (box[axis + 3] - box[axis]) // 2
    return box[: axis + 3] + (middle,) + box[axis + 4 :], box[:axis] + (middle,) + box[axis + 1 :]


# One record by itself.


def check_state(where, slot, state):
    if not INSIDE <= state <= UNSETTLED:
        raise Breach(slot, f"{where(slot, 4)}: the state is {state}; it should be 1 inside, 2 outside or 3 unsettled")


def check_depth(where, slot, depth):
    if depth > GREATEST_DEPTH:
        raise Breach(slot, f"{where(slot, 5)}: the depth is {depth}; it should be 0 to {GREATEST_DEPTH}")


def check_box(where, slot, box):
    if min(box) < -COORDINATE_LIMIT or max(box) > COORDINATE_LIMIT:
        place = next(i for i, number in enumerate(box) if abs(number) > COORDINATE_LIMIT)
        end = ("low", "high")[place // 3]
        raise Breach(
            slot,
            f"{where(slot, 8 + 4 * place)}: the {end} of {AXES[place % 3]} is {box[place]}; "
            f"it should be {-COORDINATE_LIMIT} to {COORDINATE_LIMIT}",
        )
    if min(spans(box)) < 1:
        axis = next(i for i, span in enumerate(spans(box)) if span < 1)
        raise Breach(
            slot,
            f"{where(slot, 8 + 4 * axis)}: {AXES[axis]} goes from {box[axis]} to {box[axis + 3]}; "
            "the low should be below the high",
        )


# The head.


def check_counts(where, cells, evaluated):
    if cells < 1:
        raise Breach(0, f"{where(0, 4)}: the number of cells is {cells}; it should be 1 at least")
    if evaluated != 2 * cells - 1:
        raise Breach(
            0,
            f"{where(0, 8)}: the number of boxes evaluated is {evaluated}; "
            f"it should be {2 * cells - 1}, one less than twice the number of cells, {cells}",
        )


def cells_that_fit(data):
    """The head's number of cells, for which the file has slots."""
    slots = len(data) // SLOT
    if slots == 0:
        raise Breach(0, f"the file has {len(data)} bytes; it should have {SLOT} at least, for the head")
    cells = HEAD.unpack_from(data)[1]
    if cells == 0:
        refused = "" if any(data) else "; all bytes are zero, as a walk that is refused by 13 leaves them"
        raise Breach(0, f"{in_table(0, 4)}: the number of cells is 0; it should be 1 at least{refused}")
    if cells >= slots:
        raise Breach(
            0,
            f"{in_table(0, 4)}: the number of cells is {cells}; "
            f"it should be {slots - 1} at most, for the file has {len(data)} bytes and so {slots} slots",
        )
    return cells


def check_zeros(data, start, end, slot, what):
    found = data[start:end].lstrip(b"\0")
    if found:
        raise Breach(slot, f"{what}, byte {end - len(found)}: the byte is {found[0]}; it should be 0")


# What the cells have to be together.


def whole_box(first, last):
    """From the lows of the first cell to the highs of the last: lower halves come first, so this is the walk's box."""
    return first[BOX][:3] + last[BOX][3:]


def check_whole(walked):
    if walked.solid + walked.open != volume(walked.box):
        raise Breach(
            0,
            f"{walked.where(0, 12)}: solid {walked.solid} and open {walked.open} add up to "
            f"{walked.solid + walked.open}; it should be {volume(walked.box)}, the volume of {told(walked.box)}, "
            "which goes from the first cell's lows to the last cell's highs",
        )


def check_lows(where, slot, cell, box):
    if cell[:3] != box[:3]:
        axis = next(i for i in range(3) if cell[i] != box[i])
        raise Breach(
            slot,
            f"{where(slot, 8 + 4 * axis)}: the low of {AXES[axis]} is {cell[axis]}; "
            f"it should be {box[axis]}, for the cells before leave {told(box)} to come",
        )


def check_highs(where, slot, cell, box, awaited):
    """`box` is what the halvings of `awaited` have come to. A cell that is none of its lower halves outgrows one."""
    if cell[3] > box[3] or cell[4] > box[4] or cell[5] > box[5]:
        axis = next(i for i in range(3) if cell[i + 3] > box[i + 3])
        raise Breach(
            slot,
            f"{where(slot, 20 + 4 * axis)}: the cell is {told(cell)}; "
            f"it should be {told(awaited)} or a lower half that its halvings come to",
        )


def check_halvings(where, slot, found, halvings):
    if halvings > GREATEST_DEPTH:
        raise Breach(
            slot, f"{where(slot, 8)}: {halvings} halvings lead to the cell; there should be {GREATEST_DEPTH} at most"
        )
    if found is not None and found != halvings:
        older = "" if found else "; a table from before the depth was recorded has 0 in every cell"
        raise Breach(
            slot,
            f"{where(slot, 5)}: the depth is {found}; "
            f"it should be {halvings}, the halvings that lead to the cell{older}",
        )


def depths_by(axes, walked):
    """The depth of each cell, where the cells are the leaves of a tree of halvings in which ties go by `axes`.

    `waiting` has the boxes that are still to be filled, the next one last. That the last cell ends where the box does
    leaves none of them over.
    """
    waiting = [(walked.box, 0)]
    depths = bytearray()
    for slot, row in enumerate(walked.rows(), 1):
        cell = row[BOX]
        if not waiting:
            raise Breach(
                slot, f"{walked.where(slot, 8)}: the cells before fill {told(walked.box)}; there should be no more"
            )
        awaited, depth = waiting.pop()
        check_lows(walked.where, slot, cell, awaited)
        box = awaited
        while cell != box:
            check_highs(walked.where, slot, cell, box, awaited)
            box, upper = halves(box, axes)
            depth += 1
            waiting.append((upper, depth))
        check_halvings(walked.where, slot, row[DEPTH], depth)
        depths.append(depth)
    return depths


def depths_of(walked, ties):
    """The depths by the preferred axis that fits, of all three or of the one that is named."""
    breaches = []
    for preferred in ties or AXES:
        axes = sorted(range(3), key=lambda axis: AXES[axis] != preferred)
        try:
            return depths_by(axes, walked)
        except Breach as breach:
            breaches.append(breach)
    raise max(breaches, key=lambda breach: breach.slot)


def check_unsettled(walked, depths):
    """The depth that a walk was given is not recorded. No cell stands deeper, so an unsettled cell that could have been
    halved stands as deep as the deepest."""
    deepest = max(depths)
    for slot, (row, depth) in enumerate(zip(walked.rows(), depths), 1):
        if row[STATE] == UNSETTLED and depth < deepest and max(spans(row[BOX])) > 1:
            raise Breach(
                slot,
                f"{walked.where(slot, 4)}: the cell is unsettled at depth {depth} and larger than one tick cube; "
                f"it should be halved, as {walked.where(depths.index(deepest) + 1, 5)} is at depth {deepest}",
            )


def check_solid(walked):
    """The rest of the box is then what `check_whole` leaves to the open volume."""
    solid = sum(volume(row[BOX]) for row in walked.rows() if row[STATE] == INSIDE)
    if solid != walked.solid:
        raise Breach(
            0,
            f"{walked.where(0, 12)}: the solid volume is {walked.solid}; "
            f"it should be {solid}, the tick cubes of the cells marked inside",
        )


def check_cells(walked, ties):
    check_whole(walked)
    check_unsettled(walked, depths_of(walked, ties))
    check_solid(walked)


# A table.


def check_record(data, slot, row, following):
    if row[NEXT] != following:
        why = "" if following else ", for it is the last cell"
        raise Breach(slot, f"{in_table(slot, 0)}: the next slot is {row[NEXT]}; it should be {following}{why}")
    check_state(in_table, slot, row[STATE])
    check_depth(in_table, slot, row[DEPTH])
    if row[ZEROS]:
        check_zeros(data, SLOT * slot + 6, SLOT * slot + 8, slot, f"slot {slot}")
    check_box(in_table, slot, row[BOX])


def check_table(data, ties=None):
    cells = cells_that_fit(data)
    first, _, evaluated, solid, rest = HEAD.unpack_from(data)
    if first != 1:
        raise Breach(0, f"{in_table(0, 0)}: the first cell's slot is {first}; it should be 1")
    check_counts(in_table, cells, evaluated)
    check_zeros(data, HEAD.size, SLOT, 0, "head")
    end = SLOT * (cells + 1)
    check_zeros(data, end, len(data), cells, "behind the last cell")
    records = memoryview(data)[SLOT:end]
    for slot, row in enumerate(RECORD.iter_unpack(records), 1):
        check_record(data, slot, row, slot + 1 if slot < cells else 0)
    box = whole_box(RECORD.unpack_from(data, SLOT), RECORD.unpack_from(data, end - SLOT))
    walked = Walked(cells, evaluated, solid, rest, box, lambda: RECORD.iter_unpack(records), in_table)
    check_cells(walked, ties)
    return walked


# A listing.


def numbers(pattern, line, slot, what):
    found = pattern.fullmatch(line)
    if found is None:
        shown = line if len(line) <= 60 else line[:60] + ".."
        raise Breach(slot, f"{in_listing(slot, 0)}: `{shown}` is there; it should be {what}, single spaces between")
    return [int(number) for number in found.groups()]


def lines_of(text):
    *lines, rest = text.split("\n")
    if rest or not lines:
        raise Breach(len(lines), f"line {len(lines) + 1}: the text ends there; it should end with the end of a line")
    if lines[0].startswith("refused "):
        raise Breach(0, f"line 1: `{lines[0][:60]}` is there; a walk that was refused leaves no cells to check")
    return lines


def row_of(line, slot):
    state, *box = numbers(CELL_LINE, line, slot, "a state, three lows and three highs")
    check_state(in_listing, slot, state)
    check_box(in_listing, slot, box)
    return (None, state, None, 0, *box)


def check_listing(text, ties=None):
    totals, *lines = lines_of(text)
    cells, evaluated, solid, rest = numbers(TOTALS_LINE, totals, 0, "cells, evaluated, solid and open")
    check_counts(in_listing, cells, evaluated)
    if cells != len(lines):
        raise Breach(0, f"line 1: the number of cells is {cells}; it should be {len(lines)}, the lines that follow")
    rows = [row_of(line, slot) for slot, line in enumerate(lines, 1)]
    walked = Walked(cells, evaluated, solid, rest, whole_box(rows[0], rows[-1]), lambda: iter(rows), in_listing)
    check_cells(walked, ties)
    return walked


# Soundness: what the layer report asks of any bytes.


def check_link(named_in, slot, cells, visited):
    """Whether the next slot that slot `named_in` names can be the chain's next."""
    if slot == 0:
        why = f"the chain ends after {sum(visited)} of {cells} cells"
    elif slot > cells:
        why = f"the {cells} cells should be in the slots from 1 on"
    elif visited[slot]:
        why = "the chain has been there before"
    else:
        return
    raise Breach(named_in, f"{in_table(named_in, 0)}: the next slot is {slot}; {why}")


def check_sound(data):
    cells = cells_that_fit(data)
    named_in, slot = 0, HEAD.unpack_from(data)[0]
    visited = bytearray(cells + 1)
    together = 0
    for _ in range(cells):
        check_link(named_in, slot, cells, visited)
        visited[slot] = 1
        row = RECORD.unpack_from(data, SLOT * slot)
        check_state(in_table, slot, row[STATE])
        check_depth(in_table, slot, row[DEPTH])
        check_box(in_table, slot, row[BOX])
        together += volume(row[BOX])
        named_in, slot = slot, row[NEXT]
    if slot != 0:
        raise Breach(
            named_in,
            f"{in_table(named_in, 0)}: the next slot is {slot}; it should be 0, behind the last of {cells} cells",
        )
    if together > GREATEST_VOLUME:
        raise Breach(0, f"the volumes of the cells add up to {together}; it should be {GREATEST_VOLUME} at most")
    return cells


# The three questions, answered by a sentence, or by None where all holds.


def sentence(check, *given):
    try:
        check(*given)
    except Breach as breach:
        return str(breach)
    return None


def breach(data, ties=None):
    """The first breach of what holds of a table that a walk has left. `ties` names a preferred axis: x, y or z."""
    return sentence(check_table, data, ties)


def listing_breach(text, ties=None):
    """The same of a listing."""
    return sentence(check_listing, text, ties)


def unsound(data):
    """The first breach of soundness."""
    return sentence(check_sound, data)


# The command.


def is_listing(data):
    """A table's slot numbers, volumes and zeros bring a zero byte into its head, and a text has none."""
    return len(data) > 0 and 0 not in data[:SLOT]


def told_cells(number):
    return f"{number} cell" if number == 1 else f"{number} cells"


def answer(data, arguments):
    """What there is to say of a file's bytes where nothing is breached."""
    if arguments.sound:
        return f"{told_cells(check_sound(data))}, a sound table"
    if is_listing(data):
        walked = check_listing(data.decode("ascii", "backslashreplace"), arguments.ties)
    else:
        walked = check_table(data, arguments.ties)
    volumes = f"solid {walked.solid} and open {walked.open} tick cubes"
    return f"{told_cells(walked.cells)}, {volumes}, as a walk leaves them"


def status_of(path, arguments):
    try:
        with open(path, "rb") as file:
            data = file.read()
    except OSError as error:
        print(f"check_table: cannot read {path}: {error.strerror}", file=sys.stderr)
        return 2
    if arguments.sound and is_listing(data):
        print(f"check_table: {path} is a listing, and --sound asks about the bytes of a table", file=sys.stderr)
        return 2
    try:
        print(f"{path}: {answer(data, arguments)}")
        return 0
    except Breach as breach:
        print(f"{path}: {breach}")
        return 1


def main(words=None):
    parser = argparse.ArgumentParser(
        prog="check_table", description="Says the first breach of docs/TABLE.md in a table file or a listing."
    )
    asked = parser.add_mutually_exclusive_group()
    asked.add_argument("--sound", action="store_true", help="ask only what the layer report asks of any bytes")
    asked.add_argument("--ties", choices=list(AXES), help="the axis that ties go to; without it all three are tried")
    parser.add_argument("files", metavar="FILE", nargs="+", help="a table, or a listing of the program `cells`")
    arguments = parser.parse_args(words)
    return max(status_of(path, arguments) for path in arguments.files)


if __name__ == "__main__":
    sys.exit(main())
