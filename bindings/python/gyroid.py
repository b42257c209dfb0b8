"""The evaluation behind the marks of graded gyroid cells, proved in Rattle, for Python programs.

A core is a `Description` in whole ticks (1/1024 mm) and level counts (1/1024), of one `Surface` or another. Each call
takes a description, and nothing is kept between calls. What a call cannot work on it refuses by a number: `Refused`.
Where a call may find nothing, it answers None. `walk` marks a whole part box and answers its cells in a `Table`; a
`TieRule` says across which axis it halves a box whose longest sides tie. `layers` takes such a table in place of a
description, and says what area its cells have in each layer.

    >>> core = Description.constant(10240, 2048)
    >>> world = Interval(0.0, 0.5), Interval(0.0, 1.0), Interval(0.0, 1.0)
    >>> box_state(core, world)
    <State.INSIDE: 1>
    >>> residual(core, world).hi < 0.0
    True

A period of 0 is refused by 2:

    >>> residual(Description.constant(0, 2048), world)
    Traceback (most recent call last):
    ...
    gyroid.Refused: refused 2: the period is not above 0, or from = to

The calls stand in the shared library libgyroid.so, for Linux on x86-64 with the GNU C library. The environment variable
GYROID_LIBRARY names it; otherwise it is looked for where bindings/install puts it, and then by the system's loader. It
is loaded by the first call, so a `Table` that was kept can be read without it.

The proofs speak of IEEE 754 as a processor starts, and another library of the process may have changed that: one built
with -ffast-math does. So each call sets the default float state (MXCSR 0x1F80) for its time and restores the thread's
own, exception flags and all; only `layers`, which computes with whole numbers alone, has no need to. A call gives up
the interpreter's lock, so walks of several threads run side by side.
"""
import ctypes
import ctypes.util
import functools
import operator
import os
import platform
import struct
import sys
from contextlib import contextmanager
from dataclasses import dataclass, replace
from enum import IntEnum
from pathlib import Path
from typing import Iterator, List, NamedTuple, Optional, Sequence, Tuple

__all__ = [
    "Bounds", "Cell", "Derivatives", "Description", "Head", "Interval", "Jet", "LAYER", "Layer", "Piece", "Planes",
    "Range", "Refused", "SLOT", "State", "Surface", "Table", "TieRule",
    "affine_jet", "affine_residual", "box_state", "curvature", "derivatives", "facet_residual", "fast",
    "fast_distance", "grade_range", "graded", "jet", "layers", "level_piece", "lipschitz", "planes", "residual",
    "saturated", "walk",
]

#: The bytes of a slot: a walk of n cells wants a table of n + 1 slots.
SLOT = 32
#: The bytes of a layer in the library's report.
LAYER = 24

# Whole numbers of the documents: no coordinate or layer beyond the first, no depth beyond the second.
_LIMIT = 2**20
_GREATEST_DEPTH = 24

_TEXTS = {
    1: "an entry is outside its limits or kinds",
    2: "the period is not above 0, or from = to",
    3: "a sheet, a distance level, or a frame that is not the part frame",
    4: "the anchors differ on other than one axis",
    5: "an end is outside its range, or the slope is above 1/10",
    6: "a low of the box is above its high",
    7: "a distance level has no range",
    8: "a linear level with from = to has no range",
    9: "a double is a NaN, or a low is above its high",
    10: "an end or a point is beyond 2^40 in size",
    11: "a span of the box is below 1",
    12: "the depth is below 0 or above 24",
    13: "the table has too few slots for the cells",
    15: "the table is not sound",
    16: "the layer run is empty or leaves the coordinate limits",
    17: "the report buffer holds fewer than 24 bytes a layer",
}


class Refused(Exception):
    """Why a call could not work on its input: document 01's number, 1 to 13, or document 02's, 15 or 16.

    The first that holds wins, in the documents' order.

    >>> try:
    ...     graded(Description.constant(0, 2048))
    ... except Refused as refused:
    ...     refused.number, refused.text
    (2, 'the period is not above 0, or from = to')
    """

    def __init__(self, number: int):
        super().__init__(number)
        #: The number.
        self.number = number
        #: What it says, in a few words.
        self.text = _TEXTS[number]

    def __str__(self) -> str:
        return f"refused {self.number}: {self.text}"


# What the calls take and answer, by value.


class Surface(IntEnum):
    """The surface of a core: what g stands for, with X = 2πx/a, and likewise Y and Z. The solid is where g is at most
    the level.

    The number is the description's kind. A sheet, kind 1, is refused by 3, and a kind that is none by 1.

    >>> core = Description.constant(10240, 2048)
    >>> world = [Interval(0.0, 0.5)] * 3
    >>> [box_state(core.with_surface(surface), world) for surface in Surface]
    [<State.INSIDE: 1>, <State.OUTSIDE: 2>]
    """

    #: sin X cos Y + sin Y cos Z + sin Z cos X.
    NETWORK = 0
    #: cos X + cos Y + cos Z, with wider throats.
    PRIMITIVE = 2


class State(IntEnum):
    """The mark of a box.

    >>> State(3), str(State.INSIDE)
    (<State.UNSETTLED: 3>, 'inside')
    """

    #: The residual is below zero all over the box.
    INSIDE = 1
    #: The residual is above zero all over the box.
    OUTSIDE = 2
    #: Neither is known.
    UNSETTLED = 3

    def __str__(self) -> str:
        return self.name.lower()

    def __format__(self, form: str) -> str:
        return format(str(self), form)


class Piece(IntEnum):
    """The piece of a level that holds over a whole box.

    >>> Piece(1)
    <Piece.RAMP: 1>
    """

    #: The start value, at or before the start anchor's plane; a constant level everywhere.
    START = 0
    #: The ramp, between the anchor planes.
    RAMP = 1
    #: The end value, at or beyond the end anchor's plane.
    END = 2


class TieRule(IntEnum):
    """The axis across which a `walk` halves a box where longest sides tie.

    The grade axis of a core is the one on which `from_` and `to` differ, of a linear level with unequal ends. Equal
    ends have none, and neither has a constant level.

    >>> core = Description.linear(10240, (0, 0, 0), (0, 0, 10240), -256, 256)
    >>> cube = Bounds((-1024, -1024, -1024), (1024, 1024, 1024))
    >>> for rule in TieRule:
    ...     lower, upper = walk(core, cube, 1, rule)
    ...     print(rule.name, lower.bounds.high)
    GRADE_AXIS (1024, 1024, 0)
    LOWEST_AXIS (0, 1024, 1024)
    """

    #: The grade axis if it is among them, otherwise the lowest of them.
    GRADE_AXIS = 0
    #: The lowest of them: x before y before z, whatever the level. For a preview that relies on this cut.
    LOWEST_AXIS = 1


class Interval(NamedTuple):
    """Two doubles, in millimetres where they bound a box. A call refuses a NaN, or a low end above the high one, by 9.

    >>> Interval(0.0, 0.5).hi
    0.5
    """

    #: The low end.
    lo: float
    #: The high end.
    hi: float

    @classmethod
    def point(cls, v: float) -> "Interval":
        """The interval of one double.

        >>> Interval.point(0.5)
        Interval(lo=0.5, hi=0.5)
        """
        return cls(v, v)


#: A box, or a point in intervals: x, y, z.
World = Sequence[Interval]
#: Three whole numbers: x, y, z.
Ticks = Tuple[int, int, int]


class Bounds(NamedTuple):
    """A closed box of whole ticks.

    >>> millimetre = Bounds((0, 0, 0), (1024, 1024, 1024))
    >>> level_piece(Description.constant(10240, 2048), millimetre)
    <Piece.START: 0>
    """

    #: The low corner.
    low: Ticks
    #: The high corner.
    high: Ticks

    def volume(self) -> Optional[int]:
        """The tick cubes in the box, or None where a low is above its high.

        >>> Bounds((-1, 0, 0), (1, 3, 4)).volume()
        24
        >>> Bounds((0, 0, 0), (1, 1, -1)).volume() is None
        True
        """
        x, y, z = (high - low for low, high in zip(self.low, self.high))
        return x * y * z if min(x, y, z) >= 0 else None


class Jet(NamedTuple):
    """A value and its gradient.

    >>> value, gradient = jet(Description.constant(10240, 0), [Interval.point(0.0)] * 3)
    >>> value.lo <= value.hi and gradient[2].lo > 0.0
    True
    """

    #: The value.
    value: Interval
    #: Its gradient, per millimetre.
    gradient: Tuple[Interval, Interval, Interval]


class Derivatives(NamedTuple):
    """First and second derivatives over a box.

    >>> found = derivatives(Description.constant(10240, 0), [Interval.point(0.0)] * 3, Piece.START)
    >>> found.gradient[1].lo > 0.0, len(found.hessian)
    (True, 3)
    """

    #: The gradient of g less the level.
    gradient: Tuple[Interval, Interval, Interval]
    #: The Hessian of g, row by row.
    hessian: Tuple[Tuple[Interval, Interval, Interval], ...]


class Range(NamedTuple):
    """The least and the greatest level over a box, in level counts: two exact fractions over one denominator.

    >>> grade_range(Description.constant(10240, 2048), Bounds((0, 0, 0), (1024, 1024, 1024)))
    Range(low=2048, high=2048, denominator=1)
    """

    #: The least level's numerator.
    low: int
    #: The greatest level's numerator.
    high: int
    #: The denominator of both, above 0. The fractions are not reduced.
    denominator: int


class Planes(NamedTuple):
    """The anchor planes of a ramp.

    >>> planes(Description.linear(10240, (0, 0, 0), (0, 0, 10240), -256, 256))
    Planes(axis=2, from_=0, to=10240)
    """

    #: The axis that they are square to: 0, 1 or 2.
    axis: int
    #: The position of the description's `from_` on it, in ticks.
    from_: int
    #: The position of its `to` on it, in ticks.
    to: int


class Head(NamedTuple):
    """What slot 0 of a table says.

    >>> cube = Bounds((0, 0, 0), (1024, 1024, 1024))
    >>> head = walk(Description.constant(10240, 2048), cube, 1).head()
    >>> head
    Head(first=1, cells=2, evaluated=3, solid=536870912, open=536870912)
    >>> head.solid + head.open == cube.volume()
    True
    """

    #: The slot of the first cell.
    first: int
    #: The number of cells.
    cells: int
    #: The number of boxes that were evaluated: the cells, and every box that was halved.
    evaluated: int
    #: The volume of the cells inside, in tick cubes.
    solid: int
    #: The volume of the rest of the box, in tick cubes.
    open: int


class Cell(NamedTuple):
    """A box that the walk did not halve, its mark, and how deep in the walk it stands.

    >>> next(iter(walk(Description.constant(10240, 2048), Bounds((0, 0, 0), (512, 1024, 1024)), 24)))
    Cell(state=<State.INSIDE: 1>, depth=0, bounds=Bounds(low=(0, 0, 0), high=(512, 1024, 1024)))
    """

    #: The mark.
    state: State
    #: The halvings that led to it: 0 where the walk's box is one cell, 24 at most.
    depth: int
    #: The box, in ticks.
    bounds: Bounds


class Layer(NamedTuple):
    """The tick squares of one layer that lie in cells of each state.

    >>> table = walk(Description.constant(10240, 2048), Bounds((0, 0, 0), (1024, 1024, 1024)), 1)
    >>> table.layers(0, 1)
    [Layer(z=0, inside=524288, outside=0, unsettled=524288)]
    """

    #: The layer lies between z and z + 1, in ticks.
    z: int
    #: The tick squares in inside cells.
    inside: int
    #: The tick squares in outside cells.
    outside: int
    #: The tick squares in unsettled cells.
    unsettled: int

    def area(self) -> int:
        """The area of the cells that cross the layer, in tick squares.

        >>> Layer(z=-1, inside=1, outside=2, unsettled=3).area()
        6
        """
        return self.inside + self.outside + self.unsettled


def _exactly(count: int, values, what: str) -> tuple:
    """The values, as many as are wanted: the library takes slices of fixed lengths."""
    values = tuple(values)
    if len(values) != count:
        raise ValueError(f"{what}: {count} are wanted, and {len(values)} are given")
    return values


@dataclass(frozen=True)
class Description:
    """A graded core in whole ticks (1/1024 mm) and level counts (1/1024). Any whole number may stand in any entry: the
    calls refuse what is outside document 01's limits, in unused entries too.

    Its text is the entries in document 01's order, with single spaces between.

    >>> core = Description.constant(10240, 2048)
    >>> str(replace(core, kind=1))
    '10240 1 0 0 0 0 0 0 0 2048 0 1 0 0 0 0 0 0'
    """

    #: The period in ticks.
    period: int
    #: 0 network, 1 sheet, 2 primitive: `Surface`.
    kind: int = Surface.NETWORK
    #: 0 constant, 1 linear, 2 distance.
    level_kind: int = 0
    #: The anchor where a linear level is `start`, in ticks.
    from_: Ticks = (0, 0, 0)
    #: The anchor where a linear level is `end`, in ticks.
    to: Ticks = (0, 0, 0)
    #: The level at `from_`, or the constant level, in level counts.
    start: int = 0
    #: The level at `to`, in level counts.
    end: int = 0
    #: The frame's rotation: w, x, y, z. The part frame has w above 0 and the others 0.
    rotation: Tuple[int, int, int, int] = (1, 0, 0, 0)
    #: The frame's translation. The part frame has none.
    translation: Ticks = (0, 0, 0)

    def __post_init__(self):
        for name, count in (("from_", 3), ("to", 3), ("rotation", 4), ("translation", 3)):
            object.__setattr__(self, name, _exactly(count, getattr(self, name), f"numbers of {name}"))

    @classmethod
    def constant(cls, period: int, level: int) -> "Description":
        """A network in the part frame with a constant level.

        >>> saturated(Description.constant(10240, 2048))
        True
        """
        return cls(period, start=level)

    @classmethod
    def linear(cls, period: int, from_: Ticks, to: Ticks, start: int, end: int) -> "Description":
        """A network in the part frame whose level goes from `start` at `from_` to `end` at `to`, and is held beyond.

        >>> graded(Description.linear(10240, (0, 0, 0), (10240, 0, 0), -256, 256))
        True
        """
        return cls(period, level_kind=1, from_=from_, to=to, start=start, end=end)

    def with_surface(self, surface: Surface) -> "Description":
        """The same with another surface.

        >>> network = Description.constant(10240, 2048)
        >>> saturated(network), saturated(network.with_surface(Surface.PRIMITIVE))
        (True, None)
        """
        return replace(self, kind=surface)

    def surface(self) -> Optional[Surface]:
        """The surface; None where the kind is that of a sheet, or no kind.

        >>> core = Description.constant(10240, 2048)
        >>> core.surface(), replace(core, kind=1).surface()
        (<Surface.NETWORK: 0>, None)
        """
        return next((surface for surface in Surface if surface == self.kind), None)

    def entries(self) -> Tuple[int, ...]:
        """The entries in document 01's order.

        >>> Description.constant(10240, 2048).entries()
        (10240, 0, 0, 0, 0, 0, 0, 0, 0, 2048, 0, 1, 0, 0, 0, 0, 0, 0)
        """
        level = (self.level_kind, *self.from_, *self.to, self.start, self.end)
        entries = (self.period, self.kind, *level, *self.rotation, *self.translation)
        return tuple(int(operator.index(entry)) for entry in entries)

    @classmethod
    def from_entries(cls, entries: Sequence[int]) -> "Description":
        """The description with these entries, in document 01's order.

        >>> core = Description.linear(10240, (1, 2, 3), (4, 5, 6), 7, 8)
        >>> Description.from_entries(core.entries()) == core
        True
        """
        e = _exactly(18, entries, "entries of a description")
        return cls(e[0], e[1], e[2], e[3:6], e[6:9], e[9], e[10], e[11:15], e[15:18])

    def __str__(self) -> str:
        return " ".join(map(str, self.entries()))


# The shared library.

_SLICE = [ctypes.c_void_p, ctypes.c_size_t]
# A description and `out`, with what stands between them. The layer report takes the bytes of a table as they are.
_TAKEN = {
    **dict.fromkeys(("curvature", "lipschitz", "saturated", "graded", "planes"), _SLICE * 2),
    **dict.fromkeys(("grade_range", "level_piece", "jet", "affine_jet", "residual", "affine_residual"), _SLICE * 3),
    **dict.fromkeys(("box_state", "facet_residual", "fast_distance", "fast"), _SLICE * 3),
    "derivatives": _SLICE * 2 + [ctypes.c_uint32] + _SLICE,
    "walk": _SLICE * 2 + [ctypes.c_int64, ctypes.c_uint32] + _SLICE,
    "layers": [ctypes.c_char_p, ctypes.c_size_t, ctypes.c_int64, ctypes.c_int64] + _SLICE,
}
_REMEDY = "bindings/install PREFIX installs it in PREFIX/lib; GYROID_LIBRARY names one that is elsewhere"


def _path() -> str:
    """Where the library is: what GYROID_LIBRARY names, or beside PREFIX/share/gyroid/python, or the system's."""
    named = os.environ.get("GYROID_LIBRARY")
    if named:
        return os.path.abspath(named)
    for prefix in list(Path(__file__).resolve().parents)[3:4]:
        installed = prefix / "lib" / "libgyroid.so.0"
        if installed.exists():
            return str(installed)
    found = ctypes.util.find_library("gyroid")
    if found is None:
        raise OSError(f"libgyroid.so is not found: {_REMEDY}")
    return found


def _known_machine() -> None:
    """The library and the float state are known of one machine alone."""
    if sys.platform != "linux" or platform.machine() != "x86_64" or sys.maxsize < 2**32:
        raise OSError(f"libgyroid.so is for 64-bit Linux on x86-64, and this is {sys.platform} on {platform.machine()}")


@functools.lru_cache(maxsize=None)
def _library() -> ctypes.CDLL:
    _known_machine()
    path = _path()
    try:
        library = ctypes.CDLL(path)
        for name, taken in _TAKEN.items():
            call = getattr(library, "gyroid_" + name)
            call.argtypes = taken
            call.restype = ctypes.c_uint32
    except (OSError, AttributeError) as error:
        raise OSError(f"{path} cannot be used as libgyroid.so ({error}): {_REMEDY}") from error
    return library


# The float state.


class _Environment(ctypes.Structure):
    """What fegetenv keeps of a thread on x86-64: the old unit's environment, and MXCSR."""

    _fields_ = [("x87", ctypes.c_uint8 * 28), ("mxcsr", ctypes.c_uint32)]


# MXCSR as a processor starts: round to nearest, denormals kept, every exception masked and none flagged.
_DEFAULT_MXCSR = 0x1F80
# Its flags of past exceptions, on which no result depends.
_FLAGS = 0x3F


@functools.lru_cache(maxsize=None)
def _c_library() -> ctypes.PyDLL:
    """The C library's part that reads and sets the float state. These calls are too short to give up the lock for."""
    library = ctypes.PyDLL("libm.so.6")
    for call in (library.fegetenv, library.fesetenv):
        call.argtypes = [ctypes.POINTER(_Environment)]
    return library


@contextmanager
def _default_float_state() -> Iterator[None]:
    """For its time the thread is in the default state; then it is in its own again, flags and all."""
    library = _c_library()
    found = _Environment()
    library.fegetenv(found)
    try:
        if found.mxcsr & ~_FLAGS != _DEFAULT_MXCSR:
            library.fesetenv(_Environment(found.x87, _DEFAULT_MXCSR))
        yield
    finally:
        library.fesetenv(found)


# Lending: Python's numbers as the library takes them, and its status.


def _whole(number: int) -> int:
    """A number in 64 bits. One beyond them is outside every limit of the documents, as the last one within them is."""
    number = operator.index(number)
    if -(2**63) <= number < 2**63:
        return number
    return 2**63 - 1 if number > 0 else -(2**63)


def _kind(number: int) -> int:
    """A piece or a tie rule in 32 bits: what does not fit them is none, as the last one that does."""
    number = operator.index(number)
    return number if 0 <= number < 2**32 else 2**32 - 1


def _lend_whole(numbers):
    return (ctypes.c_int64 * len(numbers))(*map(_whole, numbers))


def _lend_doubles(numbers):
    return (ctypes.c_double * len(numbers))(*map(float, numbers))


def _lend_bounds(bounds: Bounds):
    low, high = _exactly(2, bounds, "corners of a box")
    return _lend_whole(_exactly(3, low, "lows of a box") + _exactly(3, high, "highs of a box"))


def _ends(world: World) -> tuple:
    x, y, z = (_exactly(2, interval, "ends of an interval") for interval in _exactly(3, world, "intervals of a box"))
    return x + y + z


def _found(status: int) -> bool:
    """Whether a call found its values."""
    if status in _TEXTS:
        raise Refused(status)
    if status not in (0, 100):
        raise RuntimeError(f"status {status}, which no call answers to slices of the right lengths")
    return status == 0


def _ask(name: str, description: Description, lent, out, kind=()):
    """The values that a call leaves in `out`, or None where it finds nothing. `lent` has one slice, or none; `kind` has
    the number that one call takes besides."""
    call = getattr(_library(), "gyroid_" + name)
    entries = _lend_whole(description.entries())
    words = [word for array in (entries, *lent) for word in (array, len(array))]
    with _default_float_state():
        status = call(*words, *kind, out, len(out))
    return list(out) if _found(status) else None


def _doubles(count: int):
    return (ctypes.c_double * count)()


def _numbers(count: int):
    return (ctypes.c_int64 * count)()


def _intervals(row: List[float]) -> Tuple[Interval, ...]:
    """The intervals of a row of ends."""
    return tuple(map(Interval, row[::2], row[1::2]))


# The calls, named as document 01 names them, and document 02's layer report.


def grade_range(description: Description, bounds: Bounds) -> Range:
    """The exact range of the level over a box of whole ticks. It reads the description's level alone.

    Over the first half of this ramp the level goes from −256 to 0 counts:

    >>> ramp = Description.linear(10240, (0, 0, 0), (10240, 0, 0), -256, 256)
    >>> low, high, denominator = grade_range(ramp, Bounds((0, 0, 0), (5120, 0, 0)))
    >>> low / denominator, high / denominator
    (-256.0, 0.0)
    """
    return Range(*_ask("grade_range", description, [_lend_bounds(bounds)], _numbers(3)))


def level_piece(description: Description, bounds: Bounds) -> Optional[Piece]:
    """The piece of the level that holds over a box of whole ticks, or None across an anchor plane.

    >>> ramp = Description.linear(10240, (0, 0, 0), (10240, 0, 0), -256, 256)
    >>> [level_piece(ramp, Bounds((low, 0, 0), (high, 0, 0))) for low, high in ((0, 10240), (-5, 0), (-1, 1))]
    [<Piece.RAMP: 1>, <Piece.START: 0>, None]
    """
    found = _ask("level_piece", description, [_lend_bounds(bounds)], _numbers(1))
    return found and Piece(found[0])


def jet(description: Description, world: World) -> Optional[Jet]:
    """g and its gradient over a box small enough to be a rounded point, or None where it is too wide for the reduction.

    >>> core = Description.constant(10240, 0)
    >>> origin = jet(core, [Interval.point(0.0)] * 3)
    >>> origin.value.lo <= 0.0 <= origin.value.hi, 0.62 < origin.gradient[0].lo
    (True, True)
    >>> jet(core, [Interval(0.0, 10.0)] * 3) is None
    True
    """
    return _jet("jet", description, world)


def affine_jet(description: Description, world: World) -> Optional[Jet]:
    """As `jet`, less the level's affine extension and its gradient.

    At the level 1 over all space, g less the level is −1 at the origin:

    >>> origin = affine_jet(Description.constant(10240, 1024), [Interval.point(0.0)] * 3)
    >>> origin.value.lo <= -1.0 <= origin.value.hi
    True
    """
    return _jet("affine_jet", description, world)


def _jet(name, description, world):
    found = _ask(name, description, [_lend_doubles(_ends(world))], _doubles(8))
    if found is None:
        return None
    value, *gradient = _intervals(found)
    return Jet(value, tuple(gradient))


def derivatives(description: Description, world: World, piece: Piece) -> Optional[Derivatives]:
    """The gradient of g less the level and the Hessian of g over a box on which the level is the given piece. None
    beyond the reduction.

    >>> origin = derivatives(Description.constant(10240, 0), [Interval.point(0.0)] * 3, Piece.START)
    >>> 0.62 < origin.gradient[0].lo <= origin.gradient[0].hi < 0.63
    True

    10^12 mm are 2^40 periods of one tick or more:

    >>> derivatives(Description.constant(1, 0), [Interval.point(1e12)] * 3, Piece.START) is None
    True
    """
    found = _ask("derivatives", description, [_lend_doubles(_ends(world))], _doubles(24), [_kind(piece)])
    if found is None:
        return None
    rows = _intervals(found)
    return Derivatives(rows[:3], (rows[3:6], rows[6:9], rows[9:12]))


def residual(description: Description, world: World) -> Optional[Interval]:
    """An enclosure of g less the level over a box, or None over an infinite end and beyond the reduction.

    >>> core = Description.constant(10240, 2048)
    >>> residual(core, [Interval(0.0, 0.5)] * 3).hi < 0.0
    True
    >>> residual(core, [Interval(0.0, float("inf"))] * 3) is None
    True
    """
    return _interval("residual", description, [_lend_doubles(_ends(world))])


def affine_residual(description: Description, world: World) -> Optional[Interval]:
    """As `residual`, with the level's affine extension in the level's place.

    A constant level is its own affine extension:

    >>> core, world = Description.constant(10240, 2048), [Interval(0.0, 0.5)] * 3
    >>> affine_residual(core, world) == residual(core, world)
    True
    """
    return _interval("affine_residual", description, [_lend_doubles(_ends(world))])


def _interval(name, description, lent=()):
    found = _ask(name, description, lent, _doubles(2))
    return found and Interval(*found)


def box_state(description: Description, world: World) -> State:
    """The mark of a box.

    >>> core = Description.constant(10240, 2048)
    >>> box_state(core, [Interval(0.0, 0.5)] * 3), box_state(core, [Interval(0.0, 10.0)] * 3)
    (<State.INSIDE: 1>, <State.UNSETTLED: 3>)
    """
    return State(*_ask("box_state", description, [_lend_doubles(_ends(world))], _numbers(1)))


def facet_residual(description: Description, corners: Sequence[World]) -> Optional[Interval]:
    """g less the level's affine extension over a triangle. It promises no enclosure: its widening is rounded to
    nearest. None beyond the reduction.

    >>> corner = lambda x, y, z: [Interval.point(v) for v in (x, y, z)]
    >>> triangle = corner(0.0, 0.0, 0.0), corner(0.5, 0.0, 0.0), corner(0.0, 0.5, 0.0)
    >>> facet_residual(Description.constant(10240, 2048), triangle).hi < 0.0
    True
    >>> facet_residual(Description.constant(1, 0), [corner(1e12, 0.0, 0.0)] * 3) is None
    True
    """
    a, b, c = map(_ends, _exactly(3, corners, "corners of a triangle"))
    return _interval("facet_residual", description, [_lend_doubles(a + b + c)])


def curvature(description: Description) -> Interval:
    """An upper bound of the norm of g's Hessian, per square millimetre. It does not depend on the level.

    >>> bound = curvature(Description.constant(10240, 0))
    >>> bound.lo > 0.0, bound == curvature(Description.constant(10240, 2048))
    (True, True)
    """
    return _interval("curvature", description)


def lipschitz(description: Description) -> Interval:
    """An upper bound of the size of the gradient of g less the level, per millimetre. A ramp adds its slope.

    >>> ramp = Description.linear(10240, (0, 0, 0), (10240, 0, 0), -256, 256)
    >>> lipschitz(Description.constant(10240, 0)).hi < lipschitz(ramp).lo
    True
    """
    return _interval("lipschitz", description)


def saturated(description: Description) -> Optional[bool]:
    """True where a constant level is so high that every point is solid, from 3/2 on for the network and from 3 on for
    the primitive surface; False where it is so low that none is inside, up to −3/2 and up to −3.

    >>> [saturated(Description.constant(10240, level)) for level in (1536, 1535, -1536)]
    [True, None, False]
    """
    found = _ask("saturated", description, [], _numbers(1))
    return found and found[0] == 1


def graded(description: Description) -> bool:
    """Whether the level is a ramp. Equal ends are a constant level.

    >>> [graded(Description.linear(10240, (0, 0, 0), (10240, 0, 0), 0, end)) for end in (256, 0)]
    [True, False]
    """
    return _ask("graded", description, [], _numbers(1))[0] == 1


def planes(description: Description) -> Optional[Planes]:
    """The anchor planes of a ramp; a constant level has none.

    >>> planes(Description.linear(10240, (0, 7, 0), (0, 10247, 0), -256, 256))
    Planes(axis=1, from_=7, to=10247)
    >>> planes(Description.constant(10240, 0)) is None
    True
    """
    found = _ask("planes", description, [], _numbers(3))
    return found and Planes(*found)


def fast_distance(description: Description, point: Sequence[float]) -> float:
    """g less the level over the Lipschitz bound at a point in millimetres, in doubles: tentative, no enclosure.

    Half a millimetre from the origin along x, g is above 0:

    >>> 0.0 < fast_distance(Description.constant(10240, 0), (0.5, 0.0, 0.0)) < 0.5
    True
    """
    return _at_point("fast_distance", description, point)


def fast(description: Description, point: Sequence[float]) -> float:
    """The level at a point in millimetres, in doubles: tentative, no enclosure.

    Three quarters up a ramp from −1/4 to 1/4 over 10 mm:

    >>> fast(Description.linear(10240, (0, 0, 0), (10240, 0, 0), -256, 256), (7.5, 0.0, 0.0))
    0.125
    """
    return _at_point("fast", description, point)


def _at_point(name, description, point):
    lent = _lend_doubles(_exactly(3, point, "coordinates of a point"))
    return _ask(name, description, [lent], _doubles(1))[0]


# A table that grows has so many slots first, and four times as many after each refusal by 13.
_FIRST_SLOTS = 4096


def walk(
    description: Description,
    bounds: Bounds,
    depth: int,
    rule: TieRule = TieRule.GRADE_AXIS,
    slots: Optional[int] = None,
) -> "Table":
    """Marks a box of whole ticks cell by cell, halving what is unsettled `depth` times at most (0 to 24), and answers
    the table of its cells.

    A box is halved across its longest side. Where longest sides tie, `rule` says which of them it is: by default the
    grade axis, where the core has one and it is among them, and otherwise the lowest.

    A table of `slots` slots has room for one cell less, and the walk is refused by 13 where that is too few; slots
    without a cell are zero. Without `slots` the table grows until the cells fit, and has no slot to spare.

    A network of period 10 mm at the level 2; a millimetre cube, halved once at most:

    >>> core = Description.constant(10240, 2048)
    >>> table = walk(core, Bounds((0, 0, 0), (1024, 1024, 1024)), 1)
    >>> table.head().solid
    536870912
    >>> [str(cell.state) for cell in table]
    ['inside', 'unsettled']
    """
    depth = _whole(depth)
    if slots is not None:
        return Table._filled(bytes(_walked(description, bounds, depth, rule, slots)))
    # 2^depth cells are the most. A depth that is none is refused, whatever the table.
    most = 2 ** max(0, min(depth, _GREATEST_DEPTH)) + 1
    slots = min(_FIRST_SLOTS, most)
    while True:
        try:
            data = _walked(description, bounds, depth, rule, slots)
        except Refused as refused:
            if refused.number != 13 or slots == most:
                raise
            slots = min(4 * slots, most)
        else:
            cells = _HEAD.unpack_from(data)[1]
            return Table._filled(bytes(data[: SLOT * (cells + 1)]))


def _walked(description, bounds, depth, rule, slots) -> memoryview:
    """The bytes that a walk leaves in a table of so many slots."""
    call = _library().gyroid_walk
    entries, corners = _lend_whole(description.entries()), _lend_bounds(bounds)
    table = (ctypes.c_uint8 * (SLOT * slots))()
    with _default_float_state():
        status = call(entries, len(entries), corners, len(corners), depth, _kind(rule), table, len(table))
    _found(status)
    return memoryview(table)


def layers(table, low: int, high: int) -> List[Layer]:
    """The areas of a table's cells in each tick layer from `low` to `high` − 1. Layer z lies between z and z + 1.

    The table may be any bytes; of a `Table` the same is asked by `Table.layers`. Bytes that are no sound table are
    refused by 15, and then a layer run that is empty or leaves −2^20 to 2^20 by 16. docs/TABLE.md says what is sound.
    Where cells overlap, each counts in full.

    The highest layer of a cube, half of which is inside, and the one above it:

    >>> table = walk(Description.constant(10240, 2048), Bounds((0, 0, 0), (1024, 1024, 1024)), 1)
    >>> [layer.inside for layer in layers(bytes(table), 1023, 1025)]
    [524288, 0]
    >>> layers(bytes(table)[:64], 1023, 1025)
    Traceback (most recent call last):
    ...
    gyroid.Refused: refused 15: the table is not sound
    """
    data = bytes(table)
    # A run that is refused gets no report.
    run = high - low if -_LIMIT <= low < high <= _LIMIT else 0
    report = (ctypes.c_uint8 * (LAYER * run))()
    _found(_library().gyroid_layers(data, len(data), _whole(low), _whole(high), report, len(report)))
    return [Layer(low + place, *areas) for place, areas in enumerate(struct.iter_unpack("<QQQ", report))]


# The table.

_HEAD = struct.Struct("<IIIQQ")
_RECORD = struct.Struct("<IBBxx6i")
_STATES = {int(state): state for state in State}


class Table:
    """A walk's table. `walk` answers one; of bytes that were kept `Table(data)` makes one, and raises a ValueError
    where their chain is broken. It iterates over its cells, and `bytes(table)` is what to keep.

    >>> table = walk(Description.constant(10240, 2048), Bounds((0, 0, 0), (1024, 1024, 1024)), 1)
    >>> again = Table(bytes(table))
    >>> sum(cell.bounds.volume() for cell in again if cell.state == State.INSIDE) == again.head().solid
    True
    >>> len(again), again
    (2, Table of 2 cells in 3 slots)
    >>> Table(bytes(table)[:64])
    Traceback (most recent call last):
    ...
    ValueError: no table: 2 cells and the head want 3 slots, and 64 bytes have 2
    """

    __slots__ = ("_data",)

    def __init__(self, data):
        self._data = bytes(data)
        self._check_chain()

    @classmethod
    def _filled(cls, data: bytes) -> "Table":
        """The table that a walk has just filled, which needs no test."""
        table = cls.__new__(cls)
        table._data = data
        return table

    def _check_chain(self) -> None:
        """Whether the chain stays within the slots, names states, and has as many cells as the head says."""
        slots = len(self._data) // SLOT
        if slots == 0:
            raise ValueError(f"no table: the head wants {SLOT} bytes, and there are {len(self._data)}")
        slot, cells = self.head()[:2]
        if cells >= slots:
            have = f"{len(self._data)} bytes have {slots}"
            raise ValueError(f"no table: {cells} cells and the head want {cells + 1} slots, and {have}")
        for place in range(cells):
            if not 0 < slot < slots:
                raise ValueError(f"no table: slot {slot} is named for cell {place + 1} of {cells}, among {slots} slots")
            following, state = _RECORD.unpack_from(self._data, SLOT * slot)[:2]
            if state not in _STATES:
                raise ValueError(f"no table: slot {slot} has the state {state}, which is none")
            slot = following
        if slot != 0:
            raise ValueError(f"no table: slot {slot} is named behind the last of {cells} cells")

    def head(self) -> Head:
        """What slot 0 says.

        >>> Table(bytes(32)).head()
        Head(first=0, cells=0, evaluated=0, solid=0, open=0)
        """
        return Head(*_HEAD.unpack_from(self._data))

    def layers(self, low: int, high: int) -> List[Layer]:
        """The areas of the cells in each tick layer from `low` to `high` − 1: the call `layers`. The table of a walk is
        sound; one that was kept need not be, and is then refused by 15.

        >>> table = walk(Description.constant(10240, 2048), Bounds((0, 0, 0), (1024, 1024, 1024)), 1)
        >>> sum(layer.inside for layer in table.layers(0, 1024)) == table.head().solid
        True
        """
        return layers(self._data, low, high)

    def __len__(self) -> int:
        return self.head().cells

    def __iter__(self) -> Iterator[Cell]:
        """The cells along the chain."""
        slot = self.head().first
        while slot != 0:
            slot, state, depth, *ends = _RECORD.unpack_from(self._data, SLOT * slot)
            yield Cell(_STATES[state], depth, Bounds(tuple(ends[:3]), tuple(ends[3:])))

    def __bytes__(self) -> bytes:
        return self._data

    def __repr__(self) -> str:
        return f"Table of {len(self)} cells in {len(self._data) // SLOT} slots"
