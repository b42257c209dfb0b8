/* The eighteen calls of libcapi.a, a static library for x86-64 that `.ci/build capi` makes in target/staticlib.
 *
 * Before you call
 *
 * The proofs speak of IEEE 754 as a processor starts: round to nearest, denormals kept, no exception traps. A thread
 * in another float state gets other numbers, and with them other marks. It need not be your own code that sets
 * another state: gcc links code that takes denormals for zero into a program built with -ffast-math, and up to
 * version 12 also into a shared object built so, and to load that is enough. So call in the default state:
 *
 *   uint32_t found = gyroid_float_state_enter();
 *   ... calls ...
 *   gyroid_float_state_leave(found);
 *
 * gyroid_float_state_is_default() says whether there is need. The state is the thread's; a thread starts with that
 * of its maker. gyroid_layers computes with whole numbers alone, and may be called in any state.
 *
 * Lent slices
 *
 * Every slice is a pointer and a number of entries. The caller lends the slices for the time of the call; nothing is
 * kept and nothing is allocated, so calls from several threads do not meet.
 *
 *   length     A pointer must be good for the number of entries beside it: the library cannot test that. With the
 *              number 0 it is not looked at, and may be null. A null pointer with another number is undefined, as
 *              any other bad pointer is.
 *   overlap    What a call writes, `out`, the table of a walk or a layer report, must not overlap another slice of
 *              the call. Slices that are only read may.
 *   alignment  The library needs none: its code reads and writes entries at any address, and is tested at odd ones.
 *              The proofs speak of entries where C has them, int64_t and double at multiples of 8, and C itself asks
 *              for that. A table is bytes, and so is a report.
 *   stack      A walk of depth 24 takes 46,272 bytes of stack, measured with rattle-kit-5b; no heap.
 *
 * Every call answers a status:
 *
 *   GYROID_FOUND   `out` holds the call's values, from its first entry on
 *   1 to 13        a refusal, by document 01's number: GYROID_REFUSED_.. below. 14 never comes from the library: it
 *                  is the program `cells`' own, for a text that is not its line
 *   15 to 17       a refusal of gyroid_layers, by document 02's number
 *   GYROID_NONE    nothing found
 *   GYROID_LENGTH  a lent slice has the wrong length: an argument that is not of its length, or an `out` shorter
 *                  than the call's values. Tested before all else.
 *
 * On any status but GYROID_FOUND nothing is written; on GYROID_FOUND nothing past the call's values. gyroid_walk
 * writes more: see there. Every call takes a description but gyroid_layers, which takes a table and has no `out`.
 *
 * A description is 18 whole numbers, in ticks of 1/1024 mm and level counts of 1/1024:
 *
 *   period, kind (0 network, 1 sheet, 2 primitive), level kind (0 constant, 1 linear, 2 distance),
 *   from x y z, to x y z, start, end, rotation w x y z, translation x y z
 *
 * A description of another length is refused by 1, and so is another kind. A sheet is refused by 3. With X = 2 pi x /
 * period, and likewise Y and Z, g is
 *
 *   GYROID_NETWORK     sin X cos Y + sin Y cos Z + sin Z cos X
 *   GYROID_PRIMITIVE   cos X + cos Y + cos Z
 *
 * and the solid is where g is at most the level.
 *
 * `bounds` is a box of whole ticks, three lows and then three highs. `world` is a box of doubles in millimetres: the
 * low and the high end of x, then of y, then of z. An interval in `out` is its low and its high end.
 */
#ifndef GYROID_H
#define GYROID_H

#if !defined(__x86_64__)
#error "gyroid.h: the static library is for x86-64, and only the float state of x86-64 is known here"
#endif

#include <stddef.h>
#include <stdint.h>

#ifdef __cplusplus
extern "C" {
#endif

/* The version of this header and of the Rust crate beside it. */
#define GYROID_VERSION "0.1.0"
#define GYROID_VERSION_MAJOR 0
#define GYROID_VERSION_MINOR 1
#define GYROID_VERSION_PATCH 0

enum { GYROID_FOUND = 0, GYROID_NONE = 100, GYROID_LENGTH = 101 };

/* The refusals, a name for each of the conditions of documents 01 and 02. Two conditions share the number 2 and three
 * the number 3, and the number does not tell which it was. The first that holds wins, in the documents' order. */
enum {
    GYROID_REFUSED_ENTRY = 1,          /* an entry outside its limits or kinds, a piece or a tie rule that is none */
    GYROID_REFUSED_PERIOD = 2,         /* a period not above 0 */
    GYROID_REFUSED_ANCHORS = 2,        /* a linear level with from = to */
    GYROID_REFUSED_SHEET = 3,          /* a sheet */
    GYROID_REFUSED_DISTANCE = 3,       /* a distance level */
    GYROID_REFUSED_FRAME = 3,          /* a frame that is not the part frame */
    GYROID_REFUSED_DIAGONAL = 4,       /* a ramp whose anchors differ on other than one axis */
    GYROID_REFUSED_RAMP = 5,           /* a ramp with an end outside -256 to 256, or with a slope above 1/10 */
    GYROID_REFUSED_BOUNDS = 6,         /* gyroid_level_piece, gyroid_grade_range: a low above its high */
    GYROID_REFUSED_RANGE_DISTANCE = 7, /* gyroid_grade_range: a distance level */
    GYROID_REFUSED_RANGE_ANCHORS = 8,  /* gyroid_grade_range: a linear level with from = to */
    GYROID_REFUSED_DOUBLE = 9,         /* a NaN, or a low above its high */
    GYROID_REFUSED_FAR = 10,           /* an end or a point beyond 2^40 in size */
    GYROID_REFUSED_SPAN = 11,          /* gyroid_walk: a span below 1 */
    GYROID_REFUSED_DEPTH = 12,         /* gyroid_walk: a depth below 0 or above 24 */
    GYROID_REFUSED_ROOM = 13,          /* gyroid_walk: fewer slots than the cells and one more */
    GYROID_REFUSED_TABLE = 15,         /* gyroid_layers: a table that is not sound */
    GYROID_REFUSED_LAYERS = 16,        /* gyroid_layers: a layer run that is empty or leaves the coordinate limits */
    GYROID_REFUSED_REPORT = 17         /* gyroid_layers: a report buffer of fewer than 24 bytes a layer */
};

enum { GYROID_DESCRIPTION = 18 };
enum { GYROID_NETWORK = 0, GYROID_SHEET = 1, GYROID_PRIMITIVE = 2 };
enum { GYROID_START = 0, GYROID_RAMP = 1, GYROID_END = 2 };
enum { GYROID_TIES_TO_GRADE_AXIS = 0, GYROID_TIES_TO_LOWEST_AXIS = 1 };
enum { GYROID_INSIDE = 1, GYROID_OUTSIDE = 2, GYROID_UNSETTLED = 3 };
enum { GYROID_SLOT = 32 };
enum { GYROID_LAYER = 24 };

/* The float state: MXCSR. As a processor starts it is 0x1F80: round to nearest, denormals kept, every exception
 * masked and none flagged. The flags of past exceptions are its lowest six bits. */
enum { GYROID_FLOAT_STATE_DEFAULT = 0x1F80, GYROID_FLOAT_STATE_FLAGS = 0x3F };

/* The thread's state. */
static inline uint32_t gyroid_float_state(void) {
    uint32_t state;
    __asm__ __volatile__("stmxcsr %0" : "=m"(state) : : "memory");
    return state;
}

/* 1 where a call would compute in the default state, and 0 otherwise. Flags change no result, and do not count. */
static inline int gyroid_float_state_is_default(void) {
    return (gyroid_float_state() & ~(uint32_t)GYROID_FLOAT_STATE_FLAGS) == GYROID_FLOAT_STATE_DEFAULT;
}

/* Makes a state that was found the thread's again, its flags too. A write takes longer than a test. */
static inline void gyroid_float_state_leave(uint32_t found) {
    if (gyroid_float_state() != found) {
        __asm__ __volatile__("ldmxcsr %0" : : "m"(found) : "memory");
    }
}

/* Sets the default state where it is not; the answer is the state that was found, for gyroid_float_state_leave. */
static inline uint32_t gyroid_float_state_enter(void) {
    const uint32_t found = gyroid_float_state();
    if (!gyroid_float_state_is_default()) {
        gyroid_float_state_leave(GYROID_FLOAT_STATE_DEFAULT);
    }
    return found;
}

/* The exact range of the level over `bounds` (6 entries). `out` (3): the numerators of the least and of the greatest
 * level and their denominator, in level counts and not reduced. It reads the level's entries alone, so it refuses by
 * 1, 6, 7 and 8 only. Never none. */
uint32_t gyroid_grade_range(const int64_t *description, size_t description_length, const int64_t *bounds, size_t bounds_length,
                            int64_t *out, size_t out_length);

/* The piece of the level that holds over `bounds` (6 entries). `out` (1): 0 start, 1 ramp, 2 end. None across an
 * anchor plane. */
uint32_t gyroid_level_piece(const int64_t *description, size_t description_length, const int64_t *bounds, size_t bounds_length,
                            int64_t *out, size_t out_length);

/* g and its gradient over a `world` (6 entries) small enough to be a rounded point. `out` (8): four intervals, the
 * value and the gradient's x, y, z. None where the box is too wide for the reduction. */
uint32_t gyroid_jet(const int64_t *description, size_t description_length, const double *world, size_t world_length,
                    double *out, size_t out_length);

/* As gyroid_jet, less the level's affine extension and its gradient. */
uint32_t gyroid_affine_jet(const int64_t *description, size_t description_length, const double *world, size_t world_length,
                           double *out, size_t out_length);

/* The gradient of g less the level and the Hessian of g over a `world` (6 entries) on which the level is `piece` (0
 * start, 1 ramp, 2 end). `out` (24): the gradient's three intervals, then the Hessian's nine, row by row. A piece
 * above 2 is refused by 1. None beyond the reduction: period 1, x = 1e12. */
uint32_t gyroid_derivatives(const int64_t *description, size_t description_length, const double *world, size_t world_length,
                            uint32_t piece, double *out, size_t out_length);

/* g less the level over a `world` (6 entries). `out` (2): an interval. None over an infinite end, and beyond the
 * reduction. */
uint32_t gyroid_residual(const int64_t *description, size_t description_length, const double *world, size_t world_length,
                         double *out, size_t out_length);

/* As gyroid_residual, with the level's affine extension in the level's place. */
uint32_t gyroid_affine_residual(const int64_t *description, size_t description_length, const double *world, size_t world_length,
                                double *out, size_t out_length);

/* The mark of a `world` (6 entries). `out` (1): 1 inside, 2 outside, 3 unsettled. Never none. */
uint32_t gyroid_box_state(const int64_t *description, size_t description_length, const double *world, size_t world_length,
                          int64_t *out, size_t out_length);

/* g less the level's affine extension over a triangle; `corners` has 18 entries, each corner as a `world`. `out`
 * (2): an interval, which promises no enclosure: its widening is rounded to nearest. None beyond the reduction:
 * period 1, x = 1e12. */
uint32_t gyroid_facet_residual(const int64_t *description, size_t description_length, const double *corners, size_t corners_length,
                               double *out, size_t out_length);

/* An upper bound of the Hessian's norm. `out` (2): an interval. Never none. */
uint32_t gyroid_curvature(const int64_t *description, size_t description_length, double *out, size_t out_length);

/* An upper bound of the size of the gradient of g less the level, per millimetre. `out` (2): an interval. Never
 * none. */
uint32_t gyroid_lipschitz(const int64_t *description, size_t description_length, double *out, size_t out_length);

/* `out` (1): 1 where a constant level is so high that every point is solid, from 3/2 on for the network and from 3 on
 * for the primitive surface; 0 where it is so low that none is inside, up to -3/2 and up to -3. Otherwise none. */
uint32_t gyroid_saturated(const int64_t *description, size_t description_length, int64_t *out, size_t out_length);

/* `out` (1): 1 where the level is a ramp, 0 where it is constant. Never none. */
uint32_t gyroid_graded(const int64_t *description, size_t description_length, int64_t *out, size_t out_length);

/* The anchor planes of a ramp. `out` (3): the axis (0, 1, 2), then the positions of `from` and `to` in ticks. None
 * for a constant. */
uint32_t gyroid_planes(const int64_t *description, size_t description_length, int64_t *out, size_t out_length);

/* g less the level over the Lipschitz bound at a `point` (3 entries, millimetres), in doubles: tentative, no
 * enclosure. `out` (1). Never none. */
uint32_t gyroid_fast_distance(const int64_t *description, size_t description_length, const double *point, size_t point_length,
                              double *out, size_t out_length);

/* The level at a `point` (3 entries, millimetres), in doubles: tentative, no enclosure. `out` (1). Never none. */
uint32_t gyroid_fast(const int64_t *description, size_t description_length, const double *point, size_t point_length,
                     double *out, size_t out_length);

/* Marks `bounds` (6 entries) cell by cell: a box that is unsettled is halved across its longest side, `depth` (0 to
 * 24) times at most and down to one tick. Where longest sides tie, `rule` says across which of them:
 *
 *   GYROID_TIES_TO_GRADE_AXIS    the default: the grade axis if it is among them, otherwise the lowest of them. The
 *                                grade axis is the one on which `from` and `to` differ, of a linear level with unequal
 *                                ends; equal ends have none, nor has a constant level. So a core that is graded along z
 *                                is cut across z before x, and not left with tall cells that straddle its ramp
 *   GYROID_TIES_TO_LOWEST_AXIS   the lowest of them, x before y before z, whatever the level: for a preview that relies
 *                                on this cut
 *
 * Any other rule is refused by 1. Only the lengths are tested before it, so it is 1 whatever else is refused.
 *
 * The cells stand in `table`, which is any number of bytes: slots of 32, little endian.
 *
 *   slot 0   0 the first cell's slot (u32), 4 cells (u32), 8 boxes evaluated (u32), 12 the tick cubes of the cells
 *            inside (u64), 20 those of the rest of the box (u64), 28 zeros
 *   a cell   0 the next cell's slot, 0 for the last (u32), 4 its state (a byte: 1 inside, 2 outside, 3 unsettled), 5
 *            its depth (a byte: the halvings that led to it, 0 to 24), 6 two zeros, 8 its three lows (i32), 20 its
 *            three highs (i32)
 *
 * Read the cells along the chain. Those bytes of the table that hold no cell are zero. Besides the description's
 * refusals there are 11, a span below 1, 12, a depth below 0 or above 24, and 13, fewer slots than the cells and one
 * more; 13 leaves every byte of the table zero, any other status but GYROID_FOUND leaves the table as it was. The cells
 * are written as the walk comes to them, and at the first without a slot it stops: 13 comes after as many cells as the
 * table has slots, however many there are. GYROID_LENGTH speaks of `bounds` alone. Never none. */
uint32_t gyroid_walk(const int64_t *description, size_t description_length, const int64_t *bounds, size_t bounds_length,
                     int64_t depth, uint32_t rule, uint8_t *table, size_t table_length);

/* The areas of the cells of a `table` in each tick layer from `low` to `high` - 1. Layer z lies between z and z + 1; a
 * cell crosses the layers from its low in z to one before its high, each with all of its x span by its y span. The
 * report has 24 bytes a layer, in the layers' order: the tick squares in inside, in outside and in unsettled cells (u64
 * each, little endian). What lies behind them in `report` is as it was. The three add up to the area of the cells that
 * cross the layer; cells that overlap each count in full.
 *
 * It takes no description, and any bytes for a table, which is only read. A table is sound where it records one cell at
 * least, its chain from slot 0 visits exactly the slots 1 to the recorded number of cells, each once and inside the
 * bytes, the last with next 0, and the cells have states 1 to 3, depths up to 24, boxes within -2^20 to 2^20 with spans
 * of 1 or more, and volumes that add up to 2^63 at most. Nothing else of it is tested. A walk that was not refused
 * leaves a sound table.
 *
 * Refusals, tested in this order: 15, the table is not sound; 16, the layer run is empty (`high` not above `low`) or
 * leaves the coordinate limits (`low` below -2^20, `high` above 2^20); 17, the report buffer holds fewer than 24 bytes
 * a layer. The report is then as it was. Never none, never GYROID_LENGTH. Table and report must not overlap. */
uint32_t gyroid_layers(const uint8_t *table, size_t table_length, int64_t low, int64_t high, uint8_t *report,
                       size_t report_length);

#ifdef __cplusplus
}
#endif

#endif
