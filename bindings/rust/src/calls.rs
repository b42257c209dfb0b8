//! The public calls, named as document 01 names them, and document 02's layer report.

use crate::lend::{self, always, on_description, on_slice};
use crate::raw;
use crate::{
    Bounds, Derivatives, Description, Interval, Jet, LAYER, Layers, Piece, Planes, Range, Refusal, State, Table,
    TieRule,
};

/// A box, or a point in intervals: x, y, z.
type World = [Interval; 3];

fn ends(world: World) -> [f64; 6] {
    let [x, y, z] = world;
    [x.lo, x.hi, y.lo, y.hi, z.lo, z.hi]
}

fn corners_of(bounds: Bounds) -> [i64; 6] {
    let [lx, ly, lz] = bounds.low;
    let [hx, hy, hz] = bounds.high;
    [lx, ly, lz, hx, hy, hz]
}

/// The interval at a place in a row of intervals.
fn interval(row: &[f64], place: usize) -> Interval {
    Interval::new(row[2 * place], row[2 * place + 1])
}

fn triple(row: &[f64], first: usize) -> [Interval; 3] {
    [0, 1, 2].map(|i| interval(row, first + i))
}

fn truth(number: i64) -> bool {
    match number {
        0 => false,
        1 => true,
        other => panic!("truth {other}, which the library never answers"),
    }
}

/// What a number of the library stands for.
fn named<T: TryFrom<u32>>(number: i64) -> T {
    let named = u32::try_from(number).ok().and_then(|number| T::try_from(number).ok());
    named.unwrap_or_else(|| panic!("{number}, which the library never answers"))
}

fn jet_of(row: [f64; 8]) -> Jet {
    Jet { value: interval(&row, 0), gradient: triple(&row, 1) }
}

/// The exact range of the level over a box of whole ticks. It reads the description's level alone.
///
/// ```
/// use gyroid_cells::{Bounds, Description, Range, grade_range};
///
/// // Over the first half of the ramp the level goes from −256 to 0 counts.
/// let ramp = Description::linear(10240, [0; 3], [10240, 0, 0], -256, 256);
/// let half = Bounds { low: [0; 3], high: [5120, 0, 0] };
/// let range = grade_range(&ramp, half)?;
/// assert_eq!(range, Range { low: -256 * 104857600, high: 0, denominator: 104857600 });
/// # Ok::<(), gyroid_cells::Refusal>(())
/// ```
pub fn grade_range(description: &Description, bounds: Bounds) -> Result<Range, Refusal> {
    let found = on_slice(raw::gyroid_grade_range, description, &corners_of(bounds));
    let [low, high, denominator] = always(found)?;
    Ok(Range { low, high, denominator })
}

/// The piece of the level that holds over a box of whole ticks, or `None` across an anchor plane.
///
/// ```
/// use gyroid_cells::{Bounds, Description, Piece, level_piece};
///
/// let ramp = Description::linear(10240, [0; 3], [10240, 0, 0], -256, 256);
/// let along = |low, high| level_piece(&ramp, Bounds { low: [low, 0, 0], high: [high, 0, 0] });
/// assert_eq!(along(0, 10240), Ok(Some(Piece::Ramp)));
/// assert_eq!(along(-5, 0), Ok(Some(Piece::Start)));
/// assert_eq!(along(-1, 1), Ok(None));
/// ```
pub fn level_piece(description: &Description, bounds: Bounds) -> Result<Option<Piece>, Refusal> {
    let found = on_slice(raw::gyroid_level_piece, description, &corners_of(bounds))?;
    Ok(found.map(|[piece]| named(piece)))
}

/// g and its gradient over a box small enough to be a rounded point, or `None` where it is too wide for the reduction.
///
/// ```
/// use gyroid_cells::{Description, Interval, jet};
///
/// let core = Description::constant(10240, 0);
/// let origin = jet(&core, [Interval::point(0.0); 3])?.expect("a point is small enough");
/// assert!(origin.value.lo <= 0.0 && 0.0 <= origin.value.hi);
/// assert!(origin.gradient[0].lo > 0.62 && origin.gradient[0].hi < 0.63);
/// assert_eq!(jet(&core, [Interval::new(0.0, 10.0); 3]), Ok(None));
/// # Ok::<(), gyroid_cells::Refusal>(())
/// ```
pub fn jet(description: &Description, world: World) -> Result<Option<Jet>, Refusal> {
    Ok(on_slice(raw::gyroid_jet, description, &ends(world))?.map(jet_of))
}

/// As [`jet`], less the level's affine extension and its gradient.
///
/// ```
/// use gyroid_cells::{Description, Interval, affine_jet};
///
/// // The level 1 over all space: g less the level is −1 at the origin.
/// let core = Description::constant(10240, 1024);
/// let origin = affine_jet(&core, [Interval::point(0.0); 3])?.expect("a point is small enough");
/// assert!(origin.value.lo <= -1.0 && -1.0 <= origin.value.hi);
/// # Ok::<(), gyroid_cells::Refusal>(())
/// ```
pub fn affine_jet(description: &Description, world: World) -> Result<Option<Jet>, Refusal> {
    Ok(on_slice(raw::gyroid_affine_jet, description, &ends(world))?.map(jet_of))
}

/// The gradient of g less the level and the Hessian of g over a box on which the level is the given piece.
/// `None` beyond the reduction.
///
/// ```
/// use gyroid_cells::{Description, Interval, Piece, derivatives};
///
/// let core = Description::constant(10240, 0);
/// let origin = derivatives(&core, [Interval::point(0.0); 3], Piece::Start)?.expect("within reach");
/// assert!(origin.gradient[0].lo > 0.62 && origin.gradient[0].hi < 0.63);
/// assert!(origin.hessian[0][0].lo <= 0.0 && 0.0 <= origin.hessian[0][0].hi);
///
/// // 10^12 mm are 2^40 periods of one tick or more.
/// let finest = Description::constant(1, 0);
/// assert_eq!(derivatives(&finest, [Interval::point(1e12); 3], Piece::Start), Ok(None));
/// # Ok::<(), gyroid_cells::Refusal>(())
/// ```
pub fn derivatives(description: &Description, world: World, piece: Piece) -> Result<Option<Derivatives>, Refusal> {
    let found = lend::derivatives(description, &ends(world), piece as u32)?;
    Ok(found.map(|row| Derivatives {
        gradient: triple(&row, 0),
        hessian: [triple(&row, 3), triple(&row, 6), triple(&row, 9)],
    }))
}

/// An enclosure of g less the level over a box, or `None` over an infinite end and beyond the reduction.
///
/// ```
/// use gyroid_cells::{Description, Interval, residual};
///
/// let core = Description::constant(10240, 2048);
/// let enclosure = residual(&core, [Interval::new(0.0, 0.5); 3])?.expect("within reach");
/// assert!(enclosure.hi < 0.0);
/// assert_eq!(residual(&core, [Interval::new(0.0, f64::INFINITY); 3]), Ok(None));
/// # Ok::<(), gyroid_cells::Refusal>(())
/// ```
pub fn residual(description: &Description, world: World) -> Result<Option<Interval>, Refusal> {
    let found = on_slice::<_, _, 2>(raw::gyroid_residual, description, &ends(world))?;
    Ok(found.map(|row| interval(&row, 0)))
}

/// As [`residual`], with the level's affine extension in the level's place.
///
/// ```
/// use gyroid_cells::{Description, Interval, affine_residual, residual};
///
/// // A constant level is its own affine extension.
/// let core = Description::constant(10240, 2048);
/// let world = [Interval::new(0.0, 0.5); 3];
/// assert_eq!(affine_residual(&core, world), residual(&core, world));
/// ```
pub fn affine_residual(description: &Description, world: World) -> Result<Option<Interval>, Refusal> {
    let found = on_slice::<_, _, 2>(raw::gyroid_affine_residual, description, &ends(world))?;
    Ok(found.map(|row| interval(&row, 0)))
}

/// The mark of a box.
///
/// ```
/// use gyroid_cells::{Description, Interval, State, box_state};
///
/// let core = Description::constant(10240, 2048);
/// assert_eq!(box_state(&core, [Interval::new(0.0, 0.5); 3]), Ok(State::Inside));
/// assert_eq!(box_state(&core, [Interval::new(0.0, 10.0); 3]), Ok(State::Unsettled));
/// ```
pub fn box_state(description: &Description, world: World) -> Result<State, Refusal> {
    let [state] = always(on_slice(raw::gyroid_box_state, description, &ends(world)))?;
    Ok(named(state))
}

/// g less the level's affine extension over a triangle. It promises no enclosure: its widening is rounded to nearest.
/// `None` beyond the reduction.
///
/// ```
/// use gyroid_cells::{Description, Interval, facet_residual};
///
/// let corner = |x, y, z| [x, y, z].map(Interval::point);
/// let triangle = [corner(0.0, 0.0, 0.0), corner(0.5, 0.0, 0.0), corner(0.0, 0.5, 0.0)];
/// let core = Description::constant(10240, 2048);
/// assert!(facet_residual(&core, triangle)?.is_some_and(|residual| residual.hi < 0.0));
///
/// // 10^12 mm are 2^40 periods of one tick or more.
/// let finest = Description::constant(1, 0);
/// assert_eq!(facet_residual(&finest, [corner(1e12, 0.0, 0.0); 3]), Ok(None));
/// # Ok::<(), gyroid_cells::Refusal>(())
/// ```
pub fn facet_residual(description: &Description, corners: [World; 3]) -> Result<Option<Interval>, Refusal> {
    let rows = corners.map(ends);
    let found = on_slice::<_, _, 2>(raw::gyroid_facet_residual, description, rows.as_flattened())?;
    Ok(found.map(|row| interval(&row, 0)))
}

/// An upper bound of the norm of g's Hessian.
///
/// ```
/// use gyroid_cells::{Description, curvature};
///
/// // Per square millimetre; it does not depend on the level.
/// let bound = curvature(&Description::constant(10240, 0))?;
/// assert!(bound.lo > 0.0);
/// assert_eq!(curvature(&Description::constant(10240, 2048)), Ok(bound));
/// # Ok::<(), gyroid_cells::Refusal>(())
/// ```
pub fn curvature(description: &Description) -> Result<Interval, Refusal> {
    let row: [f64; 2] = always(on_description(raw::gyroid_curvature, description))?;
    Ok(interval(&row, 0))
}

/// An upper bound of the size of the gradient of g less the level, per millimetre.
///
/// ```
/// use gyroid_cells::{Description, lipschitz};
///
/// // A ramp adds its slope.
/// let constant = lipschitz(&Description::constant(10240, 0))?;
/// let ramp = lipschitz(&Description::linear(10240, [0; 3], [10240, 0, 0], -256, 256))?;
/// assert!(constant.hi < ramp.lo);
/// # Ok::<(), gyroid_cells::Refusal>(())
/// ```
pub fn lipschitz(description: &Description) -> Result<Interval, Refusal> {
    let row: [f64; 2] = always(on_description(raw::gyroid_lipschitz, description))?;
    Ok(interval(&row, 0))
}

/// `true` where a constant level is so high that every point is solid, from 3/2 on for the network and from 3 on for the
/// primitive surface; `false` where it is so low that none is inside, up to −3/2 and up to −3.
///
/// ```
/// use gyroid_cells::{Description, Surface, saturated};
///
/// let network = |level| saturated(&Description::constant(10240, level));
/// assert_eq!([1536, 1535, -1536].map(network), [Ok(Some(true)), Ok(None), Ok(Some(false))]);
/// let primitive = |level| saturated(&Description::constant(10240, level).with_surface(Surface::Primitive));
/// assert_eq!([3072, 3071, -3072].map(primitive), [Ok(Some(true)), Ok(None), Ok(Some(false))]);
/// ```
pub fn saturated(description: &Description) -> Result<Option<bool>, Refusal> {
    let found = on_description(raw::gyroid_saturated, description)?;
    Ok(found.map(|[number]| truth(number)))
}

/// Whether the level is a ramp.
///
/// ```
/// use gyroid_cells::{Description, graded};
///
/// // Equal ends are a constant level.
/// let level = |end| graded(&Description::linear(10240, [0; 3], [10240, 0, 0], 0, end));
/// assert_eq!((level(256), level(0)), (Ok(true), Ok(false)));
/// ```
pub fn graded(description: &Description) -> Result<bool, Refusal> {
    let [number] = always(on_description(raw::gyroid_graded, description))?;
    Ok(truth(number))
}

/// The anchor planes of a ramp; a constant level has none.
///
/// ```
/// use gyroid_cells::{Description, Planes, planes};
///
/// let ramp = Description::linear(10240, [0, 7, 0], [0, 10247, 0], -256, 256);
/// assert_eq!(planes(&ramp), Ok(Some(Planes { axis: 1, from: 7, to: 10247 })));
/// assert_eq!(planes(&Description::constant(10240, 0)), Ok(None));
/// ```
pub fn planes(description: &Description) -> Result<Option<Planes>, Refusal> {
    let found = on_description(raw::gyroid_planes, description)?;
    Ok(found.map(|[axis, from, to]| Planes { axis: axis as usize, from, to }))
}

/// g less the level over the Lipschitz bound at a point in millimetres, in doubles: tentative, no enclosure.
///
/// ```
/// use gyroid_cells::{Description, fast_distance};
///
/// // Half a millimetre from the origin along x, g is above 0.
/// let near = fast_distance(&Description::constant(10240, 0), [0.5, 0.0, 0.0])?;
/// assert!(0.0 < near && near < 0.5);
/// # Ok::<(), gyroid_cells::Refusal>(())
/// ```
pub fn fast_distance(description: &Description, point: [f64; 3]) -> Result<f64, Refusal> {
    let [value] = always(on_slice(raw::gyroid_fast_distance, description, &point))?;
    Ok(value)
}

/// The level at a point in millimetres, in doubles: tentative, no enclosure.
///
/// ```
/// use gyroid_cells::{Description, fast};
///
/// // Three quarters up a ramp from −1/4 to 1/4 over 10 mm.
/// let ramp = Description::linear(10240, [0; 3], [10240, 0, 0], -256, 256);
/// assert_eq!(fast(&ramp, [7.5, 0.0, 0.0]), Ok(0.125));
/// ```
pub fn fast(description: &Description, point: [f64; 3]) -> Result<f64, Refusal> {
    let [value] = always(on_slice(raw::gyroid_fast, description, &point))?;
    Ok(value)
}

/// Marks a box of whole ticks cell by cell, halving what is unsettled `depth` times at most (0 to 24), and leaves the
/// cells in the lent table: [`Table`] reads it. One cell takes 32 bytes and so does the head.
///
/// A box is halved across its longest side. Where longest sides tie, the rule says which of them it is: by default the
/// grade axis, where the core has one and it is among them, and otherwise the lowest. [`TieRule`] has the other rule.
///
/// Every byte of the table is written. Refused by 13, for want of room, every byte is zero; refused by another number
/// the table is as it was. 13 comes at the first cell without a slot, so a table that is far too small costs little.
///
/// ```
/// use gyroid_cells::{Bounds, Description, State, TieRule, walk};
///
/// // A network of period 10 mm at the level 2; a millimetre cube, halved once at most.
/// let core = Description::constant(10240, 2048);
/// let cube = Bounds { low: [0; 3], high: [1024; 3] };
/// let mut bytes = [0; 3 * 32];
/// let table = walk(&core, cube, 1, TieRule::default(), &mut bytes)?;
///
/// assert_eq!(table.head().solid, 536870912);
/// let states: Vec<State> = table.cells().map(|cell| cell.state).collect();
/// assert_eq!(states, [State::Inside, State::Unsettled]);
/// # Ok::<(), gyroid_cells::Refusal>(())
/// ```
pub fn walk<'a>(
    description: &Description,
    bounds: Bounds,
    depth: i64,
    rule: TieRule,
    table: &'a mut [u8],
) -> Result<Table<'a>, Refusal> {
    lend::walk(description, &corners_of(bounds), depth, rule as u32, table)?;
    Ok(Table::filled(table))
}

/// The areas of a table's cells in each tick layer from `low` to `high` − 1, which the lent report then holds, 24 bytes
/// a layer: [`Layers`] reads them. Layer z lies between z and z + 1. What lies behind the last layer in the report is as
/// it was.
///
/// The table may be any bytes; of a [`Table`] the same is asked by [`Table::layers`]. Bytes that are no sound table are
/// refused by 15, a layer run that is empty or leaves −2^20 to 2^20 by 16, and a report that is too short by 17, in this
/// order; the report is then as it was. A table is sound where it records one cell at least, its chain visits exactly the
/// slots 1 to the recorded number of cells, each once, and its cells have states 1 to 3, depths up to 24, boxes within
/// the coordinate limits with spans of 1 or more, and volumes that add up to 2^63 at most. Where cells overlap, each
/// counts in full.
///
/// ```
/// use gyroid_cells::{Bounds, Description, TieRule, layers, walk};
///
/// let core = Description::constant(10240, 2048);
/// let mut bytes = [0; 3 * 32];
/// walk(&core, Bounds { low: [0; 3], high: [1024; 3] }, 1, TieRule::default(), &mut bytes)?;
///
/// // The highest layer of the cube, half of which is inside, and the one above it.
/// let mut report = [0; 2 * 24];
/// let inside: Vec<u64> = layers(&bytes, 1023, 1025, &mut report)?.map(|layer| layer.inside).collect();
/// assert_eq!(inside, [512 * 1024, 0]);
/// assert_eq!(layers(&bytes[..64], 1023, 1025, &mut report).unwrap_err().number(), 15);
/// # Ok::<(), gyroid_cells::Refusal>(())
/// ```
pub fn layers<'a>(table: &[u8], low: i64, high: i64, report: &'a mut [u8]) -> Result<Layers<'a>, Refusal> {
    lend::layers(table, low, high, report)?;
    // Not refused by 16 or 17, the run is not empty and its layers fit the report.
    let run = (high - low) as usize;
    Ok(Layers::filled(low, &report[..run * LAYER]))
}
