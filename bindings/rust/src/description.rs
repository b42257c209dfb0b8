//! What a planner enters: the 18 whole numbers of a description, by name.

use core::fmt;

/// The surface of a core: what g stands for in the calls, with X = 2πx/a, and likewise Y and Z. The solid is where g is
/// at most the level.
///
/// The number is the description's kind. A sheet, kind 1, is refused by 3, and a kind that is none by 1.
///
/// ```
/// use gyroid_cells::{Description, Interval, State, Surface, box_state};
///
/// // At the level 2 the network fills all space; the primitive surface leaves the origin open, where g is 3.
/// let core = Description::constant(10240, 2048);
/// let world = [Interval::new(0.0, 0.5); 3];
/// assert_eq!(box_state(&core, world), Ok(State::Inside));
/// assert_eq!(box_state(&core.with_surface(Surface::Primitive), world), Ok(State::Outside));
/// ```
#[derive(Clone, Copy, Debug, PartialEq, Eq, Hash)]
pub enum Surface {
    /// sin X cos Y + sin Y cos Z + sin Z cos X.
    Network = 0,
    /// cos X + cos Y + cos Z, with wider throats.
    Primitive = 2,
}

/// A graded core in whole ticks (1/1024 mm) and level counts (1/1024). Any number may stand in any entry: the calls
/// refuse what is outside document 01's limits, in unused entries too.
///
/// Its text is the entries in document 01's order, with single spaces between.
///
/// ```
/// use gyroid_cells::Description;
///
/// let core = Description { kind: 1, ..Description::constant(10240, 2048) };
/// assert_eq!(core.to_string(), "10240 1 0 0 0 0 0 0 0 2048 0 1 0 0 0 0 0 0");
/// ```
#[derive(Clone, Copy, Debug, PartialEq, Eq, Hash)]
pub struct Description {
    /// The period in ticks.
    pub period: i64,
    /// 0 network, 1 sheet, 2 primitive: [`Surface`].
    pub kind: i64,
    /// 0 constant, 1 linear, 2 distance.
    pub level_kind: i64,
    /// The anchor where a linear level is `start`, in ticks.
    pub from: [i64; 3],
    /// The anchor where a linear level is `end`, in ticks.
    pub to: [i64; 3],
    /// The level at `from`, or the constant level, in level counts.
    pub start: i64,
    /// The level at `to`, in level counts.
    pub end: i64,
    /// The frame's rotation: w, x, y, z. The part frame has w above 0 and the others 0.
    pub rotation: [i64; 4],
    /// The frame's translation. The part frame has none.
    pub translation: [i64; 3],
}

impl Description {
    /// A network in the part frame with a constant level.
    ///
    /// ```
    /// use gyroid_cells::{Description, saturated};
    ///
    /// assert_eq!(saturated(&Description::constant(10240, 2048)), Ok(Some(true)));
    /// ```
    pub fn constant(period: i64, level: i64) -> Self {
        Self {
            period,
            kind: Surface::Network as i64,
            level_kind: 0,
            from: [0; 3],
            to: [0; 3],
            start: level,
            end: 0,
            rotation: [1, 0, 0, 0],
            translation: [0; 3],
        }
    }

    /// A network in the part frame whose level goes from `start` at `from` to `end` at `to`, and is held beyond.
    ///
    /// ```
    /// use gyroid_cells::{Description, graded};
    ///
    /// assert_eq!(graded(&Description::linear(10240, [0; 3], [10240, 0, 0], -256, 256)), Ok(true));
    /// ```
    pub fn linear(period: i64, from: [i64; 3], to: [i64; 3], start: i64, end: i64) -> Self {
        Self { level_kind: 1, from, to, end, ..Self::constant(period, start) }
    }

    /// The same with another surface.
    ///
    /// ```
    /// use gyroid_cells::{Description, Surface, saturated};
    ///
    /// let network = Description::constant(10240, 2048);
    /// let primitive = network.with_surface(Surface::Primitive);
    /// assert_eq!((saturated(&network), saturated(&primitive)), (Ok(Some(true)), Ok(None)));
    /// ```
    pub fn with_surface(self, surface: Surface) -> Self {
        Self { kind: surface as i64, ..self }
    }

    /// The surface; none where the kind is that of a sheet, or no kind.
    ///
    /// ```
    /// use gyroid_cells::{Description, Surface};
    ///
    /// let core = Description::constant(10240, 2048);
    /// assert_eq!(core.surface(), Some(Surface::Network));
    /// assert_eq!(Description { kind: 1, ..core }.surface(), None);
    /// ```
    pub fn surface(&self) -> Option<Surface> {
        [Surface::Network, Surface::Primitive].into_iter().find(|surface| *surface as i64 == self.kind)
    }

    /// The entries in document 01's order.
    ///
    /// ```
    /// use gyroid_cells::Description;
    ///
    /// let core = Description::constant(10240, 2048);
    /// assert_eq!(core.entries(), [10240, 0, 0, 0, 0, 0, 0, 0, 0, 2048, 0, 1, 0, 0, 0, 0, 0, 0]);
    /// ```
    pub fn entries(&self) -> [i64; 18] {
        let [fx, fy, fz] = self.from;
        let [tx, ty, tz] = self.to;
        let [w, x, y, z] = self.rotation;
        let [mx, my, mz] = self.translation;
        let Self { period, kind, level_kind, start, end, .. } = *self;
        [period, kind, level_kind, fx, fy, fz, tx, ty, tz, start, end, w, x, y, z, mx, my, mz]
    }

    /// The description with these entries, in document 01's order.
    ///
    /// ```
    /// use gyroid_cells::Description;
    ///
    /// let core = Description::linear(10240, [1, 2, 3], [4, 5, 6], 7, 8);
    /// assert_eq!(Description::from_entries(core.entries()), core);
    /// ```
    pub fn from_entries(entries: [i64; 18]) -> Self {
        let [period, kind, level_kind, fx, fy, fz, tx, ty, tz, start, end, w, x, y, z, mx, my, mz] = entries;
        Self {
            period,
            kind,
            level_kind,
            from: [fx, fy, fz],
            to: [tx, ty, tz],
            start,
            end,
            rotation: [w, x, y, z],
            translation: [mx, my, mz],
        }
    }
}

impl fmt::Display for Description {
    fn fmt(&self, f: &mut fmt::Formatter<'_>) -> fmt::Result {
        let [period, others @ ..] = self.entries();
        write!(f, "{period}")?;
        others.iter().try_for_each(|entry| write!(f, " {entry}"))
    }
}
