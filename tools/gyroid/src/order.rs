//! What a planner orders: a core, a box, a depth and a tie rule, by readable lines of a part file or by options of the
//! same names.

use crate::lengths::{Decimal, TICKS, decimal, mm};
use crate::line::Line;
use gyroid_cells::{Bounds, Description, TieRule};

/// All that a walk takes but its table.
#[derive(Clone, Copy, Debug, PartialEq)]
pub struct Order {
    pub description: Description,
    pub bounds: Bounds,
    pub depth: i64,
    pub rule: TieRule,
}

/// The keys of a part file, in the order of its documents. Each is an option of `gyroid walk` too.
pub const KEYS: [&str; 6] = ["period", "surface", "level", "box", "depth", "ties"];

/// An order while it is put together: what is there so far.
#[derive(Clone, Copy, Default)]
pub struct Draft {
    period: Option<Length>,
    kind: Option<i64>,
    level: Option<Level>,
    bounds: Option<(Bounds, bool)>,
    depth: Option<i64>,
    rule: Option<TieRule>,
}

/// A length, and whether it was written in ticks.
#[derive(Clone, Copy)]
struct Length {
    ticks: i64,
    in_ticks: bool,
}

#[derive(Clone, Copy)]
enum Level {
    Constant(i64),
    Linear {
        from: [i64; 3],
        to: [i64; 3],
        start: i64,
        end: i64,
    },
    /// As a line has it, of any level kind.
    Entries(Description),
}

impl Draft {
    /// What a line orders: as the program `cells` has it, ties go to the lowest axis.
    pub fn of_line(line: Line) -> Self {
        Self {
            period: Some(Length { ticks: line.description.period, in_ticks: true }),
            kind: Some(line.description.kind),
            level: Some(Level::Entries(line.description)),
            bounds: Some((line.bounds, true)),
            depth: Some(line.depth),
            rule: Some(TieRule::LowestAxis),
        }
    }

    /// What the lines of a part file order. The error names the line, counted from 1.
    pub fn of_part(text: &str) -> Result<Self, String> {
        let mut draft = Self::default();
        let mut seen: Vec<&str> = Vec::new();
        // Some editors put a byte order mark before a text.
        for (i, line) in text.trim_start_matches('\u{feff}').lines().enumerate() {
            let line = line.split('#').next().unwrap_or("").trim();
            if line.is_empty() {
                continue;
            }
            let (key, value) = line.split_once([' ', '\t', ':', '=']).unwrap_or((line, ""));
            let value = value.trim_start_matches([' ', '\t', ':', '=']).trim();
            if seen.contains(&key) {
                return Err(format!("line {}: {key} stands there twice", i + 1));
            }
            draft.set(key, value).map_err(|why| format!("line {}: {why}", i + 1))?;
            seen.push(key);
        }
        Ok(draft)
    }

    /// Takes the value of a key.
    pub fn set(&mut self, key: &str, value: &str) -> Result<(), String> {
        let said = |why: String| format!("{key}: {why}");
        match key {
            "period" => self.period = Some(length(value).map_err(said)?),
            "surface" => self.kind = Some(surface(value).map_err(said)?),
            "level" => self.level = Some(level(value).map_err(said)?),
            "box" => self.bounds = Some(bounds(value).map_err(said)?),
            "depth" => self.depth = Some(depth(value).map_err(said)?),
            "ties" => self.rule = Some(ties(value).map_err(said)?),
            _ => return Err(format!("there is no key `{key}`; the keys are {}", KEYS.join(", "))),
        }
        Ok(())
    }

    /// The order, where all that it wants is there.
    pub fn order(self) -> Result<Order, String> {
        let missing = |key: &str, example: &str| format!("the {key} is missing; say, for example, {example}");
        let period = self.period.ok_or_else(|| missing("period", "`period 10 mm`"))?;
        let level =
            self.level.ok_or_else(|| missing("level", "`level 0.25` or `level -0.25 at z 0 mm to 0.25 at z 20 mm`"))?;
        let (bounds, _) = self.bounds.ok_or_else(|| missing("box", "`box 0 0 0 to 20 20 20 mm`"))?;
        let depth = self.depth.ok_or_else(|| missing("depth", "`depth 20`"))?;
        let graded = match level {
            Level::Constant(level) => Description::constant(period.ticks, level),
            Level::Linear { from, to, start, end } => Description::linear(period.ticks, from, to, start, end),
            Level::Entries(description) => Description { period: period.ticks, ..description },
        };
        let description = Description { kind: self.kind.unwrap_or(graded.kind), ..graded };
        Ok(Order { description, bounds, depth, rule: self.rule.unwrap_or_default() })
    }

    /// Whether numbers in ticks look like millimetres: a period, or every span of the box, from 1 to below 1 mm. The
    /// coordinates that are accepted end at 1024 mm, so millimetres typed as ticks are always so small.
    pub fn looks_like_millimetres(&self) -> Option<String> {
        let small = |ticks: i64| 0 < ticks && ticks < TICKS;
        let of_period = match self.period {
            Some(Length { ticks, in_ticks: true }) if small(ticks) => {
                Some((format!("the period is {ticks} ticks, {}", mm(ticks)), ticks))
            }
            _ => None,
        };
        let of_box = match self.bounds {
            Some((Bounds { low, high }, true)) => {
                let [x, y, z] = [0, 1, 2].map(|i| high[i].saturating_sub(low[i]));
                let (all, longest) = (small(x) && small(y) && small(z), x.max(y).max(z));
                all.then(|| (format!("the box is {x} by {y} by {z} ticks, {} at most", mm(longest)), longest))
            }
            _ => None,
        };
        let asked = |(what, ticks): (String, i64)| {
            format!("{what}: millimetres typed as ticks? {ticks} mm are {} ticks", ticks * TICKS)
        };
        of_period.or(of_box).map(asked)
    }
}

/// `10 mm`, `10.5mm`, `10240 ticks`.
fn length(text: &str) -> Result<Length, String> {
    let (number, unit) = split_unit(text);
    match unit {
        "mm" => Ok(Length { ticks: whole(number, "mm", "ticks", mm)?, in_ticks: false }),
        "ticks" | "tick" => match number.parse() {
            Ok(ticks) => Ok(Length { ticks, in_ticks: true }),
            Err(_) => Err(format!("`{text}`: ticks are a whole number; 1 mm is 1024 ticks")),
        },
        "" if Decimal::read(number).is_some() => {
            Err(format!("`{text}` has no unit; write `{number} mm` or `{number} ticks` (1024 ticks are 1 mm)"))
        }
        _ => Err(format!("`{text}` is no length; write, for example, `10.5 mm` or `10752 ticks`")),
    }
}

/// A number and the unit behind it, with or without a space between.
fn split_unit(text: &str) -> (&str, &str) {
    let text = text.trim();
    let number = text.trim_end_matches(|c: char| c.is_ascii_alphabetic());
    (number.trim_end(), &text[number.len()..])
}

/// A decimal times 1024, where that is a whole number; `shown` says the neighbours otherwise.
fn whole(number: &str, unit: &str, parts: &str, shown: fn(i64) -> String) -> Result<i64, String> {
    let spaced = format!("{number} {unit}");
    let written = spaced.trim_end();
    let Some(read) = Decimal::read(number) else {
        return Err(format!("`{written}` is no number; write, for example, `10.5`"));
    };
    match read.thousandths() {
        (n, true) => Ok(n),
        (n, false) => Err(format!(
            "{written} is no whole number of {parts} (1/1024{}); the nearest are {} ({n} {parts}) and {} ({} {parts})",
            if unit.is_empty() { String::new() } else { format!(" {unit}") },
            shown(n),
            shown(n + 1),
            n + 1
        )),
    }
}

/// The kind: of a sheet too, which the library refuses.
fn surface(text: &str) -> Result<i64, String> {
    match text {
        "network" => Ok(0),
        "sheet" => Ok(1),
        "primitive" => Ok(2),
        _ => Err(format!("`{text}` is no surface; it is network (the gyroid) or primitive")),
    }
}

/// `0.25`, `256 counts`, `-0.25 at z 0 mm to 0.25 at z 20 mm`.
fn level(text: &str) -> Result<Level, String> {
    let form = "write, for example, `0.25` or `-0.25 at z 0 mm to 0.25 at z 20 mm`";
    let Some((first, second)) = text.split_once(" to ") else {
        return match text.contains(" at ") {
            true => Err(format!("`{text}` has one anchor, and a ramp has two; {form}")),
            false => Ok(Level::Constant(counts(text)?)),
        };
    };
    let (start, low_axis, from) = anchor(first, form)?;
    let (end, high_axis, to) = anchor(second, form)?;
    if low_axis != high_axis {
        return Err(format!("`{text}` names two axes, and a ramp goes along one; {form}"));
    }
    let on_axis = |position| [0, 1, 2].map(|axis| if axis == low_axis { position } else { 0 });
    Ok(Level::Linear { from: on_axis(from), to: on_axis(to), start, end })
}

/// `-0.25 at z 0 mm`: the level, the axis, the position.
fn anchor(text: &str, form: &str) -> Result<(i64, usize, i64), String> {
    let wrong = || format!("`{text}` is no level at a place; {form}");
    let (level, place) = text.split_once(" at ").ok_or_else(wrong)?;
    let (axis, position) = place.trim().split_once([' ', '=']).ok_or_else(wrong)?;
    let axis = ["x", "y", "z"].iter().position(|name| *name == axis).ok_or_else(wrong)?;
    Ok((counts(level)?, axis, length(position.trim_start_matches([' ', '=']))?.ticks))
}

/// A level: a decimal that is a whole number of counts, or the counts.
fn counts(text: &str) -> Result<i64, String> {
    match split_unit(text) {
        (number, "") => whole(number, "", "counts", decimal),
        (number, "counts" | "count") => {
            number.parse().map_err(|_| format!("`{text}`: counts are a whole number; a level of 1 is 1024 counts"))
        }
        _ => Err(format!("`{text}` is no level; write, for example, `0.25` or `256 counts`")),
    }
}

/// `0 0 0 to 20 20 20 mm`, and whether it was written in ticks.
fn bounds(text: &str) -> Result<(Bounds, bool), String> {
    let wrong = || format!("`{text}` is no box; write three lows and three highs, as `0 0 0 to 20 20 20 mm`");
    let (lows, highs) = text.split_once(" to ").ok_or_else(wrong)?;
    let (high_numbers, unit) = split_unit(highs);
    let (low_numbers, low_unit) = match split_unit(lows) {
        (numbers, "") => (numbers, unit),
        given => given,
    };
    let corner = |numbers: &str, unit: &str| -> Result<[Length; 3], String> {
        let lengths: Result<Vec<Length>, String> =
            numbers.split_whitespace().map(|number| length(format!("{number} {unit}").trim_end())).collect();
        lengths?.try_into().map_err(|_| wrong())
    };
    let (low, high) = (corner(low_numbers, low_unit)?, corner(high_numbers, unit)?);
    let in_ticks = high[0].in_ticks;
    Ok((Bounds { low: low.map(|end| end.ticks), high: high.map(|end| end.ticks) }, in_ticks))
}

fn depth(text: &str) -> Result<i64, String> {
    text.parse().map_err(|_| format!("`{text}` is no whole number; it is 0 to 24"))
}

fn ties(text: &str) -> Result<TieRule, String> {
    match text {
        "grade axis" | "grade-axis" => Ok(TieRule::GradeAxis),
        "lowest axis" | "lowest-axis" => Ok(TieRule::LowestAxis),
        _ => Err(format!("`{text}` is no tie rule; it is `grade axis` or `lowest axis`")),
    }
}
