//! Why an order is refused: its entries held to the documents' limits, once the library has said by which number.

use crate::lengths::{TICKS, decimal, mm};
use crate::order::Order;
use gyroid_cells::Description;

const MOST: i64 = 1 << 20;
const MOST_LEVEL: i64 = 4096;
const MOST_END: i64 = 256;
const AXES: [&str; 3] = ["x", "y", "z"];

/// The refusal of an order by this number: `refused 5: ..`, a sentence for each entry that it is about.
pub fn of_order(number: u32, order: &Order) -> String {
    let found = match number {
        1 => limits(order),
        2 => of_period(&order.description),
        3 => left_out(&order.description),
        4 => anchors(&order.description),
        5 => ramp(&order.description),
        11 => spans(order),
        12 => vec![format!("the depth is {}; it is 0 to 24", order.depth)],
        _ => Vec::new(),
    };
    let words = match found.is_empty() {
        true => super::general(number).unwrap_or("").into(),
        false => found.into_iter().map(ended).collect::<Vec<String>>().join("\n"),
    };
    format!("refused {number}: {words}")
}

/// A sentence that is no question ends with a full stop.
fn ended(sentence: String) -> String {
    if sentence.ends_with('?') { sentence } else { sentence + "." }
}

/// The entries outside their limits or kinds.
fn limits(order: &Order) -> Vec<String> {
    let d = &order.description;
    let mut found: Vec<String> = Vec::new();
    found.extend(length("the period", d.period));
    let kinds = [("the surface's kind", d.kind), ("the level kind", d.level_kind)];
    let unknown = kinds.into_iter().filter(|(_, kind)| !(0..=2).contains(kind));
    found.extend(unknown.map(|(name, kind)| format!("{name} is {kind}; it is 0, 1 or 2")));
    found.extend(corner("`from`", d.from));
    found.extend(corner("`to`", d.to));
    found.extend(level("start", d.start));
    found.extend(level("end", d.end));
    found.extend(corner("the box's low", order.bounds.low));
    found.extend(corner("the box's high", order.bounds.high));
    found
}

fn corner(name: &str, corner: [i64; 3]) -> impl Iterator<Item = String> {
    AXES.into_iter().zip(corner).filter_map(move |(axis, ticks)| length(&format!("{axis} of {name}"), ticks))
}

fn length(name: &str, ticks: i64) -> Option<String> {
    let hint = typed_for(ticks, MOST, "ticks");
    let limit = format!("it lies from {} to {} ticks (-1024 mm to 1024 mm){hint}", -MOST, MOST);
    (ticks.unsigned_abs() > MOST as u64).then(|| format!("{name} is {ticks} ticks ({}); {limit}", mm(ticks)))
}

fn level(name: &str, counts: i64) -> Option<String> {
    let hint = typed_for(counts, MOST_LEVEL, "counts");
    let limit = format!("levels lie from {} to {} counts (-4 to 4){hint}", -MOST_LEVEL, MOST_LEVEL);
    let shown = || format!("{name} is {counts} counts (a level of {}); {limit}", decimal(counts));
    (counts.unsigned_abs() > MOST_LEVEL as u64).then(shown)
}

/// What may have been meant by a number that would be within its limit in the smaller unit.
fn typed_for(number: i64, most: i64, unit: &str) -> String {
    match number % TICKS == 0 && (number / TICKS).abs() <= most {
        true => format!(". Were {} {unit} meant?", number / TICKS),
        false => String::new(),
    }
}

/// 2: the period comes first.
fn of_period(d: &Description) -> Vec<String> {
    vec![match d.period {
        ..=0 => format!("the period is {} ticks; it must be above 0", d.period),
        _ => format!(
            "`from` and `to` are one place, {}; a linear level goes from one plane to another. \
             Move one of them, or make the level constant",
            place(d.from)
        ),
    }]
}

/// 3: the sheet, then a level by distance, then the frame.
fn left_out(d: &Description) -> Vec<String> {
    vec![if d.kind == 1 {
        "the surface is a sheet (kind 1), which is not offered; take network or primitive".into()
    } else if d.level_kind == 2 {
        "the level is one by distance (level kind 2), which is not offered; take a constant or a linear one".into()
    } else {
        "the frame is turned or moved; move the box and the anchors in its place".into()
    }]
}

fn place([x, y, z]: [i64; 3]) -> String {
    format!("({x}, {y}, {z}) ticks")
}

/// 4: the axes on which the anchors differ.
fn anchors(d: &Description) -> Vec<String> {
    let axes: Vec<&str> = (0..3).filter(|i| d.from[*i] != d.to[*i]).map(|i| AXES[i]).collect();
    vec![format!(
        "`from` is {} and `to` is {}: they differ in {}. A ramp goes along one axis: let them differ in that one alone",
        place(d.from),
        place(d.to),
        axes.join(" and ")
    )]
}

/// 5: the ends, then the slope.
fn ramp(d: &Description) -> Vec<String> {
    let outside = |(name, counts): (&str, i64)| {
        let limit = "a ramp's ends lie from -256 to 256 counts (-0.25 to 0.25)";
        let shown = || format!("{name} is {counts} counts (a level of {}); {limit}", decimal(counts));
        (counts.abs() > MOST_END).then(shown)
    };
    let ends: Vec<String> = [("start", d.start), ("end", d.end)].into_iter().filter_map(outside).collect();
    if !ends.is_empty() {
        return ends;
    }
    let change = (d.end - d.start).abs();
    let distance: i64 = (0..3).map(|i| (d.to[i] - d.from[i]).abs()).max().unwrap_or(0);
    vec![format!(
        "the level changes by {change} counts over {distance} ticks ({}), which is too steep: ten ticks or more are wanted \
         for each count, {} ticks ({}) for this change. Move the anchors further apart, or bring start and end nearer",
        mm(distance),
        10 * change,
        mm(10 * change)
    )]
}

/// 11: the spans below 1.
fn spans(order: &Order) -> Vec<String> {
    let (low, high) = (order.bounds.low, order.bounds.high);
    let narrow = (0..3).filter(|i| high[*i] <= low[*i]);
    narrow
        .map(|i| {
            let axis = AXES[i];
            let remedy = if high[i] < low[i] { "exchange them" } else { "the least span is one tick" };
            format!(
                "the box goes from {} ticks ({}) to {} ticks ({}) in {axis}; the high must be above the low: {remedy}",
                low[i],
                mm(low[i]),
                high[i],
                mm(high[i])
            )
        })
        .collect()
}

#[cfg(test)]
mod tests {
    use super::*;
    use gyroid_cells::{Bounds, TieRule};

    fn order() -> Order {
        Order {
            description: Description::linear(10240, [0; 3], [0, 0, 20480], -256, 256),
            bounds: Bounds { low: [0; 3], high: [20480; 3] },
            depth: 20,
            rule: TieRule::GradeAxis,
        }
    }

    /// The library refuses the order by this number, and these are the words of it.
    fn refused(number: u32, order: Order, words: &str) {
        let answer = gyroid_cells::walk(&order.description, order.bounds, order.depth, order.rule, &mut []);
        assert_eq!(answer.unwrap_err().number(), number);
        assert_eq!(of_order(number, &order), format!("refused {number}: {words}"));
    }

    fn of(description: Description) -> Order {
        Order { description, ..order() }
    }

    #[test]
    fn one_each_entry_that_is_outside() {
        let limit = "it lies from -1048576 to 1048576 ticks (-1024 mm to 1024 mm)";
        let d = order().description;
        refused(
            1,
            of(Description { period: 1048577, ..d }),
            &format!("the period is 1048577 ticks (1024.0009765625 mm); {limit}."),
        );
        let mut far = order();
        far.bounds.high[2] = 20480 * 1024;
        far.description.start = -256 * 1024;
        refused(
            1,
            far,
            &format!(
                "start is -262144 counts (a level of -256); levels lie from -4096 to 4096 counts (-4 to 4). Were -256 counts \
                 meant?\nz of the box's high is 20971520 ticks (20480 mm); {limit}. Were 20480 ticks meant?"
            ),
        );
        refused(1, of(Description { kind: 3, ..d }), "the surface's kind is 3; it is 0, 1 or 2.");
        refused(1, of(Description { level_kind: -1, ..d }), "the level kind is -1; it is 0, 1 or 2.");
        let words = format!("y of `from` is -1048577 ticks (-1024.0009765625 mm); {limit}.");
        refused(1, of(Description { from: [0, -1048577, 0], ..d }), &words);
    }

    #[test]
    fn two_and_three_in_the_order_of_the_tests() {
        let d = order().description;
        refused(2, of(Description { period: 0, to: [0; 3], ..d }), "the period is 0 ticks; it must be above 0.");
        refused(
            2,
            of(Description { to: [0; 3], ..d }),
            "`from` and `to` are one place, (0, 0, 0) ticks; a linear level goes from one plane to another. Move one of them, \
             or make the level constant.",
        );
        let sheet = "the surface is a sheet (kind 1), which is not offered; take network or primitive.";
        refused(3, of(Description { kind: 1, level_kind: 2, ..d }), sheet);
        let distance =
            "the level is one by distance (level kind 2), which is not offered; take a constant or a linear one.";
        refused(3, of(Description { level_kind: 2, ..d }), distance);
        let turned = "the frame is turned or moved; move the box and the anchors in its place.";
        refused(3, of(Description { translation: [0, 0, 1], ..d }), turned);
    }

    #[test]
    fn four_and_five_the_ramp() {
        let d = order().description;
        refused(
            4,
            of(Description { to: [5, 0, 20480], ..d }),
            "`from` is (0, 0, 0) ticks and `to` is (5, 0, 20480) ticks: they differ in x and z. A ramp goes along one axis: \
             let them differ in that one alone.",
        );
        refused(
            5,
            of(Description { start: 257, ..d }),
            "start is 257 counts (a level of 0.2509765625); a ramp's ends lie from -256 to 256 counts (-0.25 to 0.25).",
        );
        refused(
            5,
            of(Description { to: [0, 0, 5119], ..d }),
            "the level changes by 512 counts over 5119 ticks (4.9990234375 mm), which is too steep: ten ticks or more are \
             wanted for each count, 5120 ticks (5 mm) for this change. Move the anchors further apart, or bring start and end \
             nearer.",
        );
    }

    #[test]
    fn eleven_and_twelve_the_box_and_the_depth() {
        let mut flat = order();
        flat.bounds.high[1] = 0;
        flat.bounds.low[2] = 20481;
        refused(
            11,
            flat,
            "the box goes from 0 ticks (0 mm) to 0 ticks (0 mm) in y; the high must be above the low: the least span is one \
             tick.\nthe box goes from 20481 ticks (20.0009765625 mm) to 20480 ticks (20 mm) in z; the high must be above the \
             low: exchange them.",
        );
        refused(12, Order { depth: 25, ..order() }, "the depth is 25; it is 0 to 24.");
        refused(12, Order { depth: -1, ..order() }, "the depth is -1; it is 0 to 24.");
    }
}
