//! `gyroid explain`: a refusal in words, by its number or of a line that the program `cells` refuses.

use crate::lengths::grouped;
use crate::line::Line;
use crate::order::{Draft, Order};
use crate::refusals::{general, of_order};
use crate::trouble::{REFUSED, Trouble};
use crate::walk::{Progress, line_bytes, walk};
use crate::words::{Opt, Words};
use gyroid_cells::SLOT;
use std::ffi::OsString;
use std::io::{self, Write};

/// The bytes of the table that the program `cells` has.
const TABLE: usize = 65536;

/// Prints the words; the exit status is 1 where a line is refused.
pub fn run(words: impl Iterator<Item = OsString>) -> Result<u8, Trouble> {
    let words = Words::read("explain", &[Opt::Value("--line")], words)?;
    let (exit, said) = match (words.value("--line")?, words.operands()) {
        (Some(line), []) => of_line(&line_bytes(line)?),
        (None, [number]) => (0, by_number(&words, &number.to_string_lossy())?),
        _ => return Err(words.usage("say a number, `gyroid explain 5`, or a line, `gyroid explain --line '..'`")),
    };
    writeln!(io::stdout(), "{said}")?;
    Ok(exit)
}

fn by_number(words: &Words, text: &str) -> Result<String, Trouble> {
    // 100 and 101 are statuses of the calls for C, and no refusals.
    let named = |number| if number < 100 { format!("refused {number}") } else { format!("status {number}") };
    let said = text.parse().ok().and_then(|number| Some(format!("{}\n{}", named(number), general(number)?)));
    said.ok_or_else(|| words.usage(format!("no call and no program refuses by `{text}`; the numbers are 1 to 17")))
}

/// What the program `cells` answers to a text: the status, and the number with its words.
fn of_line(bytes: &[u8]) -> (u8, String) {
    let line = match Line::read(bytes) {
        Ok(line) => line,
        Err(broken) => return (REFUSED, format!("refused 14\n{}", broken.sentence())),
    };
    let Ok(order) = Draft::of_line(line).order() else { unreachable!("a line has all that an order wants") };
    let refused = match cells_in(&order, order.depth) {
        Ok(cells) => return (0, format!("accepted\n`cells` prints {cells} cells.")),
        Err(number) => number,
    };
    let words = match refused {
        13 => too_many(&order),
        _ => of_order(refused, &order).replacen(": ", "\n", 1),
    };
    (REFUSED, words)
}

/// The cells of a walk in the table of `cells`, or the number that refuses it.
fn cells_in(order: &Order, depth: i64) -> Result<usize, u32> {
    let walked = gyroid_cells::walk(&order.description, order.bounds, depth, order.rule, &mut [0; TABLE])
        .map(|table| table.len());
    walked.map_err(|refusal| refusal.number())
}

/// How large a table the walk wants, and which depth the table of `cells` has room for.
fn too_many(order: &Order) -> String {
    let Ok(bytes) = walk(order, 1, &mut Progress::new(false)) else { unreachable!("refused by 13 alone") };
    let fits = (0..order.depth).rev().find_map(|depth| Some((depth, cells_in(order, depth).ok()?)));
    let shallower = fits.map_or(String::new(), |(depth, cells)| {
        format!("\nThe greatest depth that fits it is {depth}, with {} cells.", grouped(cells as u64))
    });
    format!(
        "refused 13\nThe walk has {} cells, which want {} bytes: {} times the {} of `cells`.{shallower}\n\
         `gyroid walk` takes a table as large as it must.",
        grouped((bytes.len() / SLOT - 1) as u64),
        grouped(bytes.len() as u64),
        bytes.len().div_ceil(TABLE),
        grouped(TABLE as u64),
    )
}
