//! Answers requests, one a line: `CALL d1 .. d18 args`, doubles as 16 hexadecimal digits of their bits, or `layers args`.

use compare::{layers, original, ours};
use request::{Answer, LayerRequest, Request};
use std::io::{self, BufRead, Write};
use std::process::ExitCode;

const HELP: &str = "ask [--reference]: one request a line on standard input, one answer a line

  CALL d1 .. d18 args    single spaces between; whole numbers in decimal, doubles as 16 hexadecimal digits
  grade_range level_piece                           args: three lows, three highs, in ticks
  jet affine_jet residual affine_residual box_state args: low and high end of x, of y, of z, in millimetres
  derivatives                                       args: the same six, then the piece's number
  facet_residual                                    args: three corners, each as six ends
  fast fast_distance                                args: x, y, z
  curvature lipschitz saturated graded planes       no args
  walk                                              args: three lows, three highs, in ticks, depth, tie rule, the
                                                    table's bytes
  layers LOW HIGH BYTES TABLE    no description; the layers from LOW to HIGH - 1, a report of so many BYTES, and the
                                 TABLE as two hexadecimal digits for each byte, or `-` for one without a byte

The tie rule says which of the longest sides of a box a walk halves where they tie: 0, the default, the one along the
axis of a linear level with unequal ends if it is among them, otherwise the lowest; 1, the lowest.
A walk's answer is cells, evaluated, solid, open, then state, depth, lows, highs of each cell. That of layers is the tick
squares in inside, outside and unsettled cells of each layer.
Answers: the values, `none`, `refused N`, or `error: ..` for a line that is no request (the exit status is then 1).
With --reference the original answers, or `panicked`, or `unmade` where the input cannot be made into its types;
to a walk a plain one over the original's box_state. Of the primitive surface (d2 is 2) document 02's lines answer, and
of layers a plain report from its words.";

/// Who answers: to a request about a description, and to one about a table.
struct Side {
    call: fn(&Request) -> Answer,
    layers: fn(&LayerRequest) -> Answer,
}

const OURS: Side = Side { call: ours::answer, layers: ours::layers };
const ORIGINAL: Side = Side { call: original::answer, layers: layers::answer };

impl Side {
    /// The answer to a line; the error says why it is no request.
    fn answer(&self, line: &str) -> Result<Answer, String> {
        match line.split(' ').next() {
            Some(LayerRequest::NAME) => Ok((self.layers)(&line.parse()?)),
            _ => Ok((self.call)(&line.parse()?)),
        }
    }
}

/// One answer a line; whether every line was a request.
fn answer_all(side: &Side) -> io::Result<bool> {
    let mut out = io::stdout().lock();
    let mut all = true;
    for line in io::stdin().lock().split(b'\n') {
        let line = line?;
        match side.answer(&String::from_utf8_lossy(&line)) {
            Ok(answer) => writeln!(out, "{answer}")?,
            Err(why) => {
                all = false;
                writeln!(out, "error: {why}")?;
            }
        }
    }
    Ok(all)
}

fn main() -> ExitCode {
    let arguments: Vec<String> = std::env::args().skip(1).collect();
    let side = match arguments.iter().map(String::as_str).collect::<Vec<_>>()[..] {
        [] => OURS,
        ["--reference"] if reference::AT_HAND => ORIGINAL,
        ["--reference"] => {
            eprintln!("ask: the original is not at hand: {}", reference::MISSING);
            return ExitCode::from(2);
        }
        ["--help"] => {
            println!("{HELP}");
            return ExitCode::SUCCESS;
        }
        _ => {
            eprintln!("{HELP}");
            return ExitCode::from(2);
        }
    };
    match answer_all(&side) {
        Ok(true) => ExitCode::SUCCESS,
        Ok(false) => ExitCode::FAILURE,
        Err(why) => {
            eprintln!("ask: {why}");
            ExitCode::FAILURE
        }
    }
}
