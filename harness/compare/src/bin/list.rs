//! Writes a fixed list to standard output: the original's answers, and document 02's, by the word `calls`, which is meant
//! without a word, or `walks`; layer reports from document 02's words by `layers`.

use std::env;
use std::io::{self, Write};
use std::process::ExitCode;

type List = fn() -> Vec<u8>;

/// The list that the words name, and whether it has answers of the original.
fn named(words: &[&str]) -> Option<(List, bool)> {
    match words {
        [] | ["calls"] => Some((compare::list::list, true)),
        ["walks"] => Some((compare::walk_list::list, true)),
        ["layers"] => Some((compare::layer_list::list, false)),
        _ => None,
    }
}

fn main() -> ExitCode {
    let words: Vec<String> = env::args().skip(1).collect();
    let Some((list, originals)) = named(&words.iter().map(String::as_str).collect::<Vec<_>>()) else {
        eprintln!("list: the lists are `calls`, `walks` and `layers`");
        return ExitCode::FAILURE;
    };
    if originals && !reference::AT_HAND {
        eprintln!("list: the original is not at hand: {}", reference::MISSING);
        return ExitCode::from(2);
    }
    match io::stdout().write_all(&list()) {
        Ok(()) => ExitCode::SUCCESS,
        Err(why) => {
            eprintln!("list: {why}");
            ExitCode::FAILURE
        }
    }
}
