//! `gyroid`: the planner's tool over the proved library. Every mark, every volume of a head and every area of a layer
//! that it shows comes from the library; nothing is decided here.

mod cut;
mod explain;
mod export;
mod help;
mod info;
mod kept;
mod layers;
mod lengths;
mod line;
mod order;
mod output;
mod refusals;
mod summary;
mod svg;
mod trouble;
mod walk;
mod words;

use std::env;
use std::ffi::OsString;
use std::io::{self, Write};
use std::process::ExitCode;
use trouble::Trouble;

/// Runs the command that the words name; the answer is the exit status.
fn run(words: &[OsString]) -> Result<u8, Trouble> {
    let Some((command, rest)) = words.split_first() else {
        return Err(Trouble::usage(format!("say a command: {}; gyroid --help says more", help::commands())));
    };
    let command = command.to_string_lossy();
    if let Some(text) = help::asked(&command, rest) {
        io::stdout().write_all(text.as_bytes())?;
        return Ok(0);
    }
    let rest = rest.iter().cloned();
    match &*command {
        "walk" => walk::run(rest).map(|()| 0),
        "explain" => explain::run(rest),
        "cut" => cut::run(rest).map(|()| 0),
        "layers" => layers::run(rest).map(|()| 0),
        "export" => export::run(rest).map(|()| 0),
        "info" => info::run(rest).map(|()| 0),
        _ => Err(Trouble::usage(format!("there is no command `{command}`; the commands are {}", help::commands()))),
    }
}

fn main() -> ExitCode {
    let words: Vec<OsString> = env::args_os().skip(1).collect();
    match run(&words) {
        Ok(exit) => ExitCode::from(exit),
        Err(trouble) => {
            // Where standard error cannot be written, the exit status says it alone.
            let _ = writeln!(io::stderr(), "gyroid: {}", trouble.text);
            ExitCode::from(trouble.exit)
        }
    }
}
