//! Runs the program in a directory of its own.

use std::io::Write;
use std::path::{Path, PathBuf};
use std::process::{Command, Stdio};
use std::{env, fs, process};

/// A directory that is removed at the end.
pub struct Scratch(PathBuf);

/// What a run of the program left.
#[derive(Debug, PartialEq)]
pub struct Ran {
    pub exit: i32,
    pub out: String,
    pub err: String,
}

impl Scratch {
    pub fn new(name: &str) -> Self {
        let path = env::temp_dir().join(format!("gyroid-{name}-{}", process::id()));
        fs::create_dir_all(&path).unwrap();
        Self(path)
    }

    pub fn path(&self, name: &str) -> PathBuf {
        self.0.join(name)
    }

    #[allow(dead_code, reason = "not every test writes a file")]
    pub fn write(&self, name: &str, bytes: impl AsRef<[u8]>) {
        fs::write(self.path(name), bytes).unwrap();
    }

    /// The table of these cells, as core.table: state, depth, lows and highs of each.
    #[allow(dead_code, reason = "not every test makes one by hand")]
    pub fn table(&self, cells: &[(u8, u8, [i32; 3], [i32; 3])]) -> PathBuf {
        let count = cells.len() as u32;
        let mut bytes = [1, count, 2 * count - 1, 0, 0, 0, 0, 0].map(u32::to_le_bytes).concat();
        for ((state, depth, low, high), slot) in cells.iter().zip(2..) {
            bytes.extend(if slot > count { 0 } else { slot }.to_le_bytes());
            bytes.extend([*state, *depth, 0, 0]);
            bytes.extend([low, high].into_iter().flatten().flat_map(|tick| tick.to_le_bytes()));
        }
        self.write("core.table", bytes);
        self.path("core.table")
    }

    pub fn run(&self, words: &[&str]) -> Ran {
        self.fed(words, b"")
    }

    /// Runs the program with these bytes on standard input.
    pub fn fed(&self, words: &[&str], bytes: &[u8]) -> Ran {
        let mut program = Command::new(env!("CARGO_BIN_EXE_gyroid"));
        program.args(words).current_dir(&self.0);
        program.stdin(Stdio::piped()).stdout(Stdio::piped()).stderr(Stdio::piped());
        let mut child = program.spawn().unwrap();
        // A program that reads nothing may have ended already.
        let _ = child.stdin.take().unwrap().write_all(bytes);
        let ended = child.wait_with_output().unwrap();
        let text = |bytes| String::from_utf8(bytes).unwrap();
        Ran { exit: ended.status.code().unwrap(), out: text(ended.stdout), err: text(ended.stderr) }
    }

    /// The names of the files that stand there.
    #[allow(dead_code, reason = "not every test looks")]
    pub fn files(&self) -> Vec<String> {
        let mut names: Vec<String> =
            fs::read_dir(&self.0).unwrap().map(|entry| entry.unwrap().file_name().into_string().unwrap()).collect();
        names.sort();
        names
    }
}

impl Drop for Scratch {
    fn drop(&mut self) {
        let _ = fs::remove_dir_all(&self.0);
    }
}

impl Ran {
    /// The program was done, and said nothing on standard error.
    #[allow(dead_code, reason = "not every test asks")]
    pub fn done(self) -> String {
        assert_eq!((self.exit, &*self.err), (0, ""));
        self.out
    }

    /// Status and message of a run that was not done, and said nothing on standard output.
    #[allow(dead_code, reason = "not every test asks")]
    pub fn trouble(self) -> (i32, String) {
        assert_eq!(self.out, "");
        (self.exit, self.err)
    }

    /// The program said this sentence, and nothing on standard output.
    #[allow(dead_code, reason = "not every test asks")]
    pub fn said(self, exit: i32, sentence: &str) {
        let wanted = Ran { exit, out: String::new(), err: format!("gyroid: {sentence}\n") };
        assert_eq!(self, wanted);
    }
}

/// The texts of the `lines` list, each with what the program `cells` prints of it.
#[allow(dead_code, reason = "not every test asks")]
pub fn lines_list() -> Vec<(Vec<u8>, String)> {
    let list = fs::read(Path::new(env!("CARGO_MANIFEST_DIR")).join("../../crates/lines/data/lines")).unwrap();
    let (mut rest, mut cases) = (&list[..], Vec::new());
    while !rest.is_empty() {
        let length = |place: usize| std::str::from_utf8(&rest[place..place + 6]).unwrap().parse::<usize>().unwrap();
        let (given, printed) = (length(0), length(7));
        let text = &rest[14..][..given];
        let answer = String::from_utf8(rest[14 + given..][..printed].to_vec()).unwrap();
        cases.push((text.to_vec(), answer));
        rest = &rest[14 + given + printed..];
    }
    cases
}
