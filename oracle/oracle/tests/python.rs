//! Python's csv module, where Python is at hand, splits well-formed texts into
//! the same cells.

use std::io::{self, ErrorKind, Write};
use std::process::{Command, Stdio};

use oracle::text_run::cells;

const SCRIPT: &str = concat!(env!("CARGO_MANIFEST_DIR"), "/../cells.py");
const SEED: u64 = 3;
const TEXTS: u64 = 10_000;

#[test]
fn pythons_csv_module_splits_texts_alike() {
    let started = Command::new("python3").arg(SCRIPT).stdin(Stdio::piped()).spawn();
    let mut python = match started {
        Err(error) if error.kind() == ErrorKind::NotFound => {
            // Past the capture of what tests print, so that it is seen.
            let said = b"no python3 at hand: cells are not compared with its csv module\n";
            io::stderr().write_all(said).expect("an error output");
            return;
        }
        started => started.expect("a python3 that starts"),
    };
    let mut input = python.stdin.take().expect("piped");
    let written = input.write_all(cells(SEED, TEXTS).as_bytes());
    drop(input);
    assert!(python.wait().expect("an end").success(), "the cells differ");
    written.expect("a script that reads all");
}
