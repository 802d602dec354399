//! How many instructions a call takes, by callgrind: this program runs one row's call once and twice by one side; the difference
//! is one call.
use crate::rows::Size;
use crate::sides::{Side, PLAIN, PROVED};
use std::process::Command;

const CALLS: usize = 1;

/// The instructions of a whole run with so many calls.
fn collected(row: usize, size: Size, side: &Side, calls: usize) -> f64 {
    let program = std::env::current_exe().expect("this program's path");
    let size = if size == Size::Full { "full" } else { "quarter" };
    let mut run = Command::new("valgrind");
    run.args(["--tool=callgrind", "--callgrind-out-file=/dev/null"]).arg(program);
    run.args(["one", &(row + 1).to_string(), size, side.name, &calls.to_string()]);
    let output = run.output().expect("valgrind runs");
    let told = String::from_utf8_lossy(&output.stderr).into_owned();
    let count = told.lines().find_map(|line| line.split_once("Collected : ")).map(|(_, count)| count.trim().parse());
    count.and_then(Result::ok).unwrap_or_else(|| panic!("callgrind tells no count:\n{told}"))
}

/// The instructions of one call, proved and plain.
pub fn measure(row: usize, size: Size) -> [f64; 2] {
    [&PROVED, &PLAIN].map(|side| (collected(row, size, side, 2 * CALLS) - collected(row, size, side, CALLS)) / CALLS as f64)
}
