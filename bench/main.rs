//! Times or counts the same calls by the proved code and by the plain Rust of tests/plain, and prints how they compare.
mod clock;
mod count;
mod nets;
#[allow(dead_code, unused_imports)]
#[path = "../tests/plain/mod.rs"]
mod plain;
mod proved;
mod rows;
mod sides;
mod table;

use rows::{Row, Size, ROWS};
use sides::{agree, perform, Lent, PLAIN, PROVED};
use std::process::exit;

/// Ends the run where the two sides differ on an input, or refuse it, or an input is not what its row says.
fn check(row: &Row, size: Size) {
    let input = (row.input)(size);
    let (alike, said) = agree(&input);
    if !alike {
        println!("{}, {}: the two sides differ, or refuse; the proved one says {said:?}", row.part, row.name);
        exit(1);
    }
    if let Some(wrong) = rows::wrong(row, &input, &said) {
        println!("{}, {}: {wrong}; both say {said:?}", row.part, row.name);
        exit(1);
    }
}

/// One row's call so many times by one side, for a profile: NUMBER quarter|full proved|plain N.
fn one(args: &[String]) {
    let [row, size, side, times] = args else { return println!("one NUMBER quarter|full proved|plain N") };
    let size = if size == "full" { Size::Full } else { Size::Quarter };
    let side = if side == "proved" { &PROVED } else { &PLAIN };
    let row: usize = row.parse().expect("a row's number");
    let input = (ROWS[row - 1].input)(size);
    let mut lent = Lent::new(&input);
    for _ in 0..times.parse().expect("how many times") {
        std::hint::black_box(perform(side, &input, &mut lent));
    }
}

/// The rows whose numbers are given; all where none is.
fn named(numbers: &[String]) -> Vec<usize> {
    let rows: Vec<usize> = numbers.iter().filter_map(|word| word.parse().ok()).filter(|n| (1..=ROWS.len()).contains(n)).collect();
    if rows.is_empty() { (0..ROWS.len()).collect() } else { rows.iter().map(|n| n - 1).collect() }
}

fn main() {
    let args: Vec<String> = std::env::args().skip(1).collect();
    if args.first().is_some_and(|word| word == "one") {
        return one(&args[1..]);
    }
    let rows = named(&args);
    for &row in &rows {
        check(&ROWS[row], Size::Quarter);
        check(&ROWS[row], Size::Full);
    }
    println!("Both sides agree on all {} inputs.\n", 2 * rows.len());
    if args.first().is_some_and(|word| word == "--count") {
        table::print(&rows, "instructions", 1, count::measure, table::number);
    } else {
        table::print(&rows, "time", 3, clock::measure, table::time);
    }
}
