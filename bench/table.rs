//! The table: for each row what one call takes by each side, their ratio, and how that grows from a quarter of the input.
use crate::rows::{Row, Size, ROWS};

/// A time, of nanoseconds.
pub fn time(ns: f64) -> String {
    match ns {
        _ if ns < 1e3 => format!("{ns:.0} ns"),
        _ if ns < 1e6 => format!("{:.2} us", ns / 1e3),
        _ => format!("{:.2} ms", ns / 1e6),
    }
}

/// A whole number, its digits in threes.
pub fn number(n: f64) -> String {
    let digits = format!("{n:.0}");
    let threes = digits.as_bytes().rchunks(3).rev().map(|three| std::str::from_utf8(three).unwrap());
    threes.collect::<Vec<_>>().join(",")
}

/// What a row takes: proved and plain, at a quarter of the input and at the whole of it.
type Taken = [[f64; 2]; 2];

/// The least that each of these rows takes in so many passes over them.
fn passes(rows: &[usize], count: usize, measure: fn(usize, Size) -> [f64; 2]) -> Vec<Taken> {
    let mut least = vec![[[f64::MAX; 2]; 2]; rows.len()];
    for pass in 0..count {
        for (&row, taken) in rows.iter().zip(&mut least) {
            eprint!("\rpass {} of {count}, row {}  ", pass + 1, row + 1);
            for (of, size) in taken.iter_mut().zip([Size::Quarter, Size::Full]) {
                of.iter_mut().zip(measure(row, size)).for_each(|(least, now)| *least = least.min(now));
            }
        }
    }
    eprintln!();
    least
}

fn print_row(number: usize, row: &Row, taken: &Taken, show: fn(f64) -> String) {
    let [[proved, plain], [proved4, plain4]] = taken;
    println!("| {number} | {} | {} | {} | {} | {:.2} | {} | {:.1} | {:.1} | {:.2} |",
             row.part, row.name, show(*proved4), show(*plain4), proved4 / plain4, row.grows, proved4 / proved, plain4 / plain, proved / plain);
}

/// Measures these rows in so many passes, and prints them.
pub fn print(rows: &[usize], what: &str, count: usize, measure: fn(usize, Size) -> [f64; 2], show: fn(f64) -> String) {
    let all = passes(rows, count, measure);
    println!("| no. | call | input | proved, {what} | plain | ratio | four times | proved grows | plain grows | ratio at a quarter |");
    println!("|--:|---|---|--:|--:|--:|---|--:|--:|--:|");
    for (&row, taken) in rows.iter().zip(&all) {
        print_row(row + 1, &ROWS[row], taken, show);
    }
    let logs: f64 = all.iter().map(|[_, [proved, plain]]| (proved / plain).ln()).sum();
    let above = all.iter().filter(|[_, [proved, plain]]| *proved > 1.5 * plain).count();
    println!("\nThe ratios' geometric mean: {:.2}; above 1.5: {above} of {}.", (logs / rows.len() as f64).exp(), rows.len());
}
