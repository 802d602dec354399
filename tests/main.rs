//! Test runs: see README.md, and `run` for the commands.
mod cases;
mod coverage;
#[cfg(linked)]
mod library;
mod plain;
mod runs;
mod stream;
#[cfg(test)]
mod unit;
mod walk;

use std::process::ExitCode;

fn main() -> ExitCode {
    let words: Vec<String> = std::env::args().skip(1).collect();
    let number = |i: usize| words.get(i).and_then(|word| word.parse::<u64>().ok());
    let clock = || std::time::SystemTime::now().duration_since(std::time::UNIX_EPOCH).map_or(1, |time| time.as_secs());
    let seed = |i: usize| number(i).unwrap_or_else(clock);
    let done = match (words.first().map_or("", |word| word), words.get(1), number(1), number(2)) {
        ("store", Some(folder), _, _) => runs::store(folder),
        #[cfg(linked)]
        ("fresh", _, Some(seconds), _) => runs::fresh(seconds, seed(2)),
        #[cfg(linked)]
        ("stored", Some(folder), _, _) => runs::stored(folder),
        ("replay", _, Some(seed), Some(case)) => runs::replay(seed, case as usize),
        ("stream", _, Some(seed), Some(count)) => runs::stream(seed, number(3).unwrap_or(0) as usize, count as usize),
        ("printed", ..) => runs::printed(),
        ("program", Some(path), _, Some(seconds)) => runs::program(path, seconds, seed(3)),
        ("unfolds", Some(path), _, Some(seconds)) => runs::unfolds(path, seconds, seed(3)),
        ("unfold", ..) => runs::unfold(),
        _ => Err("no such command; see tests/run".to_string()),
    };
    match done {
        Ok(line) => {
            if !line.is_empty() {
                eprintln!("{line}");
            }
            ExitCode::SUCCESS
        }
        Err(line) => {
            eprintln!("{line}");
            ExitCode::FAILURE
        }
    }
}
