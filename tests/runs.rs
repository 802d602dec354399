//! The runs: fresh cases against the library or a program, one case again, the stored stream.
use crate::cases::{dice::Dice, nets, nets::Scale, Cases};
use crate::coverage::Seen;
#[cfg(linked)]
use crate::library::Library;
use crate::plain;
use crate::stream::{self, Case};
use std::io::{Read, Write};
use std::process::{Command, Stdio};
use std::time::{Duration, Instant};

type Run = Result<String, String>;

const STORED_SEED: u64 = 1;
const STORED_RANDOM: usize = 1000;
const BATCH: usize = 2000;

/// The seed that a round of a run has: the run's own in the first.
fn round_seed(seed: u64, round: u64) -> u64 {
    seed.wrapping_add(round.wrapping_mul(1_000_003))
}

/// How many cases a round has: the aimed ones, and as many random ones again.
fn round_length(cases: &Cases) -> usize {
    2 * cases.aimed()
}

/// The cases of the stored stream.
fn stored_cases() -> Vec<Case> {
    let cases = Cases::new(STORED_SEED, Scale::Small);
    (0..cases.aimed() + STORED_RANDOM).map(|number| cases.case(number)).collect()
}

/// Fails where the table was not reached, or passed.
fn whole(seen: &Seen) -> Result<(), String> {
    let faults = seen.faults();
    if faults.is_empty() { Ok(()) } else { Err(format!("the table is not met:\n  {}", faults.join("\n  "))) }
}

/// Writes the stored stream and what must be printed for it.
pub fn store(folder: &str) -> Run {
    let (mut bytes, mut seen) = (vec![], Seen::default());
    let cases = stored_cases();
    for case in &cases {
        case.write(&mut bytes);
        seen.note(case, &case.expected());
    }
    whole(&seen)?;
    let text = stream::printed(&cases);
    let put = |name: &str, bytes: &[u8]| std::fs::write(format!("{folder}/{name}"), bytes).map_err(|e| format!("{folder}/{name}: {e}"));
    put("stdin", &bytes)?;
    put("stdout", text.as_bytes())?;
    Ok(format!("{} cases, {} bytes in, {} bytes out, all {} lines of the table", cases.len(), bytes.len(), text.len(), seen.len()))
}

/// Prints a case, what must come of it and, where a library is linked, what comes of it.
pub fn replay(seed: u64, number: usize) -> Run {
    let case = Cases::new(seed, Scale::Any).case(number);
    let hex: String = case.file.iter().map(|byte| format!("{byte:02X} ")).collect();
    println!("file {hex}\nmarking {:?}\nlist {:02X?}\noutput {} bytes\nrow {}", case.marking, case.list, case.output.len(), case.row);
    let expected = case.expected();
    println!("must be:\n{}", stream::text(number, case.call, &expected));
    #[cfg(linked)]
    {
        let library = Library::new();
        library.announce(seed, number);
        let written = library.run(&case, number)?;
        println!("is:\n{}", stream::text(number, case.call, &written));
        if written != expected {
            return Err("differs".to_string());
        }
    }
    Ok("alike, as far as it was run".to_string())
}

/// Fresh cases against the library, for so many seconds, but one round at least.
#[cfg(linked)]
pub fn fresh(seconds: u64, seed: u64) -> Run {
    let (library, mut seen, start) = (Library::new(), Seen::default(), Instant::now());
    let (mut count, mut round) = (0, 0);
    while round == 0 || start.elapsed() < Duration::from_secs(seconds) {
        let seed = round_seed(seed, round);
        let cases = Cases::new(seed, Scale::Any);
        for number in 0..round_length(&cases) {
            let case = cases.case(number);
            let expected = case.expected();
            seen.note(&case, &expected);
            if !Library::takes(&case) {
                continue;
            }
            library.announce(seed, number);
            let written = library.run(&case, number);
            if written.as_ref() != Ok(&expected) {
                return Err(format!("seed {seed} case {number} differs: {}\n  tests/run replay {seed} {number}", difference(&case, &expected, &written)));
            }
            count += 1;
            if round > 0 && start.elapsed() >= Duration::from_secs(seconds) {
                break;
            }
        }
        round += 1;
    }
    whole(&seen)?;
    Ok(format!("{count} cases from seed {seed} on: alike; all {} lines of the table, each {} times or more", seen.len(), seen.least()))
}

#[cfg(linked)]
fn difference(case: &Case, expected: &stream::Outcome, written: &Result<stream::Outcome, String>) -> String {
    match written {
        Err(why) => format!("{}: {why}", case.call.name()),
        Ok(written) if written.said != expected.said => format!("{}: must be {:?}, is {:?}", case.call.name(), expected.said, written.said),
        Ok(_) => format!("{}: a lent buffer", case.call.name()),
    }
}

/// The stored stream on the library.
#[cfg(linked)]
pub fn stored(folder: &str) -> Run {
    let bytes = std::fs::read(format!("{folder}/stdin")).map_err(|e| format!("{folder}/stdin: {e}"))?;
    let cases = stream::read_all(&bytes).ok_or("no stream")?;
    let library = Library::new();
    let mut text = String::new();
    for (number, case) in cases.iter().enumerate() {
        let written = library.run(case, number).map_err(|why| format!("stored case {}: {why}", number + 1))?;
        text += &stream::text(number + 1, case.call, &written);
    }
    let expected = std::fs::read_to_string(format!("{folder}/stdout")).map_err(|e| format!("{folder}/stdout: {e}"))?;
    if text == expected { Ok(format!("{} stored cases: alike", cases.len())) } else { Err(first_difference(&expected, &text)) }
}

/// The first line that differs, with the case that it belongs to.
fn first_difference(expected: &str, written: &str) -> String {
    let mut case = "";
    let mut lines = written.lines();
    for must in expected.lines() {
        case = if must.starts_with("case ") { must } else { case };
        let is = lines.next().unwrap_or("nothing");
        if must != is {
            let cut = |line: &str| line.chars().take(200).collect::<String>();
            return format!("{case}\n  must be {}\n  is      {}", cut(must), cut(is));
        }
    }
    "more lines than there must be".to_string()
}

/// Writes the stream of so many cases of a seed.
pub fn stream(seed: u64, first: usize, count: usize) -> Run {
    let cases = Cases::new(seed, Scale::Any);
    let mut bytes = vec![];
    (first..first + count).for_each(|number| cases.case(number).write(&mut bytes));
    std::io::stdout().write_all(&bytes).map_err(|e| e.to_string())?;
    Ok(format!("{count} cases of seed {seed} from {first} on"))
}

/// Reads a stream, and writes what must be printed for it.
pub fn printed() -> Run {
    let cases = stream::read_all(&input()?).ok_or("no stream")?;
    print!("{}", stream::printed(&cases));
    Ok(format!("{} cases", cases.len()))
}

fn input() -> Result<Vec<u8>, String> {
    let mut bytes = vec![];
    std::io::stdin().read_to_end(&mut bytes).map_err(|e| e.to_string())?;
    Ok(bytes)
}

/// What a program writes for what it reads.
fn written(path: &str, bytes: &[u8]) -> Result<Vec<u8>, String> {
    let mut child = Command::new(path).stdin(Stdio::piped()).stdout(Stdio::piped()).spawn().map_err(|e| format!("{path}: {e}"))?;
    let mut stdin = child.stdin.take().ok_or("no standard input")?;
    let bytes = bytes.to_vec();
    let feeding = std::thread::spawn(move || drop(stdin.write_all(&bytes)));
    let output = child.wait_with_output().map_err(|e| format!("{path}: {e}"))?;
    drop(feeding.join());
    if output.status.success() { Ok(output.stdout) } else { Err(format!("{path} failed: {}", output.status)) }
}

/// Fresh cases on the program `cases`, for so many seconds.
pub fn program(path: &str, seconds: u64, seed: u64) -> Run {
    let (mut seen, start) = (Seen::default(), Instant::now());
    let (mut count, mut round) = (0, 0);
    while round == 0 || start.elapsed() < Duration::from_secs(seconds) {
        let seed = round_seed(seed, round);
        let cases = Cases::new(seed, Scale::Any);
        for first in (0..round_length(&cases)).step_by(BATCH) {
            let batch: Vec<Case> = (first..first + BATCH).map(|number| cases.case(number)).collect();
            batch.iter().for_each(|case| seen.note(case, &case.expected()));
            let mut bytes = vec![];
            batch.iter().for_each(|case| case.write(&mut bytes));
            let (expected, is) = (stream::printed(&batch), String::from_utf8_lossy(&written(path, &bytes)?).into_owned());
            if is != expected {
                return Err(format!("seed {seed}, cases from {first} on (the first is case 1): {}", first_difference(&expected, &is)));
            }
            count += batch.len();
        }
        round += 1;
    }
    whole(&seen)?;
    Ok(format!("{count} cases from seed {seed} on: alike; all {} lines of the table, each {} times or more", seen.len(), seen.least()))
}

/// Fresh net files on the program `unfold`, for so many seconds.
pub fn unfolds(path: &str, seconds: u64, seed: u64) -> Run {
    let start = Instant::now();
    let mut count = 0;
    let (mut files, mut refused) = (0, 0);
    while start.elapsed() < Duration::from_secs(seconds) {
        let mut dice = Dice::new(seed, count);
        let file = match dice.below(3) {
            0 => nets::careless(&mut dice, Scale::Any),
            1 => crate::cases::damage::damaged(&mut Dice::new(seed, !count), &nets::sound(&mut dice, Scale::Any), false),
            _ => nets::sound(&mut dice, Scale::Any),
        };
        let expected = plain::program(&file);
        let is = written(path, &file)?;
        if is != expected {
            return Err(format!("seed {seed} file {count} differs\n  net {file:02X?}\n  must be {expected:02X?}\n  is      {is:02X?}"));
        }
        if expected.starts_with(b"refused") { refused += 1 } else { files += 1 }
        count += 1;
    }
    Ok(format!("{count} net files from seed {seed} on: alike; {files} flat files, {refused} refusals"))
}

/// The program of document 01: a net file in, its flat file or a line of refusal out.
pub fn unfold() -> Run {
    std::io::stdout().write_all(&plain::program(&input()?)).map_err(|e| e.to_string())?;
    Ok(String::new())
}
