//! Changes the implementation in one spot at a time, builds the stand-in library out of it, and runs fresh cases on that: the
//! harness must tell. Prints the changes that it did not notice.
//!
//!     mutants TESTS OUT RUNNER SKIP      the folder of the tests, one to work in, the runner linked to OUT/libexports.so
use std::path::Path;
use std::process::{Command, ExitCode, Stdio};
use std::time::{Duration, Instant};

const SWAPS: [(&str, &str); 12] = [
    (" < ", " <= "), (" <= ", " < "), (" > ", " >= "), (" >= ", " > "), (" == ", " != "), (" != ", " == "), (" + ", " - "), (" - ", " + "), (" * ", " + "),
    (" && ", " || "), (" || ", " && "), ("..=", ".."),
];
const LONGEST: Duration = Duration::from_secs(60);

/// A change: the file, where in it, how many bytes are replaced, and by what.
struct Change {
    file: String,
    at: usize,
    length: usize,
    by: String,
}

/// The changes of one file, comments left out.
fn changes(file: &str, text: &str, out: &mut Vec<Change>) {
    let mut start = 0;
    for line in text.split_inclusive('\n') {
        let code = line.split("//").next().unwrap_or("");
        for (old, new) in SWAPS {
            let found = code.match_indices(old).map(|(at, _)| Change { file: file.to_string(), at: start + at, length: old.len(), by: new.to_string() });
            out.extend(found);
        }
        numbers(file, code, start, out);
        start += line.len();
    }
}

/// Each number made one higher.
fn numbers(file: &str, code: &str, start: usize, out: &mut Vec<Change>) {
    let bytes = code.as_bytes();
    let in_word = |i: usize| bytes[i].is_ascii_alphanumeric() || bytes[i] == b'_';
    let mut at = 0;
    while at < bytes.len() {
        let begin = at;
        while at < bytes.len() && in_word(at) {
            at += 1;
        }
        let word = &code[begin..at];
        let value = word.strip_prefix("0x").map_or_else(|| word.parse().ok(), |hex| u32::from_str_radix(hex, 16).ok());
        if let Some(value) = value {
            out.push(Change { file: file.to_string(), at: start + begin, length: word.len(), by: (value + 1).to_string() });
        }
        at += (begin == at) as usize;
    }
}

/// Runs a command with an end; none where it was broken off.
fn run(command: &mut Command) -> Option<bool> {
    let mut child = command.stdout(Stdio::null()).stderr(Stdio::null()).spawn().ok()?;
    let begin = Instant::now();
    while begin.elapsed() < LONGEST {
        if let Ok(Some(status)) = child.try_wait() {
            return Some(status.success());
        }
        std::thread::sleep(Duration::from_millis(20));
    }
    drop(child.kill());
    drop(child.wait());
    None
}

fn main() -> ExitCode {
    let words: Vec<String> = std::env::args().skip(1).collect();
    let [tests, out, runner, skip] = &words[..] else { return ExitCode::FAILURE };
    let (plain, copy) = (Path::new(tests).join("plain"), Path::new(out).join("plain"));
    std::fs::create_dir_all(&copy).expect("a folder to work in");
    std::fs::copy(Path::new(tests).join("stand_in.rs"), Path::new(out).join("stand_in.rs")).expect("the stand-in");
    let mut all = vec![];
    for entry in std::fs::read_dir(&plain).expect("the implementation") {
        let name = entry.expect("a file").file_name().into_string().expect("a name");
        let text = std::fs::read_to_string(plain.join(&name)).expect("its text");
        std::fs::write(copy.join(&name), &text).expect("its copy");
        changes(&name, &text, &mut all);
    }
    let (mut tried, mut missed) = (0, 0);
    for change in all.iter().step_by(skip.parse().unwrap_or(10)) {
        let text = std::fs::read_to_string(plain.join(&change.file)).expect("its text");
        let mut changed = text.clone();
        changed.replace_range(change.at..change.at + change.length, &change.by);
        std::fs::write(copy.join(&change.file), &changed).expect("the change");
        let library = format!("{out}/libexports.so");
        let built = run(Command::new("rustc").args(["--edition", "2021", "-O", "--crate-type", "cdylib", "-o", &library, &format!("{out}/stand_in.rs")]));
        if built == Some(true) {
            tried += 1;
            if run(Command::new(runner).args(["fresh", "0", "1"])) == Some(true) {
                missed += 1;
                let line = text[..change.at].matches('\n').count();
                println!("not noticed: {}:{}: {}", change.file, line + 1, changed.lines().nth(line).unwrap_or("").trim());
            }
        }
        std::fs::write(copy.join(&change.file), &text).expect("the text back");
    }
    println!("{tried} of {} changes tried, {missed} not noticed", all.len());
    ExitCode::SUCCESS
}
