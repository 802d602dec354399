//! The documents name files and edits that are there, and every edit is named for the promise it shows.
use std::fs;
use std::path::Path;

const DOCUMENTS: [&str; 9] = [
    "README.md", "docs/ARCHITECTURE.md", "docs/BENCHMARK.md", "docs/DECISIONS.md", "docs/FORMATS.md", "tests/README.md",
    "examples/two-gauges/README.md", "examples/hold-line/README.md", "examples/pair-guards/README.md",
];

/// What stands between backticks in a text.
fn quoted(text: &str) -> impl Iterator<Item = &str> {
    text.lines().flat_map(|line| line.split('`').skip(1).step_by(2))
}

/// The paths of a text that begin with a folder of the repository, those with a star and those of what is built left out.
fn paths(text: &str) -> Vec<&str> {
    let words = text.split(|c: char| c.is_whitespace() || "`,;()|".contains(c)).map(|word| word.trim_end_matches(['.', ':']));
    words.filter(|word| ["crates/", "docs/", "tests/", "examples/", "include/", "bench/"].iter().any(|folder| word.starts_with(folder)) && !word.contains('*') && !word.contains("/out/")).collect()
}

#[test]
fn files_are_there() {
    for document in DOCUMENTS {
        let text = fs::read_to_string(document).unwrap();
        for path in paths(&text) {
            assert!(Path::new(path).exists(), "{document} names {path}");
        }
    }
}

#[test]
fn crates_are_there() {
    let list = fs::read_to_string("crates.txt").unwrap();
    let listed: Vec<&str> = list.lines().filter(|line| !line.starts_with('#')).filter_map(|line| line.split([' ', ':']).next().filter(|name| !name.is_empty())).collect();
    let text = fs::read_to_string("docs/ARCHITECTURE.md").unwrap();
    for name in &listed {
        assert!(text.contains(&format!("| `{name}`")) || text.contains(&format!("`{name}`, `")) || text.contains(&format!(", `{name}` |")), "no row for {name}");
    }
    assert!(listed.len() > 20);
}

#[test]
fn edits_are_there_and_named() {
    let text = fs::read_to_string("docs/DECISIONS.md").unwrap();
    let table = text.split_once("| call | wrong programs |").unwrap().1;
    let named: Vec<&str> = quoted(table).filter(|word| word.contains('/')).collect();
    for name in &named {
        let (of, label) = name.split_once('/').unwrap();
        assert!(Path::new("crates").join(of).join("must-fail").join(format!("{label}.edit")).exists(), "{name} is not there");
    }
    for folder in fs::read_dir("crates").unwrap().map(|entry| entry.unwrap().path()) {
        let Ok(edits) = fs::read_dir(folder.join("must-fail")) else { continue };
        for edit in edits.map(|entry| entry.unwrap().path()) {
            let name = format!("{}/{}", folder.file_name().unwrap().to_string_lossy(), edit.file_stem().unwrap().to_string_lossy());
            assert!(named.contains(&name.as_str()), "{name} is named for no promise");
        }
    }
}
