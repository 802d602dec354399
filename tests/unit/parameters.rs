//! No function takes more than 8 parameters: what belongs together goes together, as the plan or a small struct.
use std::fs;
use std::path::Path;

/// The parameters between a function's brackets, which begin behind `open`: commas that stand in no brackets part them.
fn parameters(source: &str, open: usize) -> usize {
    let (mut depth, mut commas, mut last) = (1, 0, ' ');
    for c in source[open..].chars() {
        match c {
            '(' | '[' | '<' => depth += 1,
            ')' | ']' | '>' => depth -= 1,
            ',' if depth == 1 => commas += 1,
            _ => {}
        }
        if depth == 0 {
            break;
        }
        if !c.is_whitespace() {
            last = c;
        }
    }
    match last {
        ' ' => 0,
        ',' => commas,
        _ => commas + 1,
    }
}

/// Each function of a source file, by name, with its number of parameters.
fn functions(source: &str) -> Vec<(String, usize)> {
    let code: String = source.lines().map(|line| line.split("//").next().unwrap().to_string() + "\n").collect();
    let heads = code.match_indices("fn ").filter(|(at, _)| *at == 0 || code[..*at].ends_with([' ', '\n']));
    heads.filter_map(|(at, _)| {
        let rest = &code[at + 3..];
        let name: String = rest.chars().take_while(|c| c.is_alphanumeric() || *c == '_').collect();
        let open = rest.find('(')? + 1;
        (!name.is_empty()).then(|| (name, parameters(rest, open)))
    }).collect()
}

fn sources(folder: &Path, found: &mut Vec<(String, usize)>) {
    for path in fs::read_dir(folder).unwrap().map(|entry| entry.unwrap().path()) {
        if path.is_dir() {
            sources(&path, found);
        } else if path.extension().is_some_and(|ending| ending == "rt") {
            let of = |(name, count)| (format!("{} {name}", path.display()), count);
            found.extend(functions(&fs::read_to_string(&path).unwrap()).into_iter().map(of));
        }
    }
}

#[test]
fn parameters_are_counted() {
    assert_eq!(functions("fn a() {}\nfn b(x: &[u8; 32], y: (u8, u8)) -> u8\npub fn c<'a>(\n    x: u8,\n    y: u8,\n) // fn d(\n"), [("a".into(), 0), ("b".into(), 2), ("c".into(), 2)]);
}

#[test]
fn no_function_takes_more_than_eight() {
    let mut found = Vec::new();
    for folder in fs::read_dir("crates").unwrap().map(|entry| entry.unwrap().path()) {
        sources(&folder.join("src"), &mut found);
    }
    assert!(found.len() > 300);
    let many: Vec<_> = found.into_iter().filter(|(_, count)| *count > 8).collect();
    assert_eq!(many, []);
}
