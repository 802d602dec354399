//! What must be believed stands apart: neither a meaning (crates/*/specs/*.antt) nor the contract of a call for users
//! cites what describes the code's own tables and enums (crates/*/specs/internal/).
use std::fs;
use std::path::{Path, PathBuf};

/// The calls for users, and what the program writes; besides these every function of `codes` and `exports` is one.
const CALLS: [(&str, &str); 14] = [
    ("net_reader", "net_sizes"), ("net_reader", "start"), ("net_reader", "position"), ("net_reader", "head"), ("net_reader", "moved"),
    ("flat", "flat_sizes"), ("flat", "fire_images"), ("flat", "first_row"), ("coloured", "fire_orders"), ("search", "first_order"),
    ("unfolding", "unfold"), ("unfolding", "write_reply"), ("images", "images"), ("images", "row_order"),
];

/// The files of a folder of every crate with an ending, the folders in it left out.
fn files(folder: &str, ending: &str) -> Vec<(String, PathBuf)> {
    let mut found = Vec::new();
    for folder_of in fs::read_dir("crates").unwrap().map(|entry| entry.unwrap().path()) {
        let Ok(entries) = fs::read_dir(folder_of.join(folder)) else { continue };
        let name = folder_of.file_name().unwrap().to_string_lossy().into_owned();
        found.extend(entries.map(|entry| entry.unwrap().path()).filter(|path| path.to_string_lossy().ends_with(ending)).map(|path| (name.clone(), path)));
    }
    found
}

fn text(path: &Path) -> String {
    fs::read_to_string(path).unwrap()
}

fn words(line: &str) -> impl Iterator<Item = &str> {
    line.split(|c: char| !c.is_alphanumeric() && c != '_' && c != '-').filter(|word| !word.is_empty())
}

/// The names that a file imports from specs/internal/.
fn internal(source: &str) -> Vec<&str> {
    let imports = source.lines().filter(|line| line.contains("use Rattle") && line.contains(".internal."));
    imports.flat_map(|line| words(line.split_once(".internal.").unwrap().1)).collect()
}

/// Where `name` is a public function of a file: its contract.
fn contract<'a>(source: &'a str, name: &str) -> Option<&'a str> {
    let start = [format!("pub fn {name}("), format!("pub extern \"C\" fn {name}(")].iter().find_map(|head| source.find(head))?;
    let rest = &source[start..];
    Some(&rest[..rest.find("\n{").into_iter().chain(rest.find("\n    {")).min()?])
}

/// The names of specs/internal/ that a contract cites.
fn cited<'a>(source: &'a str, contract: &str) -> Vec<&'a str> {
    internal(source).into_iter().filter(|name| words(contract).any(|word| word == *name)).collect()
}

#[test]
fn meanings_cite_meanings() {
    let meanings: Vec<_> = files("specs", ".antt").into_iter().filter(|(_, path)| !path.ends_with("Lib.antt") && !path.ends_with("internal.antt")).collect();
    assert!(meanings.len() > 20);
    for (_, path) in meanings {
        assert_eq!(internal(&text(&path)), Vec::<&str>::new(), "{}", path.display());
    }
}

#[test]
fn public_contracts_cite_meanings() {
    let sources: Vec<(String, String)> = files("src", ".rt").into_iter().map(|(name, path)| (name, text(&path))).collect();
    for (of, call) in CALLS {
        let mut met = 0;
        for (_, source) in sources.iter().filter(|(name, _)| name == of) {
            let Some(contract) = contract(source, call) else { continue };
            assert!(contract.contains("ensures"), "{of}::{call} says nothing");
            assert_eq!(cited(source, contract), Vec::<&str>::new(), "{of}::{call}");
            met += 1;
        }
        assert_eq!(met, 1, "{of}::{call} is not there once");
    }
    for (name, source) in sources.iter().filter(|(name, _)| name == "codes" || name == "exports") {
        assert_eq!(internal(source), Vec::<&str>::new(), "{name}");
    }
}

#[test]
fn a_contract_that_cites_them_is_seen() {
    let source = "ghost use Rattle.firing.specs.Firing.{fire};\nghost use Rattle.rows.specs.internal.Effects.{room, Effects};\n\npub fn call(s: &[u8]) -> u8\n    ensures { result ≤ room s.now }\n{\n    rooms\n}\n";
    assert_eq!(cited(source, contract(source, "call").unwrap()), ["room"]);
    assert_eq!(cited(&source.replace("room s", "fire s"), contract(&source.replace("room s", "fire s"), "call").unwrap()), Vec::<&str>::new());
}

/// The meanings that a meaning imports, as paths: of the crates here, and not of the kit's libraries.
fn imported(source: &str) -> Vec<String> {
    let imports = source.lines().filter_map(|line| line.split_once("use Rattle."));
    imports.filter_map(|(_, path)| {
        let (of, rest) = path.split_once(".specs.")?;
        let module = rest.split(['.', ' ']).next()?;
        (module != "declared" && Path::new("crates").join(of).is_dir()).then(|| format!("crates/{of}/specs/{module}.antt"))
    }).collect()
}

#[test]
fn what_a_meaning_imports_is_seen() {
    let source = "use Rattle.std.specs.Prelude.{◌≡◌}\nuse Rattle.net.specs.Net.{Net}\nuse Rattle.reading.specs.Reading as reading\nuse Rattle.flat.specs.declared.FireReply.TheVariants as told\n";
    assert_eq!(imported(source), ["crates/net/specs/Net.antt", "crates/reading/specs/Reading.antt"]);
}

/// docs/ARCHITECTURE.md gives an order in which what stands before a meaning is all that it needs, and leaves none out.
#[test]
fn the_order_of_reading_is_one() {
    let document = fs::read_to_string("docs/ARCHITECTURE.md").unwrap();
    let table = document.split_once("| document 01 | read |").unwrap().1.split_once("\n\n").unwrap().0;
    let order: Vec<&str> = table.split('`').filter(|word| word.starts_with("crates/")).collect();
    let mut met = 0;
    for (i, path) in order.iter().enumerate() {
        for needed in imported(&text(Path::new(path))) {
            assert!(order[..i].contains(&needed.as_str()), "{path} needs {needed}");
            met += 1;
        }
    }
    assert!(met > order.len());
    let aside = ["Replies.antt", "Limits.antt", "Formed.antt", "Heads.antt", "Lib.antt", "internal.antt"];
    for (_, path) in files("specs", ".antt") {
        let name = path.to_string_lossy().into_owned();
        assert!(order.contains(&name.as_str()) || aside.iter().any(|end| name.ends_with(end)), "{name} is left out");
    }
}
