//! What a run of cases reached, and the table of all that can occur by document 01: each refusal at each command byte and in
//! each place where a command must stand, faults that compete, each answer of each engine, each limit at its edge. A run that
//! leaves out a line of the table has failed, and so has one that reaches a line that is not in it.
use crate::plain;
use crate::stream::{Call, Case, Outcome, Said, CALLS};
use crate::walk::{walk, width, Need, Step, Walk, FLAT_NEEDS, NET_NEEDS};
use std::collections::BTreeMap;

/// How often each fact occurred.
#[derive(Default)]
pub struct Seen(BTreeMap<String, u64>);

impl Seen {
    /// Counts what comes of a case.
    pub fn note(&mut self, case: &Case, outcome: &Outcome) {
        for fact in facts(case, outcome) {
            *self.0.entry(fact).or_default() += 1;
        }
    }

    /// The lines of the table that did not occur, and those that occurred and are not in it.
    pub fn faults(&self) -> Vec<String> {
        let table = table();
        let left_out = table.iter().filter(|fact| !self.0.contains_key(*fact)).map(|fact| format!("did not occur: {fact}"));
        let beyond = self.0.keys().filter(|fact| !table.contains(fact)).map(|fact| format!("is not in the table: {fact}"));
        left_out.chain(beyond).collect()
    }

    /// How often the rarest fact occurred.
    pub fn least(&self) -> u64 {
        self.0.values().min().copied().unwrap_or(0)
    }

    pub fn len(&self) -> usize {
        self.0.len()
    }
}

const DEEPEST: usize = 16;
const OPERANDS: [u8; 14] = [0x01, 0x10, 0x11, 0x12, 0x13, 0x16, 0x17, 0x18, 0x19, 0x30, 0x31, 0x40, 0x41, 0x44];
const FLAT_OPERANDS: [u8; 5] = [0x02, 0x50, 0x52, 0x53, 0x54];
const OPENERS: [u8; 15] = [0x20, 0x21, 0x22, 0x23, 0x24, 0x25, 0x30, 0x31, 0x32, 0x33, 0x40, 0x41, 0x42, 0x43, 0x44];
const ENDS: [&str; 5] = ["0x14", "0x19", "0x1F", "a stray byte", "the file's end"];

/// Where a file can end before a needed command, and the last command in front of that.
pub const CUTS: [(Need, &[u8]); 13] = [
    (Need::Edition, &[]),
    (Need::Set, &[0x01, 0x10]),
    (Need::Variable, &[0x11]),
    (Need::Place, &[0x12, 0x13]),
    (Need::GuardOrArc, &[0x14]),
    (Need::Arc, &[0x20, 0x30, 0x31, 0x41]),
    (Need::Tokens, &[0x19]),
    (Need::Guard, &[0x15, 0x21, 0x22, 0x23, 0x20, 0x30, 0x31]),
    (Need::Colour, &[0x24, 0x25, 0x32, 0x33, 0x40, 0x30, 0x31]),
    (Need::Term, &[0x16, 0x17, 0x18, 0x42, 0x43, 0x44, 0x30, 0x31, 0x41]),
    (Need::FlatEdition, &[]),
    (Need::FlatPlace, &[0x02, 0x50]),
    (Need::FlatArc, &[0x51, 0x52, 0x53, 0x54]),
];

/// What is out of range at a command, in net files and in flat files.
pub const RANGES: [(u8, &[&str]); 15] = [
    (0x01, &["0", "too high"]),
    (0x10, &["0", "too high"]),
    (0x11, &["set"]),
    (0x12, &["set"]),
    (0x13, &["first set", "second set"]),
    (0x16, &["place"]),
    (0x17, &["place"]),
    (0x18, &["place"]),
    (0x19, &["place", "rank"]),
    (0x30, &["variable"]),
    (0x31, &["set", "colour"]),
    (0x02, &["0", "too high"]),
    (0x52, &["place", "weight"]),
    (0x53, &["place", "weight"]),
    (0x54, &["place", "weight"]),
];

/// The lines of the table.
pub fn table() -> Vec<String> {
    let mut out = strays_and_cuts();
    for number in [2, 3, 5, 6, 7, 8, 9] {
        out.push(format!("net {number} within a transition of 5 variables"));
        out.push(format!("net {number} within a transition that is too wide"));
    }
    for end in ENDS {
        out.extend([format!("net 10 ended by {end}"), format!("net 11 ended by {end}")]);
    }
    for (byte, whys) in RANGES {
        let kind = if byte == 0x02 || byte > 0x50 { "flat" } else { "net" };
        out.extend(whys.iter().map(|why| format!("{kind} 5 at {byte:#04X}: {why}")));
    }
    for byte in [0x10, 0x11, 0x12, 0x13] {
        out.extend([format!("net 5 at {byte:#04X} where there are enough"), format!("net 2 within {byte:#04X} where there are enough")]);
    }
    for byte in [0x52, 0x53, 0x54] {
        out.push(format!("flat 5 at {byte:#04X} out of order"));
    }
    out.extend(OPENERS.map(|byte| format!("net 7 at {byte:#04X}")));
    out.extend([0x16, 0x17, 0x18, 0x19].map(|byte| format!("net 9 at {byte:#04X}")));
    for (byte, last) in [(0x52, 0x53), (0x52, 0x54), (0x53, 0x54), (0x52, 0x52), (0x53, 0x53), (0x54, 0x54)] {
        let relations: &[&str] = if byte == last { &["lower", "same"] } else { &["lower", "same", "higher"] };
        out.extend(relations.iter().map(|relation| format!("flat 9 at {byte:#04X} after {last:#04X}, {relation} place")));
    }
    let others = "net 1; net 4 at 0x10; net 4 at 0x11; net 4 at 0x12 by number; net 4 at 0x13 by number; net 4 at 0x12 by colours;
        net 4 at 0x13 by colours; net 4 at 0x14; flat 4 at 0x50; flat 4 at 0x51; flat 2 within 0x50 where there are enough;
        net 6 at 0x24; net 6 at 0x25; net 6 at 0x40; net 6 at 0x40 of a pair: first; net 6 at 0x40 of a pair: second;
        net 8 at 0x42; net 8 at 0x44; net 10 where 11 is due; net 10 at the last transition, ended by 0x14; net 11 at the last
        transition, ended by 0x14; net 11 by the sum; net 15; flat 15";
    out.extend(others.split(';').map(|line| line.split_whitespace().collect::<Vec<_>>().join(" ")));
    CALLS.iter().for_each(|&call| out.extend(call_table(call)));
    out.extend(edges_table());
    out
}

/// The lines of refusals 2 and 3.
fn strays_and_cuts() -> Vec<String> {
    let mut out = vec![];
    for (kind, needs) in [("net", &NET_NEEDS[..]), ("flat", &FLAT_NEEDS)] {
        for need in needs {
            let strays = (0..=255u8).filter(|byte| !need.allowed().contains(byte));
            out.extend(strays.map(|byte| format!("{kind} 3 at {byte:#04X}, {need:?} needed")));
        }
    }
    for (need, lasts) in CUTS {
        let kind = if FLAT_NEEDS.contains(&need) { "flat" } else { "net" };
        out.extend(lasts.iter().map(|last| format!("{kind} 2 after {last:#04X}, {need:?} needed")));
        if lasts.is_empty() {
            out.push(format!("{kind} 2 at the start"));
        }
    }
    for (kind, bytes) in [("net", &OPERANDS[..]), ("flat", &FLAT_OPERANDS)] {
        for &byte in bytes {
            out.extend((0..width(byte)).map(|there| format!("{kind} 2 within {byte:#04X}, {there} of its bytes there")));
        }
    }
    for need in [Need::Guard, Need::Colour, Need::Term] {
        out.extend([format!("net 3 at level 17, {need:?} needed"), format!("net 2 at level 17, {need:?} needed")]);
    }
    out.extend([0x30, 0x31, 0x40, 0x41, 0x44].map(|byte| format!("net 2 at level 17 within {byte:#04X}")));
    out.extend([0x30, 0x31].map(|byte| format!("net 5 at level 17 at {byte:#04X}")));
    out
}

/// The lines of a call: its refusals, what it returns, its answers, how much it is lent.
fn call_table(call: Call) -> Vec<String> {
    let faults: &[u8] = if call.is_flat() { &[2, 3, 4, 5, 9, 15] } else { &[1, 2, 3, 4, 5, 6, 7, 8, 9, 10, 11, 15] };
    let mut out: Vec<String> = faults.iter().map(|number| format!("refused {number}")).collect();
    if call.has_marking() {
        out.extend(["refused 12: shorter", "refused 12: longer"].map(String::from));
    }
    if call.has_list() {
        out.extend((1..item(call)).map(|over| format!("refused 13: {over} over")));
        out.extend(["refused 13, 14 due", "answered none", "answered one", "answered many"].map(String::from));
    }
    if call.fires() {
        out.extend(["refused 12, 13 due", "refused 12, 14 due", "two fired in one list"].map(String::from));
        out.extend([0, 1, 3, 4, 5].map(|answer| format!("answer {answer}")));
    }
    if call.has_output() {
        out.extend(["refused 14: one short", "refused 14: shorter", "output just long enough", "output longer"].map(String::from));
    }
    let more: &[&str] = match call {
        Call::FlatSizes | Call::NetSizes => &["sizes"],
        Call::FirstRow | Call::FirstOrder => &["found", "found, not the first", "nothing", "nothing of none"],
        Call::RowOrder => &["order", "order of row 0", "order of the last row", "none: one past", "none: highest"],
        Call::Unfold => &["written"],
        Call::Images => &["row number", "no row: nothing named", "no row: guard"],
        Call::FireImages => &["1 by its byte", "1 by its row"],
        Call::FireOrders => &["answer 2", "1 by its byte", "1 by its transition", "1 by a colour", "1 by an unused byte"],
    };
    out.extend(more.iter().map(|line| line.to_string()));
    out.iter().map(|line| format!("{} {line}", call.name())).collect()
}

/// The lines of files that pass at a limit.
fn edges_table() -> Vec<String> {
    let mut out: Vec<String> = [0x20, 0x30, 0x31, 0x41].map(|byte| format!("net passes: level 16 at {byte:#04X}")).to_vec();
    out.extend([0x40, 0x41, 0x42, 0x43, 0x44].map(|byte| format!("net passes: ceiling 65,535 at {byte:#04X}")));
    let net = "16384 bytes; 16 sets; 32 variables; 32 places; 32 transitions; 4096 colours; 65536 bindings; a set of 1; a set of 64; 4 variables;
        a pair place; nothing but the ends; a sum of 16 counts; a sum of 17 counts; a sum of more than 32 counts; something else among 17 counts or more;
        every colour less one";
    out.extend(net.split(';').map(|line| format!("net passes: {}", line.trim())));
    out.extend(["4096 places", "65536 rows", "nothing but the ends"].map(|line| format!("flat passes: {line}")));
    out
}

/// The length of an item of a call's list.
fn item(call: Call) -> usize {
    if call.is_flat() { 5 } else { 6 }
}

/// All that a case reached.
fn facts(case: &Case, outcome: &Outcome) -> Vec<String> {
    let mut out = vec![];
    match outcome.said {
        Said::Refused { number: number @ 12..=14, .. } => {
            out.extend(call_refusal(case, number));
            out.extend(edges(case));
        }
        Said::Refused { number, place } => {
            out.extend(fault(case.call.is_flat(), &case.file, number, place));
            out.push(format!("{} refused {number}", case.call.name()));
        }
        said => {
            out.extend(returned(case, said, outcome).iter().map(|line| format!("{} {line}", case.call.name())));
            out.extend(edges(case));
        }
    }
    out
}

/// Refusals 12, 13 and 14, with what else was due.
fn call_refusal(case: &Case, number: u8) -> Vec<String> {
    let item = item(case.call);
    let count = case.list.len() / item;
    let needed = if case.call == Call::Images { 5 * count } else { count };
    let (ragged, short) = (case.list.len() % item != 0, case.output.len() < needed);
    let flat = case.call.is_flat();
    let places = if flat { plain::flat_sizes(&case.file).map_or(0, |s| s.0) } else { plain::net_sizes(&case.file).map_or(0, |s| s.0) };
    let mut out = match number {
        12 => vec![format!("refused 12: {}", if case.marking.len() < places { "shorter" } else { "longer" })],
        13 => vec![format!("refused 13: {} over", case.list.len() % item)],
        _ if case.call == Call::Unfold => {
            let fits = plain::unfold(&case.file, &mut vec![0; case.output.len() + 1]).is_ok();
            vec![format!("refused 14: {}", if fits { "one short" } else { "shorter" })]
        }
        _ => vec![format!("refused 14: {}", if case.output.len() + 1 == needed { "one short" } else { "shorter" })],
    };
    if case.call.fires() && number == 12 {
        out.extend(ragged.then(|| "refused 12, 13 due".to_string()));
        out.extend(short.then(|| "refused 12, 14 due".to_string()));
    }
    out.extend((number == 13 && short).then(|| "refused 13, 14 due".to_string()));
    out.iter().map(|line| format!("{} {line}", case.call.name())).collect()
}

/// What a call returned that was not refused.
fn returned(case: &Case, said: Said, outcome: &Outcome) -> Vec<String> {
    let mut out = vec![];
    let mut say = |line: &str| out.push(line.to_string());
    let lent = |needed: usize| if case.output.len() == needed { "output just long enough" } else { "output longer" };
    match said {
        Said::FlatSizes { .. } | Said::NetSizes { .. } => say("sizes"),
        Said::Row { tried, .. } | Said::FirstOrder { tried, .. } => say(if tried == 1 { "found" } else { "found, not the first" }),
        Said::Nothing { tried } => say(if tried == 0 { "nothing of none" } else { "nothing" }),
        Said::Order(_) => {
            say("order");
            if case.row == 0 {
                say("order of row 0");
            }
            if plain::row_order(&case.file, case.row + 1) == Ok(None) {
                say("order of the last row");
            }
        }
        Said::NoOrder if case.row == u32::MAX => say("none: highest"),
        Said::NoOrder if case.row == 0 || plain::row_order(&case.file, case.row - 1) != Ok(None) => say("none: one past"),
        Said::NoOrder | Said::Refused { .. } => {}
        Said::Written(length) => {
            say("written");
            say(lent(length));
        }
        Said::Answered(count) => {
            say(["answered none", "answered one", "answered many"][count.min(2)]);
            say(lent(if case.call == Call::Images { 5 * count } else { count }));
            out.extend(answers(case, outcome, count));
        }
    }
    out
}

/// What the items of a list were answered, and why.
fn answers(case: &Case, outcome: &Outcome, count: usize) -> Vec<String> {
    let items = case.list.chunks_exact(item(case.call));
    if case.call == Call::Images {
        let transitions = plain::net_sizes(&case.file).map_or(0, |sizes| sizes.1);
        return outcome.output.chunks_exact(5).zip(items).map(|(image, order)| {
            let none = image[1..] == [255; 4];
            let named = order[0] == 0x60 && (order[1] as usize) < transitions && why_unnamed(case, order).is_none();
            (if !none { "row number" } else if named { "no row: guard" } else { "no row: nothing named" }).to_string()
        }).collect();
    }
    let answers = &outcome.output[..count];
    let mut out: Vec<String> = answers.iter().map(|answer| format!("answer {answer}")).collect();
    out.extend((answers.iter().filter(|&&a| a == 0).count() > 1).then(|| "two fired in one list".to_string()));
    for (item, _) in items.zip(answers).filter(|(_, &answer)| answer == 1) {
        let why = if case.call == Call::FireOrders {
            why_unnamed(case, item).unwrap_or("1 by nothing")
        } else if item[0] != 0x61 {
            "1 by its byte"
        } else {
            "1 by its row"
        };
        out.push(why.to_string());
    }
    out
}

/// Why six bytes name no binding.
fn why_unnamed(case: &Case, order: &[u8]) -> Option<&'static str> {
    let transitions = crate::cases::lists::transitions_of(&case.file);
    let Some(sizes) = transitions.get(order[1] as usize) else {
        return Some(if order[0] != 0x60 { "1 by its byte" } else { "1 by its transition" });
    };
    if order[0] != 0x60 {
        Some("1 by its byte")
    } else if sizes.iter().zip(&order[2..]).any(|(&size, &colour)| colour as usize >= size) {
        Some("1 by a colour")
    } else {
        order[2 + sizes.len()..].iter().any(|&byte| byte != 0).then_some("1 by an unused byte")
    }
}

// ---- Faults of files ----

/// What the walk up to a place says of the net so far.
struct Before<'a> {
    file: &'a [u8],
    steps: &'a [Step],
}

impl Before<'_> {
    fn operand(&self, step: &Step, i: usize) -> usize {
        self.file[step.at + 1 + i] as usize
    }

    fn all(&self, bytes: &[u8]) -> Vec<&Step> {
        self.steps.iter().filter(|step| bytes.contains(&step.byte)).collect()
    }

    /// The size of a set.
    fn size(&self, set: usize) -> usize {
        self.all(&[0x10]).get(set).map_or(0, |step| self.operand(step, 0))
    }

    /// The sets of a place.
    fn sets(&self, place: usize) -> Vec<usize> {
        self.all(&[0x12, 0x13]).get(place).map_or(vec![], |step| (0..width(step.byte)).map(|i| self.operand(step, i)).collect())
    }

    fn colours(&self, place: usize) -> usize {
        self.sets(place).iter().map(|&set| self.size(set)).product()
    }

    /// How many bindings the transitions have before and with the last one, and how many variables that one uses.
    fn bindings(&self) -> (usize, usize, usize) {
        let variables = self.all(&[0x11]);
        let (mut before, mut here, mut used): (usize, usize, Vec<usize>) = (0, 0, vec![]);
        for step in self.steps {
            if step.byte == 0x14 {
                before += here;
                (here, used) = (1, vec![]);
            }
            if step.byte == 0x30 && !used.contains(&self.operand(step, 0)) {
                used.push(self.operand(step, 0));
                here *= self.size(self.operand(variables[self.operand(step, 0)], 0));
            }
        }
        (before, before + here, used.len())
    }
}

/// What a fault of a file is: its number, the command or what had to stand there, and what it competed with.
fn fault(flat: bool, file: &[u8], number: u8, place: usize) -> Vec<String> {
    let kind = if flat { "flat" } else { "net" };
    if number == 1 {
        return vec!["net 1".to_string()];
    }
    let w = walk(file, flat, place);
    let before = Before { file, steps: &w.steps };
    let mut out = match number {
        2 => cut(kind, file, &w),
        3 => stray(kind, file, &w, place),
        4 => vec![format!("{kind} 4 at {:#04X}{}", file[place], overfull(&before, file[place]))],
        5 => range(kind, file, &w, place),
        6 => vec![format!("net 6 at {:#04X}{}", file[place], mixed(file, &w, place))],
        9 if flat => vec![out_of_order(file, &w, place)],
        10 | 11 => ended(file, number, place),
        15 => vec![format!("{kind} 15{}", if w.need == Need::Nothing && w.end == place { "" } else { " not after the end" })],
        _ => vec![format!("{kind} {number} at {:#04X}", file[place])],
    };
    let inside = !flat && matches!(number, 2..=9) && (matches!(w.need, Need::Guard | Need::Colour | Need::Term) || is_arc(file, &w));
    if inside {
        let (_, with, used) = before.bindings();
        out.extend((used > 4).then(|| format!("net {number} within a transition of 5 variables")));
        out.extend((used < 5 && with > 65536).then(|| format!("net {number} within a transition that is too wide")));
    }
    out
}

/// Whether an arc, or a guard out of its place, stands at the walk's end.
fn is_arc(file: &[u8], w: &Walk) -> bool {
    matches!(w.need, Need::GuardOrArc | Need::Arc) && matches!(file.get(w.end), Some(0x15..=0x18))
}

fn enough(file: &[u8], w: &Walk, byte: u8) -> bool {
    let before = Before { file, steps: &w.steps };
    match byte {
        0x10 => before.all(&[0x10]).len() == 16,
        0x11 => before.all(&[0x11]).len() == 32,
        0x12 | 0x13 => before.all(&[0x12, 0x13]).len() == 32,
        0x50 => before.all(&[0x50]).len() == 4096,
        _ => false,
    }
}

fn cut(kind: &str, file: &[u8], w: &Walk) -> Vec<String> {
    let mut out = vec![];
    let Some(&byte) = file.get(w.end) else {
        let last = w.steps.last().map(|step| step.byte);
        out.push(last.map_or(format!("{kind} 2 at the start"), |last| format!("{kind} 2 after {last:#04X}, {:?} needed", w.need)));
        out.extend((w.level == DEEPEST + 1).then(|| format!("{kind} 2 at level 17, {:?} needed", w.need)));
        return out;
    };
    out.push(format!("{kind} 2 within {byte:#04X}, {} of its bytes there", file.len() - w.end - 1));
    out.extend((w.level == DEEPEST + 1).then(|| format!("{kind} 2 at level 17 within {byte:#04X}")));
    out.extend(enough(file, w, byte).then(|| format!("{kind} 2 within {byte:#04X} where there are enough")));
    out
}

fn stray(kind: &str, file: &[u8], w: &Walk, place: usize) -> Vec<String> {
    let mut out = vec![format!("{kind} 3 at {:#04X}, {:?} needed{}", file[place], w.need, if w.end == place { "" } else { ", elsewhere" })];
    out.extend((w.level == DEEPEST + 1).then(|| format!("{kind} 3 at level 17, {:?} needed", w.need)));
    out
}

fn overfull(before: &Before, byte: u8) -> &'static str {
    match byte {
        0x12 | 0x13 if before.all(&[0x12, 0x13]).len() == 32 => " by number",
        0x12 | 0x13 => " by colours",
        _ => "",
    }
}

fn range(kind: &str, file: &[u8], w: &Walk, place: usize) -> Vec<String> {
    let before = Before { file, steps: &w.steps };
    let (byte, low) = (file[place], file[place + 1] as usize);
    let word = |at: usize| u16::from_le_bytes([file[place + at], file[place + at + 1]]) as usize;
    let sets = before.all(&[0x10]).len();
    let why = match byte {
        0x01 | 0x02 | 0x10 => if low == 0 { "0" } else { "too high" },
        0x13 => if low >= sets { "first set" } else { "second set" },
        0x11 | 0x12 => "set",
        0x16..=0x18 => "place",
        0x19 => if low >= before.all(&[0x12, 0x13]).len() { "place" } else if word(2) >= before.colours(low) { "rank" } else { "nothing" },
        0x30 => "variable",
        0x31 => if low >= sets { "set" } else { "colour" },
        _ => if word(1) >= before.all(&[0x50]).len() { "place" } else { "weight" },
    };
    let mut out = vec![format!("{kind} 5 at {byte:#04X}: {why}")];
    out.extend(enough(file, w, byte).then(|| format!("{kind} 5 at {byte:#04X} where there are enough")));
    out.extend((w.level == DEEPEST + 1).then(|| format!("{kind} 5 at level 17 at {byte:#04X}")));
    if let (0x52..=0x54, Some(last)) = (byte, w.steps.last().filter(|step| step.byte > 0x51)) {
        let last = (last.byte, u16::from_le_bytes([file[last.at + 1], file[last.at + 2]]) as usize);
        out.extend(((byte, word(1)) <= last).then(|| format!("flat 5 at {byte:#04X} out of order")));
    }
    out
}

/// Which colour of a pair is of another set than the place.
fn mixed(file: &[u8], w: &Walk, place: usize) -> &'static str {
    let before = Before { file, steps: &w.steps };
    let arc = w.steps.iter().rev().find(|step| matches!(step.byte, 0x15..=0x18)).filter(|step| step.byte != 0x15);
    let sets = arc.map_or(vec![], |arc| before.sets(before.operand(arc, 0)));
    if file[place] != 0x40 || sets.len() < 2 {
        return "";
    }
    let mut at = place + 3;
    while matches!(file[at], 0x32 | 0x33) {
        at += 1;
    }
    let named = file[at + 1] as usize;
    let set = if file[at] == 0x31 { named } else { before.operand(before.all(&[0x11])[named], 0) };
    if set != sets[0] { " of a pair: first" } else { " of a pair: second" }
}

fn out_of_order(file: &[u8], w: &Walk, place: usize) -> String {
    let word = |at: usize| u16::from_le_bytes([file[at + 1], file[at + 2]]);
    let Some(last) = w.steps.last() else { return "flat 9 at the start".to_string() };
    let relation = ["lower", "same", "higher"][(word(place).cmp(&word(last.at)) as i8 + 1) as usize];
    format!("flat 9 at {:#04X} after {:#04X}, {relation} place", file[place], last.byte)
}

/// What ended a transition of too many variables or too wide a binding.
fn ended(file: &[u8], number: u8, place: usize) -> Vec<String> {
    let whole = walk(file, false, file.len());
    let start = whole.steps.iter().position(|step| step.at == place).unwrap_or(0);
    let end = whole.steps[start + 1..].iter().position(|step| matches!(step.byte, 0x14 | 0x19 | 0x1F));
    let steps = &whole.steps[..end.map_or(whole.steps.len(), |end| start + 1 + end)];
    let by = match end {
        Some(end) => format!("{:#04X}", whole.steps[start + 1 + end].byte),
        None if whole.end == file.len() => "the file's end".to_string(),
        None => "a stray byte".to_string(),
    };
    let before = Before { file, steps };
    let (sum, with, used) = before.bindings();
    let mut out = vec![format!("net {number} ended by {by}")];
    let last = before.all(&[0x14]).len() == 32 && by == "0x14";
    out.extend(last.then(|| format!("net {number} at the last transition, ended by 0x14")));
    out.extend((number == 10 && with > 65536).then(|| "net 10 where 11 is due".to_string()));
    out.extend((number == 11 && with - sum <= 65536).then(|| "net 11 by the sum".to_string()));
    let right = if number == 10 { used > 4 } else { used <= 4 && with > 65536 };
    out.extend((!right).then(|| format!("net {number} without its reason")));
    out
}

// ---- Files that pass ----

/// The limits at which a file passes.
fn edges(case: &Case) -> Vec<String> {
    let (flat, file) = (case.call.is_flat(), &case.file);
    let w = walk(file, flat, file.len());
    let before = Before { file, steps: &w.steps };
    let count = |bytes: &[u8]| before.all(bytes).len();
    let mut out = vec![];
    let mut edge = |reached: bool, line: &str| {
        if reached {
            out.push(format!("{} passes: {line}", if flat { "flat" } else { "net" }));
        }
    };
    edge(w.steps.len() == 2, "nothing but the ends");
    if flat {
        edge(count(&[0x50]) == 4096, "4096 places");
        edge(count(&[0x51]) == 65536, "65536 rows");
        return out;
    }
    edge(file.len() == 16384, "16384 bytes");
    edge(count(&[0x10]) == 16, "16 sets");
    edge(count(&[0x11]) == 32, "32 variables");
    edge(count(&[0x12, 0x13]) == 32, "32 places");
    edge(count(&[0x13]) > 0, "a pair place");
    edge(count(&[0x14]) == 32, "32 transitions");
    let sizes: Vec<usize> = before.all(&[0x10]).iter().map(|step| before.operand(step, 0)).collect();
    edge(sizes.contains(&1), "a set of 1");
    edge(sizes.contains(&64), "a set of 64");
    let (places, _, bindings) = plain::net_sizes(file).unwrap_or_default();
    edge(places == 4096, "4096 colours");
    edge(bindings == 65536, "65536 bindings");
    edge(crate::cases::lists::transitions_of(file).iter().any(|used| used.len() == 4), "4 variables");
    for pair in w.steps.windows(2).filter(|pair| matches!(pair[0].byte, 0x16..=0x18)) {
        let (counts, others, _) = operands(file, pair[1].at);
        edge(counts == 16 && others == 0, "a sum of 16 counts");
        edge(counts == 17 && others == 0, "a sum of 17 counts");
        edge(counts > 32 && others == 0, "a sum of more than 32 counts");
        edge(counts > 16 && others > 0, "something else among 17 counts or more");
        edge(pair[1].byte == 0x43 && file[pair[1].at + 1] == 0x41 && file[pair[1].at + 4] == 0x40, "every colour less one");
    }
    for step in &w.steps {
        edge(step.level == DEEPEST, &format!("level 16 at {:#04X}", step.byte));
        let full = step.need == Need::Term && ceiling(file, step.at).0 == 65535;
        edge(full, &format!("ceiling 65,535 at {:#04X}", step.byte));
    }
    out
}

/// How many operands of a sum are counts of one colour or pair, how many are something else, and where the next expression starts.
fn operands(file: &[u8], at: usize) -> (usize, usize, usize) {
    if file[at] == 0x42 {
        let (counts, others, middle) = operands(file, at + 1);
        let (more, strange, next) = operands(file, middle);
        return (counts + more, others + strange, next);
    }
    let count = (file[at] == 0x40) as usize;
    (count, 1 - count, ceiling(file, at).1)
}

/// The ceiling of the arc expression at a place, and where the next one starts.
fn ceiling(file: &[u8], at: usize) -> (u64, usize) {
    let word = || u16::from_le_bytes([file[at + 1], file[at + 2]]) as u64;
    match file[at] {
        0x40 | 0x41 => {
            let mut next = at + 3;
            while matches!(file[next], 0x30..=0x33) {
                next += 1 + width(file[next]);
            }
            (word(), next)
        }
        0x44 => {
            let (inner, next) = ceiling(file, at + 3);
            (word() * inner, next)
        }
        byte => {
            let (first, middle) = ceiling(file, at + 1);
            let (second, next) = ceiling(file, middle);
            (if byte == 0x42 { first + second } else { first }, next)
        }
    }
}
