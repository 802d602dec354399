//! Files that are made to reach one line of the table each, out of random nets and flat files.
use super::dice::Dice;
use super::flats::{self, put_arc};
use super::nets::{self, Maker, Scale};
use crate::coverage::{CUTS, RANGES};
use crate::walk::{walk, width, Need, Walk, FLAT_NEEDS, NET_NEEDS};

type Make = Box<dyn Fn(&mut Dice, Scale) -> Vec<u8>>;

/// A file to be made: for which side, with which refusal (0: none), and how.
pub struct FileAim {
    pub flat: bool,
    pub number: u8,
    pub make: Make,
}

fn aim(out: &mut Vec<FileAim>, flat: bool, number: u8, make: impl Fn(&mut Dice, Scale) -> Vec<u8> + 'static) {
    out.push(FileAim { flat, number, make: Box::new(make) });
}

/// All files to be made.
pub fn file_aims() -> Vec<FileAim> {
    let mut out = vec![];
    strays(&mut out);
    cuts(&mut out);
    ranges(&mut out);
    overfull(&mut out);
    expressions(&mut out);
    doubled(&mut out);
    bindings(&mut out);
    ends(&mut out);
    limits(&mut out);
    out
}

// ---- Files with a fault at a chosen place ----

/// A net in which every command stands, each in every place where it may.
pub const RICH: &[u8] = &[
    0x01, 1, 0x10, 2, 0x10, 3, 0x11, 0, 0x11, 1, 0x12, 0, 0x13, 0, 1, 0x14, 0x15, 0x22, 0x23, 0x21, 0x20, 0x24, 0x30, 0, 0x31, 0, 1, 0x22, 0x25, 0x32, 0x30,
    1, 0x33, 0x31, 1, 2, 0x23, 0x24, 0x31, 0, 0, 0x30, 0, 0x20, 0x16, 0, 0x42, 0x40, 1, 0, 0x30, 0, 0x43, 0x44, 1, 0, 0x41, 2, 0, 0x40, 1, 0, 0x31, 0, 1, 0x17,
    1, 0x43, 0x42, 0x40, 1, 0, 0x31, 0, 0, 0x31, 1, 0, 0x41, 1, 0, 0x40, 1, 0, 0x30, 0, 0x30, 1, 0x18, 0, 0x41, 3, 0, 0x14, 0x15, 0x24, 0x30, 0, 0x30, 0, 0x16,
    0, 0x40, 1, 0, 0x31, 0, 0, 0x14, 0x19, 0, 0, 0, 3, 0, 0x1F,
];
/// The same for flat files.
pub const RICH_FLAT: &[u8] = &[
    0x02, 1, 0x50, 3, 0, 0x50, 0, 0, 0x51, 0x52, 0, 0, 1, 0, 0x53, 1, 0, 1, 0, 0x54, 1, 0, 2, 0, 0x51, 0x51, 0x53, 0, 0, 1, 0, 0x51, 0x52, 1, 0, 2, 0, 0x5F,
];

/// A sound file and a place in it that fits; the rich file where no random one has such a place.
fn find(dice: &mut Dice, scale: Scale, flat: bool, fits: impl Fn(&[u8], &Walk, usize) -> bool) -> (Vec<u8>, usize) {
    for tries in 0..12 {
        let file = match (flat, tries < 11) {
            (false, true) => nets::sound(dice, scale),
            (false, false) => RICH.to_vec(),
            (true, true) => flats::sound(dice, scale),
            (true, false) => RICH_FLAT.to_vec(),
        };
        let steps = walk(&file, flat, file.len());
        let mut places: Vec<usize> = (0..=steps.steps.len()).filter(|&i| fits(&file, &steps, i)).collect();
        if scale == Scale::Small {
            places.truncate(1);
        }
        if !places.is_empty() {
            let i = dice.among(&places);
            let at = steps.steps.get(i).map_or(steps.end, |step| step.at);
            return (file, at);
        }
    }
    panic!("the rich file has no such place");
}

/// What must stand in front of the step with this number.
fn need_at(w: &Walk, i: usize) -> Need {
    w.steps.get(i).map_or(w.need, |step| step.need)
}

fn strays(out: &mut Vec<FileAim>) {
    for (flat, needs) in [(false, &NET_NEEDS[..]), (true, &FLAT_NEEDS)] {
        for &need in needs {
            for byte in (0..=255u8).filter(|byte| !need.allowed().contains(byte)) {
                aim(out, flat, 3, move |dice, scale| {
                    let (mut file, at) = find(dice, scale, flat, |_, w, i| need_at(w, i) == need);
                    let rest = file.split_off(at);
                    file.push(byte);
                    let tail = if scale == Scale::Small { 0 } else { dice.below(4) };
                    match tail {
                        0 => {}
                        1 => file.extend(rest),
                        2 => file.extend(rest.get(1..).unwrap_or(&[])),
                        _ => (0..dice.below(6)).for_each(|_| file.push(dice.byte())),
                    }
                    file
                });
            }
        }
    }
}

fn cuts(out: &mut Vec<FileAim>) {
    for (need, lasts) in CUTS {
        let flat = FLAT_NEEDS.contains(&need);
        for last in lasts.iter().map(|&last| Some(last)).chain(lasts.is_empty().then_some(None)) {
            aim(out, flat, 2, move |dice, scale| {
                let fits = |_: &[u8], w: &Walk, i: usize| need_at(w, i) == need && (i == 0) == last.is_none() && (i == 0 || Some(w.steps[i - 1].byte) == last);
                let (mut file, at) = find(dice, scale, flat, fits);
                file.truncate(at);
                file
            });
        }
    }
    for byte in (0..=255u8).filter(|&byte| width(byte) > 0) {
        let flat = byte == 0x02 || byte >= 0x50;
        for there in 0..width(byte) {
            aim(out, flat, 2, move |dice, scale| {
                let (mut file, at) = find(dice, scale, flat, |_, w, i| w.steps.get(i).is_some_and(|step| step.byte == byte));
                file.truncate(at + 1 + there);
                file
            });
        }
    }
}

fn ranges(out: &mut Vec<FileAim>) {
    for (byte, whys) in RANGES {
        let flat = byte == 0x02 || byte > 0x50;
        for &why in whys {
            aim(out, flat, 5, move |dice, scale| {
                let (mut file, at) = find(dice, scale, flat, |_, w, i| w.steps.get(i).is_some_and(|step| step.byte == byte));
                put_out_of_range(dice, &mut file, at, flat, why);
                file
            });
        }
    }
    for byte in 0x52..=0x54 {
        aim(out, true, 5, move |_, _| {
            let mut file = vec![0x02, 1, 0x50, 0, 0, 0x50, 0, 0, 0x51];
            put_arc(&mut file, byte, 1, 1);
            put_arc(&mut file, byte, 0, 0);
            file.push(0x5F);
            file
        });
    }
}

/// Puts an operand of the command at a place out of range.
fn put_out_of_range(dice: &mut Dice, file: &mut [u8], at: usize, flat: bool, why: &str) {
    let w = walk(file, flat, at);
    let count = |bytes: &[u8]| w.steps.iter().filter(|step| bytes.contains(&step.byte)).count();
    let mut past = |n: usize| dice.among(&[n as u8, n as u8, 255]);
    match (file[at], why) {
        (_, "0") => file[at + 1] = 0,
        (0x10, _) => file[at + 1] = past(65),
        (0x01 | 0x02, _) => file[at + 1] = past(2),
        (_, "set" | "first set") => file[at + 1] = past(count(&[0x10])),
        (_, "second set") => file[at + 2] = past(count(&[0x10])),
        (0x30, _) => file[at + 1] = past(count(&[0x11])),
        (0x31, _) => file[at + 2] = past(size_of(file, &w, file[at + 1]) as usize),
        (0x19, "rank") => {
            let rank = colours_of(file, &w, file[at + 1]);
            file[at + 2..at + 4].copy_from_slice(&rank.to_le_bytes());
        }
        (0x16..=0x19, _) => file[at + 1] = past(count(&[0x12, 0x13])),
        (_, "place") => {
            let place = dice.among(&[count(&[0x50]) as u16, 65535]);
            file[at + 1..at + 3].copy_from_slice(&place.to_le_bytes());
        }
        _ => file[at + 3..at + 5].fill(0),
    }
}

fn size_of(file: &[u8], w: &Walk, set: u8) -> u8 {
    w.steps.iter().filter(|step| step.byte == 0x10).nth(set as usize).map_or(1, |step| file[step.at + 1])
}

fn colours_of(file: &[u8], w: &Walk, place: u8) -> u16 {
    let step = w.steps.iter().filter(|step| matches!(step.byte, 0x12 | 0x13)).nth(place as usize);
    step.map_or(0, |step| file[step.at + 1..step.at + 1 + width(step.byte)].iter().map(|&set| size_of(file, w, set) as u16).product())
}

/// One thing too many, and faults that come before that one.
fn overfull(out: &mut Vec<FileAim>) {
    let head = |sets: usize| [vec![0x01, 1], [0x10, 1].repeat(sets)].concat();
    let things: [(u8, usize, &'static [u8]); 4] = [(0x10, 16, &[1]), (0x11, 32, &[0]), (0x12, 32, &[0]), (0x13, 32, &[0, 0])];
    for (byte, most, operands) in things {
        let full = move |dice: &mut Dice| {
            let mut file = head((byte > 0x10) as usize);
            for _ in 0..most {
                let byte = if byte > 0x11 { dice.among(&[0x12, 0x13]) } else { byte };
                file.push(byte);
                file.extend([if byte == 0x10 { 1 } else { 0 }, 0].iter().take(width(byte)));
            }
            file.push(byte);
            file
        };
        aim(out, false, 4, move |dice, _| [full(dice), operands.to_vec(), vec![0x1F]].concat());
        aim(out, false, 5, move |dice, _| [full(dice), vec![65; operands.len()], vec![0x1F]].concat());
        aim(out, false, 2, move |dice, _| full(dice));
        aim(out, false, 0, move |dice, _| {
            let mut file = full(dice);
            *file.last_mut().unwrap() = 0x1F;
            file
        });
    }
    for last in [&[0x12, 1][..], &[0x13, 1, 1], &[0x13, 0, 0]] {
        aim(out, false, 4, move |_, _| [&[0x01, 1, 0x10, 64, 0x10, 1, 0x13, 0, 0], last, &[0x1F]].concat());
    }
    aim(out, false, 0, |_, _| vec![0x01, 1, 0x10, 64, 0x13, 0, 0, 0x1F]);
    aim(out, false, 4, |dice, _| [vec![0x01, 1], vec![0x14; 33], vec![dice.byte()]].concat());
    aim(out, false, 0, |_, _| [vec![0x01, 1], vec![0x14; 32], vec![0x1F]].concat());
    let places = |count: usize, end: &[u8]| [vec![0x02, 1], [0x50, 1, 0].repeat(count), end.to_vec()].concat();
    aim(out, true, 4, move |_, _| places(4097, &[0x5F]));
    aim(out, true, 2, move |_, _| places(4096, &[0x50, 0]));
    aim(out, true, 0, move |_, _| places(4096, &[0x5F]));
    aim(out, true, 4, |_, _| [vec![0x02, 1], vec![0x51; 65537], vec![0x5F]].concat());
    aim(out, true, 0, |_, _| [vec![0x02, 1], vec![0x51; 65536], vec![0x5F]].concat());
}

// ---- Expressions ----

/// A net of two sets, two variables, a single place and a pair place, up to a transition's 0x14.
const OPENED: &[u8] = &[0x01, 1, 0x10, 2, 0x10, 2, 0x11, 0, 0x11, 1, 0x12, 0, 0x13, 0, 1, 0x14];
const GUARDS: [u8; 6] = [0x20, 0x21, 0x22, 0x23, 0x24, 0x25];
const COLOURS: [u8; 4] = [0x30, 0x31, 0x32, 0x33];
const TERMS: [u8; 5] = [0x40, 0x41, 0x42, 0x43, 0x44];

/// A file up to where an expression of a kind must stand, at a level.
fn down_to(dice: &mut Dice, need: Need, level: usize) -> Vec<u8> {
    let mut file = OPENED.to_vec();
    let arc = need == Need::Term || need == Need::Colour && dice.percent(50);
    file.extend(if arc { &[0x16, 0][..] } else { &[0x15] });
    let turn = if need == Need::Colour { 1 + dice.below(level - 1) } else { level };
    // Some have a whole first operand, which must not be at level 17.
    for here in 1..turn {
        match (arc, dice.below(if here < 16 { 4 } else { 3 })) {
            (true, 0) => file.push(0x42),
            (true, 1) => file.push(0x43),
            (true, 2) => file.extend([0x44, 1, 0]),
            (true, _) => file.extend([0x43, 0x41, 1, 0]),
            (false, 0) => file.push(0x22),
            (false, 1) => file.push(0x23),
            (false, 2) => file.push(0x21),
            (false, _) => file.extend([0x23, 0x20]),
        }
    }
    if need == Need::Colour {
        match (arc, dice.below(if turn < 16 { 3 } else { 2 })) {
            (true, _) => file.extend([0x40, 1, 0]),
            (false, 0) => file.push(0x24),
            (false, 1) => file.push(0x25),
            (false, _) => file.extend([0x24, 0x30, 0]),
        }
        (turn + 1..level).for_each(|_| file.push(dice.among(&[0x32, 0x33])));
    }
    file
}

/// The file with the expression that stands at its end, and all that is open, brought to an end.
fn closed(mut file: Vec<u8>) -> Vec<u8> {
    loop {
        let w = walk(&file, false, file.len());
        match w.need {
            Need::Guard => file.push(0x20),
            Need::Colour => file.extend([0x30, 0]),
            Need::Term => file.extend([0x41, 1, 0]),
            _ => break,
        }
    }
    file.push(0x1F);
    file
}

fn expressions(out: &mut Vec<FileAim>) {
    for (need, openers) in [(Need::Guard, &GUARDS[..]), (Need::Colour, &COLOURS), (Need::Term, &TERMS)] {
        openers.iter().for_each(|&byte| levels(out, need, byte));
        aim(out, false, 2, move |dice, _| down_to(dice, need, 17));
        aim(out, false, 3, move |dice, _| [down_to(dice, need, 17), vec![0x1F]].concat());
    }
    mixed(out);
    heavy(out);
}

/// A command that opens an expression at levels 16 and 17: whole, cut, and with operands out of range.
fn levels(out: &mut Vec<FileAim>, need: Need, byte: u8) {
    let at_level = move |dice: &mut Dice, level: usize, operand: u8| {
        let mut file = down_to(dice, need, level);
        file.push(byte);
        file.extend(vec![operand; width(byte)]);
        file
    };
    aim(out, false, 7, move |dice, _| closed(at_level(dice, 17, 0)));
    if [0x20, 0x30, 0x31, 0x41].contains(&byte) {
        aim(out, false, 0, move |dice, _| closed(at_level(dice, 16, 0)));
    }
    if width(byte) > 0 {
        aim(out, false, 2, move |dice, _| {
            let mut file = at_level(dice, 17, 0);
            file.truncate(file.len() - 1 - dice.below(width(byte)));
            file
        });
    }
    if [0x30, 0x31].contains(&byte) {
        aim(out, false, 5, move |dice, _| at_level(dice, 17, 2));
    }
}

fn mixed(out: &mut Vec<FileAim>) {
    for byte in [0x24, 0x25] {
        aim(out, false, 6, move |dice, _| {
            let level = 1 + dice.below(15);
            let mut file = down_to(dice, Need::Guard, level);
            file.push(byte);
            file.extend(if dice.percent(50) { &[0x30, 0, 0x30, 1][..] } else { &[0x31, 1, 0, 0x31, 0, 0] });
            file
        });
    }
    for (place, colours) in [(0, &[1][..]), (1, &[1, 1]), (1, &[1, 0]), (1, &[0, 0])] {
        aim(out, false, 6, move |dice, _| {
            let mut file = [OPENED, &[dice.among(&[0x16, 0x17, 0x18]), place, 0x40, 1, 0]].concat();
            for &set in colours {
                file.extend(if dice.percent(50) { &[0x32][..] } else { &[] });
                file.extend(if dice.percent(50) { vec![0x30, set] } else { vec![0x31, set, 1] });
            }
            file.push(0x1F);
            file
        });
    }
}

/// An arc expression of this command whose ceiling is this, out of leaves.
fn weighing(dice: &mut Dice, byte: u8, ceiling: u32, out: &mut Vec<u8>) {
    let leaf = |out: &mut Vec<u8>, count: u32| {
        let [low, high] = (count as u16).to_le_bytes();
        out.extend([0x41, low, high]);
    };
    match byte {
        0x40 => out.extend([0x40, ceiling as u8, (ceiling >> 8) as u8, 0x30, 0]),
        0x41 => leaf(out, ceiling),
        0x44 => {
            let factor = dice.among(&[1, 3, 5, 15, 17, 51, 85, 255, 257, 65535, 2, 256, 32768]);
            let factor = if ceiling % factor == 0 && ceiling / factor <= 65535 { factor } else { if ceiling % 2 == 0 { 2 } else { 1 } };
            out.extend([0x44, factor as u8, (factor >> 8) as u8]);
            leaf(out, ceiling / factor);
        }
        _ => {
            let high = if byte == 0x43 { ceiling } else { ceiling - dice.among(&[1, 2, 32768]) };
            out.push(byte);
            leaf(out, high.min(65535));
            leaf(out, if byte == 0x43 { 7 } else { ceiling - high.min(65535) });
        }
    }
}

fn heavy(out: &mut Vec<FileAim>) {
    for byte in [0x42, 0x44] {
        for over in [65536, 65538, 131070] {
            aim(out, false, 8, move |dice, _| {
                let level = 1 + dice.below(8);
                let mut file = down_to(dice, Need::Term, level);
                weighing(dice, byte, over, &mut file);
                file
            });
        }
    }
    aim(out, false, 8, |_, _| [OPENED, &[0x16, 0, 0x44, 0, 0, 0x44, 0, 1, 0x41, 0, 1, 0x1F]].concat());
    for byte in TERMS {
        aim(out, false, 0, move |dice, _| {
            let mut file = [OPENED, &[dice.among(&[0x16, 0x17, 0x18]), 0]].concat();
            weighing(dice, byte, 65535, &mut file);
            closed(file)
        });
    }
}

// ---- Arcs and tokens ----

fn doubled(out: &mut Vec<FileAim>) {
    for kind in [0x16, 0x17, 0x18] {
        aim(out, false, 9, move |dice, _| {
            let mut file = OPENED.to_vec();
            for other in [0x16, 0x17, 0x18] {
                if other == kind || dice.percent(50) {
                    file.extend([other, 0, 0x41, 1, 0]);
                }
            }
            file.extend([kind, 0, dice.among(&[0x41, 0x1F, 0x20])]);
            file
        });
    }
    aim(out, false, 9, |dice, _| {
        let mut file = OPENED[..OPENED.len() - 1].to_vec();
        let rank = dice.below(4) as u8;
        file.extend([0x19, 1, rank, 0, dice.below(2) as u8, 0]);
        file.extend(if dice.percent(50) { &[0x19, 0, 1, 0, 2, 0][..] } else { &[] });
        file.extend([0x19, 1, rank, 0, dice.below(2) as u8, 0, 0x1F]);
        file
    });
    for byte in 0x52..=0x54u8 {
        for last in byte..=0x54 {
            for place in 0..=2 {
                if byte == last && place == 2 {
                    continue;
                }
                aim(out, true, 9, move |dice, _| {
                    let mut file = vec![0x02, 1, 0x50, 0, 0, 0x50, 0, 0, 0x50, 0, 0, 0x51];
                    put_arc(&mut file, last, 1, 1 + dice.below(3) as u16);
                    put_arc(&mut file, byte, place, 1 + dice.below(3) as u16);
                    file.push(dice.among(&[0x5F, 0x51, 0]));
                    file
                });
            }
        }
    }
}

// ---- Bindings ----

/// A net of five variables of a set of this size and one of 17, after so many empty transitions, up to a last 0x14 that
/// already has 5 variables or, of set size 64, too many bindings with 3.
fn crowded(before: usize, size: u8, used: u8) -> Vec<u8> {
    let mut file = vec![0x01, 1, 0x10, size, 0x10, 17];
    file.extend([0x11, 0].repeat(5));
    file.extend([0x11, 1, 0x12, 0]);
    file.extend(vec![0x14; before + 1]);
    file.push(0x15);
    for v in 1..used {
        file.extend([0x22, 0x24, 0x30, v - 1, 0x30, v - 1]);
    }
    file.extend([0x24, 0x30, used - 1, 0x31, 0, 0]);
    file
}

fn bindings(out: &mut Vec<FileAim>) {
    for (number, size, used) in [(10, 2, 5), (10, 64, 5), (11, 64, 3)] {
        for end in [&[0x14][..], &[0x19, 0, 0, 0, 1, 0], &[0x1F], &[], &[0x20], &[0x99], &[0x10, 1]] {
            aim(out, false, number, move |dice, _| [&crowded(dice.below(3), size, used), end].concat());
        }
        aim(out, false, number, move |_, _| [&crowded(31, size, used)[..], &[0x14, 0x1F]].concat());
        let inside: [(u8, &'static [u8]); 11] = [
            (2, &[0x16]), (2, &[0x16, 0]), (2, &[0x16, 0, 0x41, 0]), (3, &[0x15]), (3, &[0x16, 0, 0x20]), (5, &[0x17, 1, 0x41, 1, 0]),
            (6, &[0x18, 0, 0x40, 1, 0, 0x30, 5]), (8, &[0x16, 0, 0x44, 0, 1, 0x41, 0, 1]), (9, &[0x16, 0, 0x41, 1, 0, 0x16, 0]),
            (5, &[0x16, 0, 0x40, 1, 0, 0x30, 6]), (2, &[0x16, 0, 0x42, 0x41, 0, 0]),
        ];
        for (fault, bytes) in inside {
            aim(out, false, fault, move |_, _| [&crowded(0, size, used), bytes].concat());
        }
        aim(out, false, 7, move |_, _| [crowded(0, size, used), vec![0x16, 0], [0x44, 1, 0].repeat(16), vec![0x41, 0, 0]].concat());
    }
    // 64 x 64 x 16 bindings pass; one transition more does not.
    let widest = |after: &[u8]| {
        let head = [0x01, 1, 0x10, 64, 0x10, 16, 0x11, 0, 0x11, 0, 0x11, 1, 0x14, 0x15, 0x22, 0x24, 0x30, 0, 0x30, 1];
        [&head[..], &[0x25, 0x33, 0x30, 2, 0x31, 1, 0], after].concat()
    };
    aim(out, false, 0, move |_, _| widest(&[0x1F]));
    aim(out, false, 11, move |_, _| widest(&[0x14, 0x1F]));
    aim(out, false, 11, move |_, _| widest(&[0x14, 0x15, 0x20]));
    aim(out, false, 3, move |_, _| widest(&[0x14, 0x15, 0x20, 0x15]));
}

// ---- The ends of files ----

fn ends(out: &mut Vec<FileAim>) {
    for flat in [false, true] {
        aim(out, flat, 15, move |dice, scale| {
            let mut file = if flat { flats::sound(dice, scale) } else { nets::sound(dice, scale) };
            (0..1 + dice.below(3)).for_each(|_| file.push(dice.among(&[0, 0x1F, 0x5F, 0x14, 0x51, 255])));
            file
        });
    }
    aim(out, false, 0, |_, _| vec![0x01, 1, 0x1F]);
    aim(out, true, 0, |_, _| vec![0x02, 1, 0x5F]);
    aim(out, false, 1, |dice, _| {
        let mut file = longest(dice, 16384);
        file.push(0x1F);
        file
    });
    aim(out, false, 0, |dice, _| longest(dice, 16384));
}

/// A sound net file of this length: transitions and tokens.
fn longest(dice: &mut Dice, length: usize) -> Vec<u8> {
    let mut file = vec![0x01, 1, 0x10, 64, 0x13, 0, 0];
    let tokens = (length - file.len() - 1) / 6;
    file.resize(length - 1 - 6 * tokens, 0x14);
    let shift = dice.below(4096);
    for i in 0..tokens {
        let [low, high] = (((i + shift) % 4096) as u16).to_le_bytes();
        file.extend([0x19, 0, low, high, 1 + (i % 3) as u8, 0]);
    }
    file.push(0x1F);
    file
}

/// A net whose take is a sum of so many counts, one of them something else where it shall be strange, and whose put is every colour less one.
fn summed(dice: &mut Dice, scale: Scale, count: usize, strange: bool) -> Vec<u8> {
    let (lean, at) = (dice.below(3), if strange { dice.below(count) } else { count });
    let mut maker = Maker::new(dice, vec![], scale);
    (maker.sets, maker.variables, maker.places) = (vec![3, 7], vec![0, 1], vec![vec![0], vec![0, 1]]);
    maker.head();
    maker.out.extend([0x14, 0x16, 1]);
    maker.operands(1, 1, &[0, 1], (0..count, lean, at));
    maker.out.extend([0x17, 0]);
    maker.all_but_one(0, &[0, 1]);
    maker.tokens();
    [maker.out, vec![0x1F]].concat()
}

/// Shapes at the limits that pass.
fn limits(out: &mut Vec<FileAim>) {
    for broken in 4..=11 {
        aim(out, false, 0, move |dice, scale| Maker::new(dice, vec![broken], scale).net());
    }
    for (count, strange) in [(16, false), (17, false), (40, false), (40, true)] {
        aim(out, false, 0, move |dice, scale| summed(dice, scale, count, strange));
    }
    aim(out, false, 0, |_, _| RICH.to_vec());
    aim(out, true, 0, |_, _| RICH_FLAT.to_vec());
    aim(out, false, 0, |dice, scale| {
        let mut maker = Maker::new(dice, vec![], scale);
        (maker.sets, maker.variables) = (vec![1, 64, 2], vec![2, 2, 2, 2, 0]);
        maker.places = vec![vec![2], vec![0, 2]];
        maker.head();
        maker.out.extend([0x14, 0x15, 0x22, 0x22, 0x24, 0x30, 0, 0x30, 1, 0x25, 0x30, 2, 0x30, 3, 0x24, 0x30, 0, 0x30, 0]);
        maker.arc(0x16, 0, &[0, 1, 2, 3]);
        maker.arc(0x17, 1, &[0, 1, 2, 3]);
        maker.tokens();
        [maker.out, vec![0x1F]].concat()
    });
}
