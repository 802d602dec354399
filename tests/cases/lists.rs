//! Markings, lists of orders and images, and lent outputs, good and bad.
use super::dice::Dice;
use super::nets::some_count;
use crate::plain;
use crate::walk::walk;

/// What markings and lists are made for: the counts of a flat file, or of a net file's unfolding.
pub struct Shape {
    pub places: usize,
    pub rows: usize,
    near: Vec<(u16, u16)>, // flat places and weights that stand at them
    pub flat_length: usize,
}

/// The shape of a sound flat file; of none, where it is not sound.
pub fn shape_of_flat(file: &[u8]) -> Shape {
    let Ok((places, rows)) = plain::flat_sizes(file) else { return Shape { places: 0, rows: 0, near: vec![], flat_length: 3 } };
    let arcs = walk(file, true, file.len()).steps.into_iter().filter(|step| matches!(step.byte, 0x52..=0x54));
    let word = |at: usize| u16::from_le_bytes([file[at], file[at + 1]]);
    let near = arcs.map(|step| (word(step.at + 1), word(step.at + 3))).collect();
    Shape { places, rows, near, flat_length: file.len() }
}

/// The shape of a net file's unfolding, as far as it is not too long.
pub fn shape_of_net(file: &[u8]) -> Shape {
    let mut flat = vec![0; 1 << 17];
    match plain::unfold(file, &mut flat) {
        Ok(length) => shape_of_flat(&flat[..length]),
        Err(_) => Shape { places: plain::net_sizes(file).map_or(0, |sizes| sizes.0), ..shape_of_flat(&[]) },
    }
}

/// A marking near the weights of the rows, mostly of the right length.
pub fn marking(dice: &mut Dice, shape: &Shape) -> Vec<u16> {
    let mut near = vec![vec![]; shape.places];
    shape.near.iter().for_each(|&(place, weight)| near[place as usize].push(weight));
    let rich = dice.percent(40);
    let mut out: Vec<u16> = vec![];
    for weights in &near {
        let count = some_count(dice, if weights.is_empty() { &[1] } else { weights });
        out.push(if rich && dice.percent(60) { 3 } else { count });
    }
    if dice.percent(4) {
        let wrong = [out.len().saturating_sub(1), out.len() + 1, 2 * out.len() + 1, 0, 1];
        out.resize(dice.among(&wrong), 0);
    }
    out
}

/// The list, at times with bytes too many or too few at its end.
fn ragged(dice: &mut Dice, mut items: Vec<u8>) -> Vec<u8> {
    if dice.percent(5) {
        let wrong = [items.len().saturating_sub(1), items.len() + 1, items.len() + 2, items.len() + 3, items.len().saturating_sub(3), 1];
        items.resize(dice.among(&wrong), 0x60);
    }
    items
}

/// A lent output: as long as the answer, longer, or one too short; filled so that a stray write shows.
pub fn output(dice: &mut Dice, length: usize) -> Vec<u8> {
    let short = if dice.percent(40) { length.saturating_sub(1) } else { length };
    let length = dice.among(&[length, length, length + 1, length + 7, short]);
    let fill = dice.among(&[0xAA, 0x55, 7, 0]);
    vec![fill; length]
}

/// A list of images: rows that are there, others, and other command bytes.
pub fn images(dice: &mut Dice, shape: &Shape) -> Vec<u8> {
    let mut out = vec![];
    for _ in 0..dice.among(&[0, 1, 2, 3, 5, 8, 12]) {
        let row = dice.below(shape.rows);
        let beyond = row + 256 * dice.below(3);
        let other = dice.among(&[shape.rows, shape.rows + 1, 65536, 4294967295, beyond, row + (1 << 16), row + (1 << 24)]);
        let command = if dice.percent(94) { 0x61 } else { dice.among(&[0x60, 0, 0x51]) };
        out.push(command);
        out.extend((if dice.percent(75) { row } else { other } as u32).to_le_bytes());
    }
    ragged(dice, out)
}

/// A list of orders: bindings that are there, colours at the sets' ends, bytes where none is used. `transitions` has the set
/// sizes of each transition's variables.
pub fn orders(dice: &mut Dice, transitions: &[Vec<usize>]) -> Vec<u8> {
    let mut out = vec![];
    for _ in 0..dice.among(&[0, 1, 2, 3, 5, 8]) {
        let t = dice.below(transitions.len());
        let sizes: &[usize] = transitions.get(t).map_or(&[], |sizes| sizes);
        let mut order = [0x60, t as u8, 0, 0, 0, 0];
        for (i, &size) in sizes.iter().enumerate().take(4) {
            order[2 + i] = dice.below(size) as u8;
        }
        if dice.percent(20) {
            let i = dice.below(6);
            let edge = if i >= 2 && i - 2 < sizes.len() { sizes[i - 2] } else if i == 1 { transitions.len() } else { 1 };
            order[i] = dice.among(&[edge as u8, edge as u8, 0x61, 255, 0]);
        }
        out.extend(order);
    }
    ragged(dice, out)
}

/// The set sizes of each transition's variables, by the file's commands.
pub fn transitions_of(file: &[u8]) -> Vec<Vec<usize>> {
    let (mut sets, mut variables, mut out): (Vec<usize>, Vec<usize>, Vec<Vec<usize>>) = (vec![], vec![], vec![]);
    for step in walk(file, false, file.len()).steps {
        let operand = file.get(step.at + 1).copied().unwrap_or(0) as usize;
        match (step.byte, out.last_mut()) {
            (0x10, _) => sets.push(operand),
            (0x11, _) => variables.push(sets.get(operand).copied().unwrap_or(1)),
            (0x14, _) => out.push(vec![]),
            (0x30, Some(used)) if operand < 32 && !used.contains(&operand) => used.push(operand),
            _ => {}
        }
    }
    for used in &mut out {
        used.sort_unstable();
        used.iter_mut().for_each(|v| *v = variables.get(*v).copied().unwrap_or(1));
    }
    out
}
