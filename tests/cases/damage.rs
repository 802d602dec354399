//! Random damage to a file: bits, operands, command bytes, cuts, and commands put in, repeated, left out, swapped and moved.
use super::dice::Dice;
use crate::walk::{walk, width};

const EDGE_BYTES: [u8; 13] = [0, 1, 2, 15, 16, 31, 32, 63, 64, 65, 127, 128, 255];
pub const HEADS: [u8; 43] = [
    0x01, 0x10, 0x11, 0x12, 0x13, 0x14, 0x15, 0x16, 0x17, 0x18, 0x19, 0x1F, 0x20, 0x21, 0x22, 0x23, 0x24, 0x25, 0x30, 0x31, 0x32, 0x33, 0x40, 0x41,
    0x42, 0x43, 0x44, 0x02, 0x50, 0x51, 0x52, 0x53, 0x54, 0x5F, 0x00, 0x1A, 0x26, 0x34, 0x45, 0x55, 0x60, 0x61, 0xFF,
];

/// The file with one to three random damages; with more than one, faults compete.
pub fn damaged(dice: &mut Dice, file: &[u8], flat: bool) -> Vec<u8> {
    let mut commands = split(file, flat);
    for _ in 0..dice.among(&[1, 1, 1, 2, 2, 3]) {
        damage(dice, &mut commands);
    }
    commands.concat()
}

/// The commands of a file.
fn split(file: &[u8], flat: bool) -> Vec<Vec<u8>> {
    let steps = walk(file, flat, file.len()).steps;
    steps.iter().map(|step| file[step.at..step.at + 1 + width(step.byte)].to_vec()).collect()
}

fn damage(dice: &mut Dice, commands: &mut Vec<Vec<u8>>) {
    let i = dice.below(commands.len());
    let j = dice.below(commands.len() + 1);
    if commands.is_empty() {
        return commands.push(made_up(dice));
    }
    match dice.below(14) {
        0 | 1 if !commands[i].is_empty() => {
            let at = dice.below(commands[i].len());
            commands[i][at] ^= 1 << dice.below(8);
        }
        2 | 3 => set_operand(dice, &mut commands[i]),
        4 if !commands[i].is_empty() => commands[i][0] = dice.among(&HEADS),
        5 => {
            commands.truncate(i + 1);
            let length = dice.below(commands[i].len() + 1);
            commands[i].truncate(length);
        }
        6 => commands.insert(j, made_up(dice)),
        7 => commands.insert(i, commands[i].clone()),
        8 => commands.insert(j, commands[i].clone()),
        9 => drop(commands.remove(i)),
        10 => {
            let next = (i + 1).min(commands.len() - 1);
            commands.swap(i, next);
        }
        11 => commands.swap(i, j.min(i)),
        12 => {
            let command = commands.remove(i);
            commands.insert(j.min(commands.len()), command);
        }
        _ => commands.push((0..dice.among(&[1, 2, 5])).map(|_| dice.among(&HEADS)).collect()),
    }
}

/// Sets an operand's byte to an edge, or the last ones to 0.
fn set_operand(dice: &mut Dice, command: &mut [u8]) {
    let length = command.len();
    if length < 2 {
        return;
    }
    if dice.percent(30) {
        command[(length - 2).max(1)..].fill(0);
    } else {
        command[1 + dice.below(length - 1)] = dice.among(&EDGE_BYTES);
    }
}

/// A stray byte, or a command with random operands.
fn made_up(dice: &mut Dice) -> Vec<u8> {
    let head = dice.among(&HEADS);
    let mut command = vec![head];
    for _ in 0..width(head) {
        let edge = dice.among(&EDGE_BYTES);
        command.push(dice.among(&[0, 0, 1, edge]));
    }
    command
}
