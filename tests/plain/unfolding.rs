//! The unfolding, the images of orders, the way back from a row to its order, and the program.
use super::commands::{unless, Reading, Refusal};
use super::drawing::{named, order_of, ORDER};
use super::expressions::{Binding, Room};
use super::firing::Weight;
use super::net::{read, Net, Transition};
use super::Order;

const NO_ROW: u32 = u32::MAX;
const IMAGE: usize = 5;
const PROGRAM_BYTES: usize = 65536;

/// Writes the flat file of a net file, and gives its length.
pub fn unfold(file: &[u8], output: &mut [u8]) -> Reading<usize> {
    let net = read(file)?;
    let mut flat = vec![0x02, 1];
    for count in &net.initial {
        let [low, high] = count.to_le_bytes();
        flat.extend_from_slice(&[0x50, low, high]);
    }
    let (mut binding, mut room, mut weights) = ([0; 33], Room::default(), vec![]);
    for transition in &net.transitions {
        loop {
            if net.holds(transition, &binding) {
                write_row(&net, transition, &binding, (&mut room, &mut weights), &mut flat);
                unless(flat.len() < output.len(), 14, 0)?;
            }
            if !transition.advance(&mut binding) {
                break;
            }
        }
    }
    flat.push(0x5F);
    unless(flat.len() <= output.len(), 14, 0)?;
    output[..flat.len()].copy_from_slice(&flat);
    Ok(flat.len())
}

/// Writes the row of a binding whose guard holds.
fn write_row(net: &Net, transition: &Transition, binding: &Binding, (room, weights): (&mut Room, &mut Vec<Weight>), flat: &mut Vec<u8>) {
    flat.push(0x51);
    for (kind, arcs) in [(0x52, &transition.inputs), (0x53, &transition.outputs), (0x54, &transition.inhibitors)] {
        net.load(arcs, binding, room, weights);
        flat.reserve(5 * weights.len());
        for w in weights.iter() {
            let ([p, q], [v, w]) = (w.place.to_le_bytes(), w.weight.to_le_bytes());
            flat.extend_from_slice(&[kind, p, q, v, w]);
        }
    }
}

/// Writes the image of each order of a list, and gives how many there are.
pub fn images(file: &[u8], orders: &[u8], output: &mut [u8]) -> Reading<usize> {
    let net = read(file)?;
    unless(orders.len() % ORDER == 0, 13, 0)?;
    let count = orders.len() / ORDER;
    unless(IMAGE * count <= output.len(), 14, 0)?;
    let firsts = first_bindings(&net);
    let place = |order: &[u8]| {
        let within = named(&net, order)?.variables().iter().zip(&order[2..]);
        Some(firsts[order[1] as usize] + within.fold(0, |at, (used, &colour)| at * used.size as usize + colour as usize))
    };
    let places: Vec<Option<usize>> = orders.chunks_exact(ORDER).map(place).collect();
    let needed = places.iter().flatten().max().map_or(0, |last| last + 1);
    let rows = number_rows(&net, needed);
    for (place, image) in places.iter().zip(output.chunks_exact_mut(IMAGE)) {
        let row = place.map_or(NO_ROW, |at| rows[at]);
        image[0] = 0x61;
        image[1..].copy_from_slice(&row.to_le_bytes());
    }
    Ok(count)
}

/// The place of each transition's first binding among all bindings.
fn first_bindings(net: &Net) -> Vec<usize> {
    let before = net.transitions.iter().scan(0, |sum, t| Some(std::mem::replace(sum, *sum + t.bindings)));
    before.collect()
}

/// The row number of each binding in order, of so many at least; NO_ROW where the guard is false.
fn number_rows(net: &Net, needed: usize) -> Vec<u32> {
    let (mut rows, mut next, mut binding) = (Vec::with_capacity(needed), 0, [0; 33]);
    for transition in &net.transitions {
        if rows.len() >= needed {
            break;
        }
        if transition.guard.is_none() {
            rows.extend(next..next + transition.bindings as u32);
            next += transition.bindings as u32;
            continue;
        }
        loop {
            let holds = net.holds(transition, &binding);
            rows.push(if holds { next } else { NO_ROW });
            next += holds as u32;
            if !transition.advance(&mut binding) {
                break;
            }
        }
    }
    rows
}

/// The order of a row, none where there is no such row.
pub fn row_order(file: &[u8], row: u32) -> Reading<Option<Order>> {
    let net = read(file)?;
    let (mut left, mut binding) = (row as usize, [0; 33]);
    for (number, transition) in net.transitions.iter().enumerate() {
        if transition.guard.is_none() && transition.bindings <= left {
            left -= transition.bindings;
            continue;
        }
        loop {
            if net.holds(transition, &binding) {
                if left == 0 {
                    return Ok(Some(order_of(number, transition, &binding)));
                }
                left -= 1;
            }
            if !transition.advance(&mut binding) {
                break;
            }
        }
    }
    Ok(None)
}

/// What the program writes for what it reads: the flat file, or a line of refusal.
pub fn program(file: &[u8]) -> Vec<u8> {
    let mut output = vec![0; PROGRAM_BYTES];
    match unfold(file, &mut output) {
        Ok(length) => {
            output.truncate(length);
            output
        }
        Err(Refusal { number, place }) => format!("refused {number} at {place}\n").into_bytes(),
    }
}
