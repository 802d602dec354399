//! The implementation held against document 01's own cases, every refusal at its place, and the likeness of drawing and flat net.
mod documents;
mod flat_refusals;
mod generator;
mod layers;
mod likeness;
mod meanings;
mod net_refusals;
mod other_refusals;
mod parameters;
mod two_gauge;

use crate::plain;
use crate::plain::Refusal;

pub const TWO_GAUGE: &str =
    "01 01 10 02 11 00 12 00 12 00 14 16 00 40 01 00 30 00 17 01 40 01 00 32 30 00 18 01 40 02 00 30 00 19 00 00 00 03 00 1F";
pub const TWO_GAUGE_FLAT: &str = "02 01 50 03 00 50 00 00 50 00 00 50 00 00 51 52 00 00 01 00 53 03 00 01 00 54 02 00 02 00
    51 52 01 00 01 00 53 02 00 01 00 54 03 00 02 00 5F";

/// The bytes that hexadecimal digits tell, blanks left out.
fn hex(text: &str) -> Vec<u8> {
    let digits: Vec<u8> = text.chars().filter_map(|c| c.to_digit(16)).map(|d| d as u8).collect();
    digits.chunks_exact(2).map(|pair| 16 * pair[0] + pair[1]).collect()
}

/// A net file: the edition, hexadecimal parts, the end.
fn net(parts: &str) -> Vec<u8> {
    hex(&format!("01 01 {parts} 1F"))
}

/// A flat file: the edition, hexadecimal parts, the end.
fn flat(parts: &str) -> Vec<u8> {
    hex(&format!("02 01 {parts} 5F"))
}

/// The text so many times.
fn times(text: &str, count: usize) -> String {
    text.repeat(count)
}

/// Transition 0 with one colour.
fn order(colour: u8) -> [u8; 6] {
    [0x60, 0, colour, 0, 0, 0]
}

fn image(row: u32) -> Vec<u8> {
    let mut out = vec![0x61];
    out.extend(row.to_le_bytes());
    out
}

fn refused<T>(number: u8, place: usize) -> Result<T, Refusal> {
    Err(Refusal { number, place })
}

/// The flat file that the program writes.
fn unfolded(file: &[u8]) -> Vec<u8> {
    plain::program(file)
}
