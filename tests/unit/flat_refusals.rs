//! Every refusal of a flat file at its place.
use super::*;

/// All calls on flat files refuse the file so, and change no lent buffer.
fn is_refused(file: &[u8], number: u8, place: usize) {
    let (mut marking, mut answers) = ([7; 9], [0xAA; 9]);
    assert_eq!(plain::flat_sizes(file), refused(number, place), "{:02X?}", &file[..file.len().min(60)]);
    assert_eq!(plain::fire_images(file, &mut marking, b"\x61", &mut answers), refused(number, place));
    assert_eq!(plain::first_row(file, &marking), refused(number, place));
    assert_eq!((marking, answers), ([7; 9], [0xAA; 9]));
}

fn fails(parts: &str, number: u8, place: usize) {
    is_refused(&flat(parts), number, place);
}

#[test]
fn cut_off_2() {
    for length in 0..47 {
        is_refused(&hex(TWO_GAUGE_FLAT)[..length], 2, length);
    }
}

#[test]
fn stray_byte_3() {
    is_refused(&hex("01 01 1F"), 3, 0);
    fails("51 500000", 3, 3);
    fails("500000 520000 0100", 3, 5);
    fails("500000 540000 0000", 3, 5);
    fails("500000 51 55", 3, 6);
    fails("00", 3, 2);
}

#[test]
fn overfull_4() {
    assert_eq!(plain::flat_sizes(&flat(&times("500000", 4096))), Ok((4096, 0)));
    fails(&times("500000", 4097), 4, 2 + 3 * 4096);
    let cut = flat(&(times("500000", 4096) + "50 00"));
    is_refused(&cut[..cut.len() - 1], 2, 4 + 3 * 4096);
    assert_eq!(plain::flat_sizes(&flat(&times("51", 65536))), Ok((0, 65536)));
    fails(&times("51", 65537), 4, 2 + 65536);
}

#[test]
fn out_of_range_5() {
    is_refused(&hex("02 02 5F"), 5, 0);
    is_refused(&hex("02 00 5F"), 5, 0);
    fails("500000 51 520000 0000", 5, 6);
    fails("500000 51 520100 0100", 5, 6);
    fails("500000 51 530000 0100 530000 0000", 5, 11);
    fails("51 540000 0100", 5, 3);
}

#[test]
fn out_of_order_9() {
    let three = |arcs: &str| times("500000", 3) + "51" + arcs;
    assert_eq!(plain::flat_sizes(&flat(&three("520000 0100 520200 0100 530100 0100 540000 0100 51 520000 0100"))), Ok((3, 2)));
    for arcs in [
        "520100 0100 520000 0100", "520100 0100 520100 0100", "530100 0100 520200 0100", "540000 0100 530200 0100", "540100 0100 540000 0100",
        "540000 0100 520200 0100", "530000 0100 530000 0100",
    ] {
        fails(&three(arcs), 9, 17);
    }
}

#[test]
fn tail_15() {
    is_refused(&[flat(""), vec![0x5F]].concat(), 15, 3);
    is_refused(&[hex(TWO_GAUGE_FLAT), vec![0, 0]].concat(), 15, 47);
}
