//! Every refusal of a net file at its place, at the edge on both sides where there is one.
use super::*;
use plain::First;

/// All calls on net files refuse the file so, and change no lent buffer.
fn is_refused(file: &[u8], number: u8, place: usize) {
    let (mut output, mut marking, mut answers) = (vec![0xAA; 70000], [7; 9], [0xAA; 9]);
    assert_eq!(plain::unfold(file, &mut output), refused(number, place), "{:02X?}", &file[..file.len().min(60)]);
    assert_eq!(plain::net_sizes(file), refused(number, place));
    assert_eq!(plain::images(file, b"\x60", &mut answers), refused(number, place));
    assert_eq!(plain::row_order(file, 0), refused(number, place));
    assert_eq!(plain::fire_orders(file, &mut marking, b"\x60", &mut answers), refused(number, place));
    assert_eq!(plain::first_order(file, &marking), refused(number, place));
    assert_eq!(unfolded(file), format!("refused {number} at {place}\n").as_bytes());
    assert!(output.iter().all(|&b| b == 0xAA));
    assert_eq!((marking, answers), ([7; 9], [0xAA; 9]));
}

fn passes(parts: &str) {
    assert!(plain::net_sizes(&net(parts)).is_ok(), "{parts}");
}

fn fails(parts: &str, number: u8, place: usize) {
    is_refused(&net(parts), number, place);
}

/// The two-gauge net with bytes of 0 behind it, up to this length.
fn padded(length: usize) -> Vec<u8> {
    let mut file = hex(TWO_GAUGE);
    file.resize(length, 0);
    file
}

#[test]
fn overlong_1() {
    is_refused(&[0; 16385], 1, 16384);
    is_refused(&padded(16385), 1, 16384);
    is_refused(&padded(16384), 15, 40);
    let tokens: String = (0..2728).map(|rank: u16| format!("19 00 {:04X} 0100", rank.swap_bytes())).collect();
    let longest = net(&format!("10 40 13 00 00 {} {}", times("14", 8), tokens));
    assert_eq!((longest.len(), plain::net_sizes(&longest)), (16384, Ok((4096, 8, 8))));
    is_refused(&net(&format!("10 40 13 00 00 {} {}", times("14", 9), tokens)), 1, 16384);
}

#[test]
fn cut_off_2() {
    is_refused(&[], 2, 0);
    for length in 0..40 {
        is_refused(&hex(TWO_GAUGE)[..length], 2, length);
    }
}

#[test]
fn stray_byte_3() {
    is_refused(&hex("02 01 5F"), 3, 0);
    for (parts, place) in [
        ("00", 4), ("01 01", 4), ("15 20", 4), ("16 00", 4), ("20", 4), ("50 00 00", 4), ("1A", 4), ("FF", 4), ("14 12 00", 5), ("14 10 02", 5),
        ("11 00 10 02", 6), ("12 00 11 00", 6), ("12 00 19 00 0000 0000 14", 12), ("12 00 19 00 0000 0000 10", 12),
    ] {
        fails(&format!("10 02 {parts}"), 3, place);
    }
    fails("14 15 20 15 20", 3, 5);
    fails("10 01 12 00 14 16 00 41 0100 15 20", 3, 12);
    fails("14 15 30 00", 3, 4);
    fails("14 15 24 20", 3, 5);
    fails("10 01 12 00 14 16 00 20", 3, 9);
    fails("10 01 12 00 14 16 00 40 0100 41", 3, 12);
}

#[test]
fn overfull_4() {
    passes(&times("10 01", 16));
    fails(&times("10 01", 17), 4, 34);
    fails(&(times("10 01", 16) + "10 41"), 5, 34);
    passes(&("10 01".to_string() + &times("11 00", 32)));
    fails(&("10 01".to_string() + &times("11 00", 33)), 4, 68);
    passes(&("10 01".to_string() + &times("12 00", 31) + "13 00 00"));
    fails(&("10 01".to_string() + &times("12 00", 33)), 4, 68);
    fails(&("10 01".to_string() + &times("12 00", 32) + "12 01"), 5, 68);
    passes("10 40 13 00 00");
    fails("10 40 10 01 13 00 00 12 01", 4, 9);
    fails(&("10 40 10 01".to_string() + &times("12 00", 10) + "13 00 00"), 4, 26);
    passes(&times("14", 32));
    fails(&times("14", 33), 4, 34);
}

#[test]
fn out_of_range_5() {
    is_refused(&hex("01 02 1F"), 5, 0);
    is_refused(&hex("01 00 1F"), 5, 0);
    passes("10 40");
    fails("10 41", 5, 2);
    fails("10 00", 5, 2);
    fails("10 01 11 01", 5, 4);
    fails("10 01 12 01", 5, 4);
    fails("10 01 13 00 01", 5, 4);
    fails("10 01 13 01 00", 5, 4);
    fails("10 01 12 00 14 16 01 41 0100", 5, 7);
    fails("10 01 12 00 14 16 00 40 0100 30 00", 5, 12);
    fails("10 02 12 00 14 16 00 40 0100 31 01 00", 5, 12);
    fails("10 02 12 00 14 16 00 40 0100 31 00 02", 5, 12);
    fails("19 00 0000 0000", 5, 2);
    fails("10 02 12 00 19 00 0200 0000", 5, 6);
    fails("10 02 12 00 19 01 0000 0000", 5, 6);
    passes("10 02 13 00 00 19 00 0300 0000");
    fails("10 02 13 00 00 19 00 0400 0000", 5, 7);
}

#[test]
fn mixed_colours_6() {
    let two = |rest: &str| format!("10 02 10 02 11 00 11 01 12 00 13 00 01 14 {rest}");
    passes(&two("15 24 30 00 31 00 01 16 01 40 0100 30 00 30 01"));
    fails(&two("15 24 30 00 30 01"), 6, 17);
    fails(&two("15 21 25 32 30 00 30 01"), 6, 18);
    fails(&two("16 00 40 0100 30 01"), 6, 18);
    fails(&two("16 01 40 0100 30 01 30 01"), 6, 18);
    fails(&two("16 01 40 0100 30 00 33 30 00"), 6, 18);
}

#[test]
fn too_deep_7() {
    passes(&format!("14 15 {} 20", times("21", 15)));
    fails(&format!("14 15 {} 20", times("21", 16)), 7, 20);
    let one = |rest: String| format!("10 02 11 00 12 00 14 {rest}");
    passes(&one(format!("15 24 {} 30 00 30 00", times("32", 14))));
    fails(&one(format!("15 24 {} 30 00 30 00", times("32", 15))), 7, 26);
    passes(&one(format!("15 24 30 00 {} 30 00", times("33", 14))));
    fails(&one(format!("15 24 30 00 {} 30 00", times("33", 15))), 7, 28);
    fails(&one(format!("15 24 {} 30 01 30 00", times("32", 15))), 5, 26);
    passes(&one(format!("16 00 {} 40 0100 30 00", times("44 0100", 14))));
    passes(&one(format!("16 00 {} 41 0100", times("44 0100", 15))));
    fails(&one(format!("16 00 {} 40 0100 30 00", times("44 0100", 15))), 7, 59);
    fails(&one(format!("16 00 {} 41 0100", times("44 0100", 16))), 7, 59);
    fails(&one(format!("16 00 {} 30 00", times("44 0100", 16))), 3, 59);
}

#[test]
fn overweight_8() {
    let one = |rest: &str| format!("10 02 12 00 14 16 00 {rest}");
    passes(&one("44 FFFF 41 0100"));
    fails(&one("44 0001 41 0001"), 8, 9);
    fails(&one("44 FFFF 41 FFFF"), 8, 9);
    passes(&one("42 41 FFFF 41 0000"));
    fails(&one("42 41 FFFF 41 0100"), 8, 9);
    passes(&one("42 43 41 0100 41 FFFF 41 FEFF"));
    fails(&one("42 43 41 0100 41 FFFF 41 FFFF"), 8, 9);
    fails(&one("44 0000 42 41 FFFF 41 0100"), 8, 12);
    fails(&one("43 41 0100 42 41 FFFF 41 0100"), 8, 13);
    fails(&one("42 41 FFFF 40 0100 31 00 02"), 5, 16);
}

#[test]
fn doubled_9() {
    let one = |rest: &str| format!("10 02 12 00 12 00 14 16 00 41 0100 {rest}");
    passes(&one("17 00 41 0100 18 00 41 0100 16 01 41 0100 14 16 00 41 0100"));
    fails(&one("17 00 41 0100 16 00 41 0100"), 9, 19);
    fails(&one("16 00 20"), 9, 14);
    fails(&one("18 01 41 0100 18 01 41 0100"), 9, 19);
    fails("10 02 12 00 19 00 0100 0000 19 00 0000 0000 19 00 0100 0000", 9, 18);
}

#[test]
fn many_variables_10() {
    let many = |rest: &str| format!("10 02 {} 12 00 14 15 24 30 00 30 01 16 00 42 40 0000 30 02 40 0000 30 03 {rest}", times("11 00", 5));
    passes(&many(""));
    fails(&many("17 00 40 0000 30 04"), 10, 16);
    fails(&many("17 00 40 0000 30 04 20"), 10, 16);
    fails(&many("17 00 40 0000 30 04 15"), 3, 43);
    fails(&many("17 00 40 0000 30 04 17 00"), 9, 43);
    fails(&many("17 00 44 0000 40 0000 30 04 14"), 10, 16);
    let whole = net(&many("17 00 40 0000 30 04"));
    is_refused(&whole[..whole.len() - 1], 10, 16);
    is_refused(&whole[..whole.len() - 2], 2, 42);
}

#[test]
fn wide_binding_11() {
    // A transition over 64, 64 and the last set's colours, whose guard is never true.
    let wide = |last: &str, after: &str| {
        format!("10 40 10 {last} 11 00 11 00 11 01 14 15 22 25 30 00 30 00 22 24 30 01 30 01 24 30 02 30 02 {after}")
    };
    assert_eq!(plain::net_sizes(&net(&wide("10", ""))), Ok((0, 1, 65536)));
    assert_eq!(plain::first_order(&net(&wide("10", "")), &[]), Ok(First { found: None, tried: 65536 }));
    fails(&wide("11", ""), 11, 12);
    fails(&wide("10", "14"), 11, 31);
    fails(&wide("10", "14 99"), 11, 31);
    fails(&wide("10", "14 15 20 15"), 3, 34);
    let whole = net(&wide("11", ""));
    is_refused(&whole[..whole.len() - 1], 11, 12);
    is_refused(&whole[..whole.len() - 2], 2, whole.len() - 2);
}

#[test]
fn ten_before_eleven() {
    let many = "14 15 22 24 30 00 30 01 22 24 30 02 30 03 24 30 04 30 04";
    fails(&format!("10 40 {} {many}", times("11 00", 5)), 10, 14);
    fails(&format!("10 40 {} {} {many} 14", times("11 00", 5), times("14", 31)), 10, 45);
}

#[test]
fn tail_15() {
    is_refused(&[hex(TWO_GAUGE), vec![0x1F]].concat(), 15, 40);
    is_refused(&[net(""), vec![0, 0]].concat(), 15, 3);
}

#[test]
fn empty_nets() {
    assert_eq!(unfolded(&net("")), hex("02 01 5F"));
    assert_eq!(plain::net_sizes(&net("")), Ok((0, 0, 0)));
    assert_eq!(plain::first_order(&net(""), &[]), Ok(First { found: None, tried: 0 }));
    assert_eq!(plain::first_order(&net("14"), &[]), Ok(First { found: Some(order(0)), tried: 1 }));
}

#[test]
fn the_program_writes_65536_bytes() {
    // The two ends and a place of 64 x 64 colours are 12,291 bytes, a row that takes every colour 20,481, one without arcs 1.
    assert_eq!(12291 + 2 * 20481 + 2 * 64 * 64 + 64 * 63 + 59, 65536);
    let parts = "10 40 10 3F 10 3B 11 00 11 00 11 01 11 02 13 00 00 14 16 00 41 0100 14 16 00 41 0100 14 15 22 24 30 00 30 00 24 30 01 30 01
        14 15 22 24 30 00 30 00 24 30 01 30 01 14 15 22 24 30 00 30 00 24 30 02 30 02 14 15 24 30 03 30 03";
    assert_eq!(unfolded(&net(parts)).len(), 65536);
    let one_more = net(&format!("{parts} 14"));
    assert_eq!(unfolded(&one_more), b"refused 14 at 0\n");
    assert_eq!(plain::unfold(&one_more, &mut vec![0; 65536]), refused(14, 0));
    assert_eq!(plain::unfold(&one_more, &mut vec![0; 65537]), Ok(65537));
}
