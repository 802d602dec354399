//! What expressions, guards and places mean, in small nets whose flat file is written out.
use super::*;
use plain::First;

/// The takes of a transition's only row: pairs of flat place and weight, as the flat file writes them.
fn takes(sets: &str, place: &str, expression: &str, expected: &[(u16, u16)]) {
    let file = net(&format!("{sets} {place} 14 16 00 {expression}"));
    let (places, _, bindings) = plain::net_sizes(&file).unwrap();
    assert_eq!(bindings, 1);
    let arcs: String = expected.iter().map(|&(p, w)| format!("52 {:04X} {:04X}", p.swap_bytes(), w.swap_bytes())).collect();
    assert_eq!(unfolded(&file), flat(&format!("{} 51 {arcs}", times("50 0000", places))), "{expression}");
}

#[test]
fn arc_expressions() {
    let three = |expression: &str, expected: &[(u16, u16)]| takes("10 03", "12 00", expression, expected);
    three("43 41 0100 40 0300 31 00 01", &[(0, 1), (2, 1)]);
    three("42 43 40 0100 31 00 00 40 0300 31 00 00 40 0200 31 00 00", &[(0, 2)]);
    three("44 FFFF 40 0100 31 00 02", &[(2, 65535)]);
    three("44 0000 41 FFFF", &[]);
    three("40 0500 32 31 00 02", &[(0, 5)]);
    three("40 0500 33 31 00 00", &[(2, 5)]);
    three("40 0500 32 32 33 31 00 01", &[(2, 5)]);
    three("42 41 0100 44 0200 40 0300 31 00 01", &[(0, 1), (1, 7), (2, 1)]);
    three("42 40 0100 31 00 02 40 0200 31 00 00", &[(0, 2), (2, 1)]);
    three("42 40 0100 31 00 01 40 0200 31 00 01", &[(1, 3)]);
    three("43 42 40 0500 31 00 02 40 0100 31 00 00 40 0200 31 00 02", &[(0, 1), (2, 3)]);
    three("43 40 0500 31 00 02 41 0200", &[(2, 3)]);
    three("43 40 0500 31 00 02 40 0100 31 00 01", &[(2, 5)]);
    three("43 42 41 0200 40 0100 31 00 02 42 41 0100 40 0100 31 00 00", &[(1, 1), (2, 2)]);
    takes("10 01", "12 00", "40 0500 32 31 00 00", &[(0, 5)]);
    takes("10 03 10 02", "13 01 00", "40 0700 31 01 01 31 00 02", &[(5, 7)]);
}

#[test]
fn second_place_starts_after_the_first() {
    let file = net("10 02 10 03 13 00 01 12 01 14 17 01 40 0400 31 01 02 18 00 40 0600 31 00 01 31 01 01");
    assert_eq!(unfolded(&file), flat(&format!("{} 51 53 0800 0400 54 0400 0600", times("500000", 9))));
}

#[test]
fn arcs_are_written_in_order() {
    let file = net("10 02 12 00 12 00 14 18 00 41 0100 17 01 41 0200 16 01 41 0300 17 00 41 0400");
    let row = "51 520200 0300 520300 0300 530000 0400 530100 0400 530200 0200 530300 0200 540000 0100 540100 0100";
    assert_eq!(unfolded(&file), flat(&(times("500000", 4) + row)));
}

#[test]
fn tokens() {
    let file = net("10 02 12 00 12 00 19 01 0100 FFFF 19 00 0100 0000");
    assert_eq!(unfolded(&file), flat("500000 500000 500000 50FFFF"));
}

#[test]
fn guards() {
    for (guard, expected) in [
        ("20", "0000 0001 0100 0101"), ("21 20", ""), ("24 30 00 30 01", "0000 0101"), ("25 30 00 30 01", "0001"),
        ("25 30 00 30 00", ""), ("25 30 01 30 00", "0100"), ("21 25 30 00 30 01", "0000 0100 0101"),
        ("22 24 30 00 31 00 01 24 30 01 31 00 01", "0101"), ("23 24 30 00 31 00 01 24 30 01 31 00 01", "0001 0100 0101"),
        ("22 20 21 20", ""), ("22 21 20 20", ""), ("23 21 20 20", "0000 0001 0100 0101"), ("23 20 21 20", "0000 0001 0100 0101"),
        ("24 32 30 00 30 01", "0001 0100"), ("25 33 30 00 30 01", "0101"),
    ] {
        let file = net(&format!("10 02 11 00 11 00 12 00 14 15 {guard} 16 00 42 40 0100 30 01 40 0200 30 00"));
        let mut rows: Vec<u8> = vec![];
        let mut row = 0;
        while let Some(order) = plain::row_order(&file, row).unwrap() {
            rows.extend(&order[2..4]);
            row += 1;
        }
        assert_eq!(rows, hex(expected), "{guard}");
        assert_eq!(plain::flat_sizes(&unfolded(&file)), Ok((2, row as usize)));
    }
}

#[test]
fn guard_v_less_than_v_has_no_rows() {
    let file = net("10 03 11 00 12 00 14 15 25 30 00 30 00 16 00 40 0100 30 00");
    assert_eq!(unfolded(&file), flat("500000 500000 500000"));
    let (mut answers, mut images) = ([7; 2], [7; 10]);
    let orders = [order(2), order(3)].concat();
    assert_eq!(plain::fire_orders(&file, &mut [1, 1, 1], &orders, &mut answers), Ok(2));
    assert_eq!(plain::images(&file, &orders, &mut images), Ok(2));
    assert_eq!((answers, images.to_vec()), ([2, 1], [image(u32::MAX), image(u32::MAX)].concat()));
    assert_eq!(plain::first_order(&file, &[1, 1, 1]), Ok(First { found: None, tried: 3 }));
}

#[test]
fn tried_counts_bindings_and_rows() {
    let file = net("10 03 11 00 12 00 14 15 24 30 00 31 00 02 16 00 40 0100 30 00 14");
    let (flat_file, last) = (unfolded(&file), [0x60, 1, 0, 0, 0, 0]);
    assert_eq!(plain::flat_sizes(&flat_file), Ok((3, 2)));
    assert_eq!(plain::net_sizes(&file), Ok((3, 2, 4)));
    assert_eq!(plain::first_order(&file, &[1, 1, 1]), Ok(First { found: Some(order(2)), tried: 3 }));
    assert_eq!(plain::first_row(&flat_file, &[1, 1, 1]), Ok(First { found: Some(0), tried: 1 }));
    assert_eq!(plain::first_order(&file, &[1, 1, 0]), Ok(First { found: Some(last), tried: 4 }));
    assert_eq!(plain::first_row(&flat_file, &[1, 1, 0]), Ok(First { found: Some(1), tried: 2 }));
    assert_eq!([0, 1, 2].map(|row| plain::row_order(&file, row).unwrap()), [Some(order(2)), Some(last), None]);
    let mut images = [0; 15];
    assert_eq!(plain::images(&file, &[last, order(2), order(1)].concat(), &mut images), Ok(3));
    assert_eq!(images.to_vec(), [image(1), image(0), image(u32::MAX)].concat());
}

#[test]
fn rows_of_transitions_without_guard() {
    let file = net("10 03 11 00 12 00 14 16 00 40 0100 30 00 14 14 15 24 30 00 31 00 01 14 17 00 40 0100 30 00");
    let orders = [(0, 0), (0, 1), (0, 2), (1, 0), (2, 1), (3, 0), (3, 1), (3, 2)].map(|(t, c)| [0x60, t, c, 0, 0, 0]);
    for (row, &order) in orders.iter().enumerate() {
        assert_eq!(plain::row_order(&file, row as u32), Ok(Some(order)));
        let mut out = [0; 5];
        assert_eq!(plain::images(&file, &order, &mut out), Ok(1));
        assert_eq!(out.to_vec(), image(row as u32));
    }
    assert_eq!(plain::row_order(&file, 8), Ok(None));
    let mut out = [0; 40];
    assert_eq!(plain::images(&file, &orders.concat(), &mut out), Ok(8));
    assert_eq!(out.to_vec(), (0..8).flat_map(image).collect::<Vec<_>>());
}

#[test]
fn variables_by_rising_number() {
    let file = net("10 02 10 03 11 00 11 01 12 01 12 00 14 16 00 44 0000 40 0100 30 01 17 01 40 0100 30 00");
    let said: Vec<[u8; 6]> = (0..6).map(|row| plain::row_order(&file, row).unwrap().unwrap()).collect();
    assert_eq!(said, [(0, 0), (0, 1), (0, 2), (1, 0), (1, 1), (1, 2)].map(|(a, b)| [0x60, 0, a, b, 0, 0]));
}

#[test]
fn weight_0_hinders_nothing() {
    let file = net("10 01 12 00 14 18 00 41 0000");
    assert_eq!(unfolded(&file), flat("500000 51"));
    let (mut marking, mut answers) = ([0], [7]);
    assert_eq!(plain::fire_orders(&file, &mut marking, &order(0), &mut answers), Ok(1));
    assert_eq!(answers, [0]);
}

/// What the only row, and the only binding of the net that it comes from, are answered on counts of one or two places.
fn answered(parts: &str, before: &[u16], said: u8, after: &[u16]) {
    let file = net(parts);
    let (mut marking, mut answers) = (before.to_vec(), [7]);
    assert_eq!(plain::fire_orders(&file, &mut marking, &order(0), &mut answers), Ok(1));
    assert_eq!((&marking[..], answers), (after, [said]), "{parts}");
    let (mut marking, mut answers) = (before.to_vec(), [7]);
    assert_eq!(plain::fire_images(&unfolded(&file), &mut marking, &image(0), &mut answers), Ok(1));
    assert_eq!((&marking[..], answers), (after, [said]), "{parts}");
}

#[test]
fn takes_before_puts() {
    let parts = "10 01 12 00 14 16 00 41 0200 17 00 41 0200";
    answered(parts, &[1], 3, &[1]);
    answered(parts, &[2], 0, &[2]);
    answered(parts, &[65535], 0, &[65535]);
    answered("10 02 12 00 14 16 00 40 0100 31 00 00 17 00 41 0100", &[1, 65535], 5, &[1, 65535]);
    answered("10 02 12 00 14 16 00 40 0100 31 00 00 17 00 41 0100", &[65535, 65534], 0, &[65535, 65535]);
    answered("10 02 12 00 14 16 00 40 0100 31 00 01 17 00 41 0100", &[65534, 65535], 0, &[65535, 65535]);
}

#[test]
fn only_one_colour_need_hinder() {
    let parts = "10 02 12 00 14 18 00 42 41 0100 40 0100 31 00 00";
    answered(parts, &[1, 0], 0, &[1, 0]);
    answered(parts, &[2, 0], 4, &[2, 0]);
    answered(parts, &[1, 1], 4, &[1, 1]);
    answered(parts, &[0, 9], 4, &[0, 9]);
}

#[test]
fn the_first_that_fits() {
    let parts = "10 02 12 00 14 16 00 40 0200 31 00 00 18 00 40 0300 31 00 01 17 00 41 0500";
    for (before, said) in [([1, 3], 3), ([1, 2], 3), ([2, 3], 4), ([65535, 65535], 4), ([65533, 2], 5), ([65532, 2], 0)] {
        let after = if said == 0 { [65535, 7] } else { before };
        answered(parts, &before, said, &after);
    }
}
