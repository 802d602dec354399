//! The cases on the two-gauge net, on the drawing and on the flat file.
use super::*;
use plain::First;

#[test]
fn unfolds() {
    let (file, flat_file) = (hex(TWO_GAUGE), hex(TWO_GAUGE_FLAT));
    assert_eq!((file.len(), flat_file.len()), (40, 47));
    assert_eq!(unfolded(&file), flat_file);
    let mut output = vec![0xAA; 50];
    assert_eq!(plain::unfold(&file, &mut output), Ok(47));
    assert_eq!(output, [flat_file, vec![0xAA; 3]].concat());
    assert_eq!(plain::net_sizes(&file), Ok((4, 1, 2)));
    assert_eq!(plain::flat_sizes(&hex(TWO_GAUGE_FLAT)), Ok((4, 2)));
}

/// The same on the drawing and, by images, on the flat file.
fn fires(before: [u16; 4], orders: &[u8], said: &[u8], after: [u16; 4]) {
    let expected = [said, &[0xAA, 0xAA]].concat();
    let (mut marking, mut answers) = (before, vec![0xAA; orders.len() + 2]);
    let listed: Vec<u8> = orders.iter().flat_map(|&c| order(c)).collect();
    assert_eq!(plain::fire_orders(&hex(TWO_GAUGE), &mut marking, &listed, &mut answers), Ok(orders.len()));
    assert_eq!((marking, &answers), (after, &expected));
    let (mut marking, mut answers) = (before, vec![0xAA; orders.len() + 2]);
    let listed: Vec<u8> = orders.iter().flat_map(|&c| image(c as u32)).collect();
    assert_eq!(plain::fire_images(&hex(TWO_GAUGE_FLAT), &mut marking, &listed, &mut answers), Ok(orders.len()));
    assert_eq!((marking, &answers), (after, &expected));
}

#[test]
fn fires_in_turn() {
    fires([3, 0, 0, 0], &[0, 0, 0, 0], &[0, 0, 0, 3], [0, 0, 0, 3]);
    fires([0, 1, 0, 2], &[1], &[4], [0, 1, 0, 2]);
    fires([0, 1, 0, 1], &[1], &[0], [0, 0, 1, 1]);
    fires([1, 0, 0, 65535], &[0], &[5], [1, 0, 0, 65535]);
    fires([1, 0, 0, 65534], &[0], &[0], [0, 0, 0, 65535]);
    fires([3, 0, 0, 0], &[2], &[1], [3, 0, 0, 0]);
    fires([1, 1, 0, 0], &[0, 0, 2, 1, 1], &[0, 3, 1, 0, 3], [0, 0, 1, 1]);
    fires([1, 0, 3, 65535], &[0], &[4], [1, 0, 3, 65535]);
    fires([0, 0, 3, 65535], &[0], &[3], [0, 0, 3, 65535]);
}

#[test]
fn images() {
    let file = hex(TWO_GAUGE);
    let mut output = [0; 15];
    assert_eq!(plain::images(&file, &[order(1), order(2), order(0)].concat(), &mut output), Ok(3));
    assert_eq!(output.to_vec(), [image(1), image(u32::MAX), image(0)].concat());
    let mut output = [0xAA; 13];
    assert_eq!(plain::images(&file, &[order(1), order(0)].concat(), &mut output), Ok(2));
    assert_eq!(output.to_vec(), [image(1), image(0), vec![0xAA; 3]].concat());
    for other in ["61 00 00 00 00 00", "60 01 00 00 00 00", "60 00 00 01 00 00", "60 00 00 00 00 01"] {
        let (mut output, mut answers) = ([0; 5], [0]);
        assert_eq!(plain::images(&file, &hex(other), &mut output), Ok(1));
        assert_eq!(plain::fire_orders(&file, &mut [3, 0, 0, 0], &hex(other), &mut answers), Ok(1));
        assert_eq!((output.to_vec(), answers), (image(u32::MAX), [1]));
    }
}

#[test]
fn images_that_name_no_row() {
    for other in [hex("60 00 00 00 00"), hex("00 00 00 00 00"), image(u32::MAX), image(2), image(256), image(65536)] {
        let (mut marking, mut answers) = ([3, 0, 0, 0], [7]);
        assert_eq!(plain::fire_images(&hex(TWO_GAUGE_FLAT), &mut marking, &other, &mut answers), Ok(1));
        assert_eq!((marking, answers), ([3, 0, 0, 0], [1]));
    }
}

#[test]
fn the_way_back() {
    let said = [0, 1, 2, u32::MAX].map(|row| plain::row_order(&hex(TWO_GAUGE), row));
    assert_eq!(said, [Ok(Some(order(0))), Ok(Some(order(1))), Ok(None), Ok(None)]);
}

#[test]
fn first_to_fire() {
    for (marking, found, tried) in [([3, 0, 0, 0], Some(0), 1), ([0, 1, 0, 0], Some(1), 2), ([0, 0, 0, 0], None, 2)] {
        let on_drawing = plain::first_order(&hex(TWO_GAUGE), &marking);
        assert_eq!(on_drawing, Ok(First { found: found.map(|c| order(c as u8)), tried }));
        assert_eq!(plain::first_row(&hex(TWO_GAUGE_FLAT), &marking), Ok(First { found, tried }));
    }
}
