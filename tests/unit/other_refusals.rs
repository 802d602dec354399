//! 12, 13 and 14, in that order, after the faults of the file; no buffer is changed.
use super::*;

#[test]
fn fire_orders() {
    let file = hex(TWO_GAUGE);
    let run = |before: &[u16], orders: &[u8], lent: usize| {
        let (mut marking, mut answers) = (before.to_vec(), vec![7; lent]);
        let said = plain::fire_orders(&file, &mut marking, orders, &mut answers);
        assert!(said.is_ok() || (&marking[..], answers) == (before, vec![7; lent]));
        said
    };
    for marking in [&[3, 0, 0][..], &[3, 0, 0, 0, 0], &[]] {
        assert_eq!(run(marking, &[0; 7], 0), refused(12, 0));
    }
    assert_eq!(run(&[3, 0, 0, 0], &[0; 7], 0), refused(13, 0));
    assert_eq!(run(&[3, 0, 0, 0], &[0; 5], 5), refused(13, 0));
    assert_eq!(run(&[3, 0, 0, 0], &[0; 12], 1), refused(14, 0));
    assert_eq!(run(&[3, 0, 0, 0], &[0; 12], 2), Ok(2));
    assert_eq!(run(&[3, 0, 0, 0], &[], 0), Ok(0));
}

#[test]
fn fire_images() {
    let file = hex(TWO_GAUGE_FLAT);
    let run = |before: &[u16], images: &[u8], lent: usize| {
        let (mut marking, mut answers) = (before.to_vec(), vec![7; lent]);
        let said = plain::fire_images(&file, &mut marking, images, &mut answers);
        assert!(said.is_ok() || (&marking[..], answers) == (before, vec![7; lent]));
        said
    };
    for marking in [&[3, 0, 0][..], &[3, 0, 0, 0, 0], &[]] {
        assert_eq!(run(marking, &[0; 6], 0), refused(12, 0));
    }
    assert_eq!(run(&[3, 0, 0, 0], &[0; 6], 0), refused(13, 0));
    assert_eq!(run(&[3, 0, 0, 0], &[0; 4], 5), refused(13, 0));
    assert_eq!(run(&[3, 0, 0, 0], &[0; 10], 1), refused(14, 0));
    assert_eq!(run(&[3, 0, 0, 0], &[0; 10], 2), Ok(2));
    assert_eq!(run(&[3, 0, 0, 0], &[], 0), Ok(0));
}

#[test]
fn first() {
    for marking in [&[3, 0, 0][..], &[3, 0, 0, 0, 0]] {
        assert_eq!(plain::first_order(&hex(TWO_GAUGE), marking), refused(12, 0));
        assert_eq!(plain::first_row(&hex(TWO_GAUGE_FLAT), marking), refused(12, 0));
    }
}

#[test]
fn unfold_and_images() {
    let file = hex(TWO_GAUGE);
    for lent in 0..47 {
        let mut output = vec![7; lent];
        assert_eq!(plain::unfold(&file, &mut output), refused(14, 0));
        assert_eq!(output, vec![7; lent]);
    }
    assert_eq!(plain::unfold(&file, &mut [7; 47]), Ok(47));
    assert_eq!(plain::unfold(&net("14"), &mut [7; 3]), refused(14, 0));
    assert_eq!(plain::unfold(&net("14"), &mut [7; 4]), Ok(4));
    let mut output = [7; 9];
    assert_eq!(plain::images(&file, &[0; 5], &mut []), refused(13, 0));
    assert_eq!(plain::images(&file, &[0; 12], &mut output), refused(14, 0));
    assert_eq!(output, [7; 9]);
    assert_eq!(plain::images(&file, &[0; 12], &mut [7; 10]), Ok(2));
    assert_eq!(plain::images(&file, &[], &mut []), Ok(0));
}

#[test]
fn the_file_first() {
    let file = hex(TWO_GAUGE);
    assert_eq!(plain::fire_orders(&[&file[..], &[0]].concat(), &mut [], &[0], &mut []), refused(15, 40));
    assert_eq!(plain::images(&file[..39], &[0], &mut []), refused(2, 39));
    assert_eq!(plain::row_order(&[], 0), refused(2, 0));
}
