//! On random nets the drawing and its flat file answer alike, and numbers lead back to orders.
use super::*;
use crate::cases::{dice::Dice, lists, nets};

/// Fires a list on both engines and holds them to each other; how many of it fired.
fn alike(file: &[u8], flat_file: &[u8], before: &[u16], orders: &[u8]) -> usize {
    let count = orders.len() / 6;
    let (mut images, mut answers, mut flat_answers) = (vec![0; 5 * count], vec![0; count], vec![0; count]);
    let (mut marking, mut flat_marking) = (before.to_vec(), before.to_vec());
    assert_eq!(plain::images(file, orders, &mut images), Ok(count));
    assert_eq!(plain::fire_orders(file, &mut marking, orders, &mut answers), Ok(count));
    assert_eq!(plain::fire_images(flat_file, &mut flat_marking, &images, &mut flat_answers), Ok(count));
    assert_eq!(marking, flat_marking);
    let without_guards: Vec<u8> = answers.iter().map(|&answer| if answer == 2 { 1 } else { answer }).collect();
    assert_eq!(without_guards, flat_answers);
    answers.iter().filter(|&&answer| answer == 0).count()
}

/// The first order and the first row are of one binding, and its image leads back to it.
fn first_alike(file: &[u8], flat_file: &[u8], marking: &[u16]) {
    let on_drawing = plain::first_order(file, marking).unwrap().found;
    let on_flat = plain::first_row(flat_file, marking).unwrap().found;
    assert_eq!(on_drawing.is_some(), on_flat.is_some());
    if let (Some(order), Some(row)) = (on_drawing, on_flat) {
        assert_eq!(plain::row_order(file, row as u32), Ok(Some(order)));
        let mut out = [0; 5];
        assert_eq!(plain::images(file, &order, &mut out), Ok(1));
        assert_eq!(out.to_vec(), image(row as u32));
    }
}

#[test]
fn drawing_and_flat_net() {
    let mut fired = 0;
    for seed in 0..1500 {
        let mut dice = Dice::new(seed, 0);
        let file = nets::sound(&mut dice, nets::Scale::Any);
        let mut flat_file = vec![0; 1 << 20];
        let Ok(length) = plain::unfold(&file, &mut flat_file) else { continue };
        flat_file.truncate(length);
        let shape = lists::shape_of_flat(&flat_file);
        assert_eq!(plain::flat_sizes(&flat_file), Ok((shape.places, shape.rows)));
        let mut before = lists::marking(&mut dice, &shape);
        before.resize(shape.places, 3);
        let mut orders: Vec<u8> = (0..3).flat_map(|_| lists::orders(&mut dice, &lists::transitions_of(&file))).collect();
        orders.truncate(orders.len() / 6 * 6);
        fired += alike(&file, &flat_file, &before, &orders);
        first_alike(&file, &flat_file, &before);
    }
    assert!(fired > 1000, "{fired} orders fired");
}
