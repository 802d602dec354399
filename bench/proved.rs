//! The proved calls, from the archive that `rt lib` in crates/exports writes, with the types of the plain ones.
use crate::plain::{First, Order, Reading, Refusal};

#[link(name = "exports", kind = "static")]
extern "C" {
    fn kwz_flat_sizes(flat: *const u8, flat_len: usize, first: &mut usize, second: &mut usize) -> u8;
    fn kwz_first_row(flat: *const u8, flat_len: usize, marking: *const u16, marking_len: usize, first: &mut usize, second: &mut usize) -> u8;
    fn kwz_fire_images(flat: *const u8, flat_len: usize, marking: *mut u16, marking_len: usize, images: *const u8, images_len: usize,
                       answers: *mut u8, answers_len: usize, first: &mut usize, second: &mut usize) -> u8;
    fn kwz_net_sizes(net: *const u8, net_len: usize, first: &mut usize, second: &mut usize, third: &mut usize) -> u8;
    fn kwz_unfold(net: *const u8, net_len: usize, flat: *mut u8, flat_len: usize, first: &mut usize, second: &mut usize) -> u8;
    fn kwz_images(net: *const u8, net_len: usize, orders: *const u8, orders_len: usize, images: *mut u8, images_len: usize,
                  first: &mut usize, second: &mut usize) -> u8;
    fn kwz_row_order(net: *const u8, net_len: usize, row: u32, order: &mut Order, first: &mut usize, second: &mut usize) -> u8;
    fn kwz_fire_orders(net: *const u8, net_len: usize, marking: *mut u16, marking_len: usize, orders: *const u8, orders_len: usize,
                       answers: *mut u8, answers_len: usize, first: &mut usize, second: &mut usize) -> u8;
    fn kwz_first_order(net: *const u8, net_len: usize, marking: *const u16, marking_len: usize, order: &mut Order,
                       first: &mut usize, second: &mut usize) -> u8;
}

/// The code and the two numbers that a call gives. Code 0 is a refusal: its number and its place.
fn told(call: impl FnOnce(&mut usize, &mut usize) -> u8) -> Reading<(u8, usize, usize)> {
    let (mut first, mut second) = (0, 0);
    match call(&mut first, &mut second) {
        0 => Err(Refusal { number: first as u8, place: second }),
        code => Ok((code, first, second)),
    }
}

pub fn flat_sizes(flat: &[u8]) -> Reading<(usize, usize)> {
    told(|a, b| unsafe { kwz_flat_sizes(flat.as_ptr(), flat.len(), a, b) }).map(|(_, places, rows)| (places, rows))
}

pub fn first_row(flat: &[u8], marking: &[u16]) -> Reading<First<usize>> {
    let said = told(|a, b| unsafe { kwz_first_row(flat.as_ptr(), flat.len(), marking.as_ptr(), marking.len(), a, b) });
    said.map(|(code, a, b)| if code == 1 { First { found: Some(a), tried: b } } else { First { found: None, tried: a } })
}

pub fn fire_images(flat: &[u8], marking: &mut [u16], images: &[u8], answers: &mut [u8]) -> Reading<usize> {
    let said = told(|a, b| unsafe {
        kwz_fire_images(flat.as_ptr(), flat.len(), marking.as_mut_ptr(), marking.len(), images.as_ptr(), images.len(),
                        answers.as_mut_ptr(), answers.len(), a, b)
    });
    said.map(|(_, count, _)| count)
}

pub fn net_sizes(net: &[u8]) -> Reading<(usize, usize, usize)> {
    let mut third = 0;
    let said = told(|a, b| unsafe { kwz_net_sizes(net.as_ptr(), net.len(), a, b, &mut third) });
    said.map(|(_, places, transitions)| (places, transitions, third))
}

pub fn unfold(net: &[u8], flat: &mut [u8]) -> Reading<usize> {
    let said = told(|a, b| unsafe { kwz_unfold(net.as_ptr(), net.len(), flat.as_mut_ptr(), flat.len(), a, b) });
    said.map(|(_, length, _)| length)
}

pub fn images(net: &[u8], orders: &[u8], images: &mut [u8]) -> Reading<usize> {
    let said = told(|a, b| unsafe {
        kwz_images(net.as_ptr(), net.len(), orders.as_ptr(), orders.len(), images.as_mut_ptr(), images.len(), a, b)
    });
    said.map(|(_, count, _)| count)
}

pub fn row_order(net: &[u8], row: u32) -> Reading<Option<Order>> {
    let mut order = [0; 6];
    let said = told(|a, b| unsafe { kwz_row_order(net.as_ptr(), net.len(), row, &mut order, a, b) });
    said.map(|(code, _, _)| (code == 1).then_some(order))
}

pub fn fire_orders(net: &[u8], marking: &mut [u16], orders: &[u8], answers: &mut [u8]) -> Reading<usize> {
    let said = told(|a, b| unsafe {
        kwz_fire_orders(net.as_ptr(), net.len(), marking.as_mut_ptr(), marking.len(), orders.as_ptr(), orders.len(),
                        answers.as_mut_ptr(), answers.len(), a, b)
    });
    said.map(|(_, count, _)| count)
}

pub fn first_order(net: &[u8], marking: &[u16]) -> Reading<First<Order>> {
    let mut order = [0; 6];
    let said = told(|a, b| unsafe {
        kwz_first_order(net.as_ptr(), net.len(), marking.as_ptr(), marking.len(), &mut order, a, b)
    });
    said.map(|(code, tried, _)| First { found: (code == 1).then_some(order), tried })
}
