//! The C interface over the implementation here: a library to try the harness on. Built with `--cfg wrong` it is wrong in
//! one byte now and then, and the harness must say so.
#[allow(dead_code, unused_imports)]
mod plain;

use plain::{First, Order, Reading};
use std::slice::{from_raw_parts, from_raw_parts_mut};

/// A list that was lent for reading.
unsafe fn list<'a, T>(at: *const T, length: usize) -> &'a [T] {
    if length == 0 { &[] } else { from_raw_parts(at, length) }
}

/// A list that was lent for writing.
unsafe fn lent<'a, T>(at: *mut T, length: usize) -> &'a mut [T] {
    if length == 0 { &mut [] } else { from_raw_parts_mut(at, length) }
}

/// Hands a code and two numbers out.
unsafe fn tell(reply: Reading<(u8, usize, usize)>, first: *mut usize, second: *mut usize) -> u8 {
    let (code, one, two) = reply.unwrap_or_else(|refusal| (0, refusal.number as usize, refusal.place));
    (*first, *second) = (one, two);
    code
}

/// Writes an order where one was found.
unsafe fn found(order: Option<Order>, at: *mut u8, tried: usize) -> (u8, usize, usize) {
    match order {
        Some(order) => {
            from_raw_parts_mut(at, 6).copy_from_slice(&order);
            (1, tried, 0)
        }
        None => (2, tried, 0),
    }
}

#[no_mangle]
pub unsafe extern "C" fn kwz_flat_sizes(flat: *const u8, flat_len: usize, first: *mut usize, second: *mut usize) -> u8 {
    tell(plain::flat_sizes(list(flat, flat_len)).map(|(places, rows)| (1, places, rows)), first, second)
}

#[no_mangle]
pub unsafe extern "C" fn kwz_first_row(flat: *const u8, flat_len: usize, marking: *const u16, marking_len: usize, first: *mut usize, second: *mut usize) -> u8 {
    let reply = plain::first_row(list(flat, flat_len), list(marking, marking_len));
    tell(reply.map(|First { found, tried }| found.map_or((2, tried, 0), |row| (1, row, tried))), first, second)
}

#[no_mangle]
pub unsafe extern "C" fn kwz_fire_images(
    flat: *const u8, flat_len: usize, marking: *mut u16, marking_len: usize, images: *const u8, images_len: usize, answers: *mut u8, answers_len: usize,
    first: *mut usize, second: *mut usize,
) -> u8 {
    let reply = plain::fire_images(list(flat, flat_len), lent(marking, marking_len), list(images, images_len), lent(answers, answers_len));
    if cfg!(wrong) && reply == Ok(7) {
        lent(answers, answers_len)[6] ^= 2;
    }
    tell(reply.map(|count| (1, count, 0)), first, second)
}

#[no_mangle]
pub unsafe extern "C" fn kwz_net_sizes(net: *const u8, net_len: usize, first: *mut usize, second: *mut usize, third: *mut usize) -> u8 {
    let reply = plain::net_sizes(list(net, net_len));
    *third = reply.map_or(0, |sizes| sizes.2);
    tell(reply.map(|(places, transitions, _)| (1, places, transitions)), first, second)
}

#[no_mangle]
pub unsafe extern "C" fn kwz_unfold(net: *const u8, net_len: usize, flat: *mut u8, flat_len: usize, first: *mut usize, second: *mut usize) -> u8 {
    tell(plain::unfold(list(net, net_len), lent(flat, flat_len)).map(|length| (1, length, 0)), first, second)
}

#[no_mangle]
pub unsafe extern "C" fn kwz_images(
    net: *const u8, net_len: usize, orders: *const u8, orders_len: usize, images: *mut u8, images_len: usize, first: *mut usize, second: *mut usize,
) -> u8 {
    tell(plain::images(list(net, net_len), list(orders, orders_len), lent(images, images_len)).map(|count| (1, count, 0)), first, second)
}

#[no_mangle]
pub unsafe extern "C" fn kwz_row_order(net: *const u8, net_len: usize, row: u32, order: *mut u8, first: *mut usize, second: *mut usize) -> u8 {
    tell(plain::row_order(list(net, net_len), row).map(|reply| found(reply, order, 0)), first, second)
}

#[no_mangle]
pub unsafe extern "C" fn kwz_fire_orders(
    net: *const u8, net_len: usize, marking: *mut u16, marking_len: usize, orders: *const u8, orders_len: usize, answers: *mut u8, answers_len: usize,
    first: *mut usize, second: *mut usize,
) -> u8 {
    let reply = plain::fire_orders(list(net, net_len), lent(marking, marking_len), list(orders, orders_len), lent(answers, answers_len));
    tell(reply.map(|count| (1, count, 0)), first, second)
}

#[no_mangle]
pub unsafe extern "C" fn kwz_first_order(
    net: *const u8, net_len: usize, marking: *const u16, marking_len: usize, order: *mut u8, first: *mut usize, second: *mut usize,
) -> u8 {
    let reply = plain::first_order(list(net, net_len), list(marking, marking_len));
    tell(reply.map(|First { found: reply, tried }| found(reply, order, tried)), first, second)
}
