//! The two-gauge net: read, unfolded, and fired on the drawing and on the flat net side by side.
use std::process::exit;

#[link(name = "exports", kind = "static")]
extern "C" {
    fn kwz_net_sizes(net: *const u8, net_len: usize, first: &mut usize, second: &mut usize, third: &mut usize) -> u8;
    fn kwz_flat_sizes(flat: *const u8, flat_len: usize, first: &mut usize, second: &mut usize) -> u8;
    fn kwz_unfold(net: *const u8, net_len: usize, flat: *mut u8, flat_len: usize, first: &mut usize, second: &mut usize) -> u8;
    fn kwz_images(net: *const u8, net_len: usize, orders: *const u8, orders_len: usize, images: *mut u8, images_len: usize,
                  first: &mut usize, second: &mut usize) -> u8;
    fn kwz_first_order(net: *const u8, net_len: usize, marking: *const u16, marking_len: usize, order: &mut [u8; 6],
                       first: &mut usize, second: &mut usize) -> u8;
    fn kwz_fire_orders(net: *const u8, net_len: usize, marking: *mut u16, marking_len: usize, orders: *const u8, orders_len: usize,
                       answers: *mut u8, answers_len: usize, first: &mut usize, second: &mut usize) -> u8;
    fn kwz_fire_images(flat: *const u8, flat_len: usize, marking: *mut u16, marking_len: usize, images: *const u8, images_len: usize,
                       answers: *mut u8, answers_len: usize, first: &mut usize, second: &mut usize) -> u8;
}

/// One transition moves a token of some colour from place 0 to the next colour of place 1, unless two of its colour are there.
/// The example in C has the same bytes, command by command.
const NET: &[u8] = include_bytes!("../../crates/unfold/stdin");

/// Ends the program where a call was refused.
fn done(call: &str, code: u8, first: usize, second: usize) {
    if code == 0 {
        println!("{call}: refused {first} at {second}");
        exit(1);
    }
}

fn bytes(name: &str, list: &[u8]) {
    println!("{name}{}", list.iter().map(|b| format!(" {b:02x}")).collect::<String>());
}

fn counts(name: &str, list: &[u16]) {
    println!("{name}{}", list.iter().map(|c| format!(" {c}")).collect::<String>());
}

fn main() {
    let (net, net_len) = (NET.as_ptr(), NET.len());
    let (mut first, mut second, mut third) = (0, 0, 0);
    let code = unsafe { kwz_net_sizes(net, net_len, &mut first, &mut second, &mut third) };
    done("kwz_net_sizes", code, first, second);
    println!("drawing: {first} flat places, {second} transition, {third} bindings");

    let mut flat = vec![0; 64];
    let code = unsafe { kwz_unfold(net, net_len, flat.as_mut_ptr(), flat.len(), &mut first, &mut second) };
    done("kwz_unfold", code, first, second);
    flat.truncate(first);
    bytes("flat file:", &flat);
    let code = unsafe { kwz_flat_sizes(flat.as_ptr(), flat.len(), &mut first, &mut second) };
    done("kwz_flat_sizes", code, first, second);
    println!("flat net: {first} flat places, {second} rows");

    // The initial marking stands in the flat file: after its two opening bytes each flat place is 0x50 and a count, low byte first.
    let mut drawing: Vec<u16> = flat[2..2 + 3 * first].chunks(3).map(|place| u16::from_le_bytes([place[1], place[2]])).collect();
    let mut flat_net = drawing.clone();
    counts("initial marking:", &drawing);

    let mut order = [0; 6];
    let code = unsafe { kwz_first_order(net, net_len, drawing.as_ptr(), drawing.len(), &mut order, &mut first, &mut second) };
    done("kwz_first_order", code, first, second);
    if code == 1 {
        bytes("first order that would fire:", &order);
    }

    // The same orders on both sides: as they are on the drawing, as images in the flat net. An order is 0x60, a transition and
    // four colours; these are colour 0 four times, colour 1, and a colour that is not there.
    let orders: Vec<u8> = [0, 0, 0, 0, 1, 2].iter().flat_map(|&colour| [0x60, 0, colour, 0, 0, 0]).collect();
    let mut images = vec![0; orders.len() / 6 * 5];
    let code = unsafe {
        kwz_images(net, net_len, orders.as_ptr(), orders.len(), images.as_mut_ptr(), images.len(), &mut first, &mut second)
    };
    done("kwz_images", code, first, second);
    bytes("orders: ", &orders);
    bytes("images: ", &images);
    let (mut drawn, mut flown) = (vec![0; first], vec![0; first]);
    let code = unsafe {
        kwz_fire_orders(net, net_len, drawing.as_mut_ptr(), drawing.len(), orders.as_ptr(), orders.len(),
                        drawn.as_mut_ptr(), drawn.len(), &mut first, &mut second)
    };
    done("kwz_fire_orders", code, first, second);
    let code = unsafe {
        kwz_fire_images(flat.as_ptr(), flat.len(), flat_net.as_mut_ptr(), flat_net.len(), images.as_ptr(), images.len(),
                        flown.as_mut_ptr(), flown.len(), &mut first, &mut second)
    };
    done("kwz_fire_images", code, first, second);
    bytes("drawing's answers: ", &drawn);
    bytes("flat net's answers:", &flown);
    counts("drawing's marking: ", &drawing);
    counts("flat net's marking:", &flat_net);

    let same = drawn == flown && drawing == flat_net;
    println!("{}", if same { "the same on both sides" } else { "NOT the same on both sides" });
    exit(if same { 0 } else { 1 });
}
