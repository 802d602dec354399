//! The rows of the table: a call, and what it is given, once at the size that is named and once at a quarter of it.
use crate::nets::{self, Guard};
use crate::sides::{perform, Call, Input, Lent, Said, PLAIN};

/// How large an input is.
#[derive(Clone, Copy, PartialEq)]
pub enum Size {
    Quarter,
    Full,
}

impl Size {
    /// The number for this size, given the full one.
    fn of(self, full: usize) -> usize {
        if self == Size::Full { full } else { full / 4 }
    }
}

/// A row: which calls it belongs to, its name, what is four times as large in the full input, and its inputs.
pub struct Row {
    pub part: &'static str,
    pub name: &'static str,
    pub grows: &'static str,
    pub input: fn(Size) -> Input,
}

/// The flat file of a net file, by the plain unfolding.
fn unfolded(net: &[u8]) -> Vec<u8> {
    let mut flat = vec![0; 4096];
    loop {
        match (PLAIN.unfold)(net, &mut flat) {
            Ok(length) => {
                flat.truncate(length);
                return flat;
            }
            Err(refusal) => assert!(refusal.number == 14, "a net of the benchmark is refused: {refusal:?}"),
        }
        flat.resize(4 * flat.len(), 0);
    }
}

/// The images of orders, by the plain call.
fn images(net: &[u8], orders: &[u8]) -> Vec<u8> {
    let mut images = vec![0; orders.len() / 6 * 5];
    (PLAIN.images)(net, orders, &mut images).expect("a net of the benchmark is refused");
    images
}

/// So many orders, over the bindings of some transitions with these colours; neighbours in the list lie far apart.
fn orders(count: usize, transitions: usize, sizes: [usize; 3]) -> Vec<u8> {
    let [a, b, c] = sizes;
    let of = |i: usize| {
        let n = i * 40503;
        [0x60, (n / (a * b * c) % transitions) as u8, (n / (b * c) % a) as u8, (n / c % b) as u8, (n % c) as u8, 0]
    };
    (0..count).flat_map(of).collect()
}

/// So many orders of `gauges`.
fn gauge_orders(count: usize, colours: usize, transitions: usize) -> Vec<u8> {
    (0..count).flat_map(|i| [0x60, (i / colours % transitions) as u8, (i % colours) as u8, 0, 0, 0]).collect()
}

/// So many orders of `cube` with 16 layers, all of whose guards hold where x and y must differ.
fn cube_orders(count: usize) -> Vec<u8> {
    let mut list = orders(count, 1, [64, 64, 16]);
    list.chunks_mut(6).filter(|order| order[2] == order[3]).for_each(|order| order[3] = (order[3] + 1) % 64);
    list
}

/// A marking of `cube` in which only the last binding fires: one count to take, one that has room for the put.
fn last_of_cube(depth: usize) -> Vec<u16> {
    let mut marking = vec![0; 128 * depth + 64];
    marking[64 * depth - 1] = 5;
    marking[64 * depth..128 * depth - 1].fill(65535);
    marking
}

fn unfold(net: Vec<u8>) -> Input {
    let room = unfolded(&net).len();
    Input::new(Call::Unfold, net).room(room)
}

fn images_of(net: Vec<u8>, orders: Vec<u8>) -> Input {
    let room = orders.len() / 6 * 5;
    Input::new(Call::Images, net).list(orders).room(room)
}

/// Fires orders on a drawing from a marking of so many counts, all the same.
fn on_drawing(net: Vec<u8>, counts: usize, orders: Vec<u8>) -> Input {
    let room = orders.len() / 6;
    Input::new(Call::FireOrders, net).marking(vec![2000; counts]).list(orders).room(room)
}

/// Fires the images of orders on the flat file of a net.
fn on_flat(net: Vec<u8>, counts: usize, orders: Vec<u8>) -> Input {
    let room = orders.len() / 6;
    let list = images(&net, &orders);
    Input::new(Call::FireImages, unfolded(&net)).marking(vec![2000; counts]).list(list).room(room)
}

fn first_order(net: Vec<u8>, marking: Vec<u16>) -> Input {
    Input::new(Call::FirstOrder, net).marking(marking)
}

fn first_row(net: Vec<u8>, marking: Vec<u16>) -> Input {
    Input::new(Call::FirstRow, unfolded(&net)).marking(marking)
}

fn gauges(size: Size, transitions: usize) -> Vec<u8> {
    nets::gauges(8, size.of(transitions) as u8)
}

fn cube(size: Size, guard: Guard) -> Vec<u8> {
    nets::cube(size.of(16) as u8, guard)
}

fn square(size: Size) -> Vec<u8> {
    nets::square(if size == Size::Full { 64 } else { 32 })
}

fn counts_of(size: Size, count: u16) -> Vec<u16> {
    vec![count; 128 * size.of(16) + 64]
}

/// How long a long list is.
const LONG: usize = 65536;

const fn row(part: &'static str, name: &'static str, grows: &'static str, input: fn(Size) -> Input) -> Row {
    Row { part, name, grows, input }
}

pub const ROWS: &[Row] = &[
    row("read a net", "8 transitions", "transitions", |s| Input::new(Call::NetSizes, gauges(s, 8))),
    row("read a net", "expressions, near 16,384 bytes", "bytes", |s| Input::new(Call::NetSizes, nets::expressions(s.of(32) as u8))),
    row("read a net", "tokens, near 16,384 bytes", "bytes", |s| Input::new(Call::NetSizes, nets::tokens(s.of(2720) as u16))),
    row("read a flat file", "64 rows", "rows", |s| Input::new(Call::FlatSizes, unfolded(&gauges(s, 8)))),
    row("read a flat file", "65,536 rows", "rows", |s| Input::new(Call::FlatSizes, unfolded(&cube(s, Guard::None)))),
    row("read a flat file", "64 rows of 12,288 arcs", "rows", |s| Input::new(Call::FlatSizes, unfolded(&nets::longest(s.of(64) as u8)))),
    row("unfold", "few colours: 16, 64 bindings", "transitions", |s| unfold(gauges(s, 8))),
    row("unfold", "32 variables, places and transitions", "all three", |s| unfold(nets::ring(s.of(32) as u8))),
    row("unfold", "4,096 colours, one touched by an arc", "colours", |s| unfold(square(s))),
    row("unfold", "65,536 bindings, no guard", "bindings", |s| unfold(cube(s, Guard::None))),
    row("unfold", "65,536 bindings, guard mostly true", "bindings", |s| unfold(cube(s, Guard::Most))),
    row("unfold", "65,536 bindings, guard mostly false", "bindings", |s| unfold(cube(s, Guard::Few))),
    row("unfold", "64 rows of 12,288 arcs", "bindings", |s| unfold(nets::longest(s.of(64) as u8))),
    row("unfold", "64 bindings, all colours but one", "colours", |s| unfold(nets::others(s.of(64) as u8))),
    row("unfold", "64 bindings, sums of 4 terms", "terms", |s| unfold(nets::runs(s.of(4)))),
    row("unfold", "4 rows, sums of 256 terms", "terms", |s| unfold(nets::sums(s.of(256)))),
    row("images", "64 bindings, 1 order", "transitions", |s| images_of(gauges(s, 8), gauge_orders(1, 8, 2))),
    row("images", "64 bindings, 65,536 orders", "orders", |s| images_of(nets::gauges(8, 8), gauge_orders(s.of(LONG), 8, 8))),
    row("images", "65,536 bindings, no guard, 1 order", "bindings", |s| images_of(cube(s, Guard::None), orders(1, 1, [64, 64, 4]))),
    row("images", "65,536 bindings, guard, 1 order", "bindings", |s| images_of(cube(s, Guard::Most), orders(1, 1, [64, 64, 4]))),
    row("images", "65,536 bindings, guard, 65,536 orders", "orders", |s| images_of(nets::cube(16, Guard::Most), cube_orders(s.of(LONG)))),
    row("way back", "65,536 bindings, guard, first row", "bindings", |s| Input::new(Call::RowOrder(0), cube(s, Guard::Most))),
    row("way back", "65,536 bindings, guard, last row", "bindings", |s| {
        Input::new(Call::RowOrder((63 * 64 * s.of(16) - 1) as u32), cube(s, Guard::Most))
    }),
    row("fire on the drawing", "64 bindings, 1 order", "transitions", |s| on_drawing(gauges(s, 8), 16, gauge_orders(1, 8, 2))),
    row("fire on the drawing", "64 bindings, 65,536 orders", "orders", |s| on_drawing(nets::gauges(8, 8), 16, gauge_orders(s.of(LONG), 8, 8))),
    row("fire on the drawing", "65,536 bindings, 1 order", "bindings", |s| on_drawing(cube(s, Guard::None), counts_of(s, 0).len(), orders(1, 1, [64, 64, 4]))),
    row("fire on the drawing", "65,536 bindings, 65,536 orders", "orders", |s| on_drawing(nets::cube(16, Guard::Most), 2112, cube_orders(s.of(LONG)))),
    row("fire on the drawing", "4,096 colours, one touched, 4,096 orders", "colours", |s| {
        let side = if s == Size::Full { 64 } else { 32 };
        on_drawing(square(s), side * side, orders(4096, 1, [side, side, 1]))
    }),
    row("fire on the drawing", "32 places and transitions, 4,096 orders", "all three", |s| {
        let things = s.of(32);
        on_drawing(nets::ring(things as u8), 8 * things, gauge_orders(4096, 8, things))
    }),
    row("fire on the drawing", "near 16,384 bytes, 1 order", "bytes", |s| on_drawing(nets::expressions(s.of(32) as u8), 16, vec![0x60, 0, 1, 3, 0, 0])),
    row("fire on the drawing", "rows of 12,288 arcs, 64 orders", "orders", |s| on_drawing(nets::longest(64), 4096, gauge_orders(s.of(64), 64, 1))),
    row("fire on the drawing", "all colours but one, 64 orders", "colours", |s| {
        let colours = s.of(64);
        on_drawing(nets::others(colours as u8), colours, gauge_orders(64, colours, 1))
    }),
    row("fire on the drawing", "sums of 4 terms, 4,096 orders", "terms", |s| on_drawing(nets::runs(s.of(4)), 64, gauge_orders(4096, 64, 1))),
    row("fire on the drawing", "sums of 256 terms, 16 orders", "terms", |s| on_drawing(nets::sums(s.of(256)), 4096, gauge_orders(16, 4, 1))),
    row("fire on the flat net", "64 rows, 1 image", "rows", |s| on_flat(gauges(s, 8), 16, gauge_orders(1, 8, 2))),
    row("fire on the flat net", "64 rows, 65,536 images", "images", |s| on_flat(nets::gauges(8, 8), 16, gauge_orders(s.of(LONG), 8, 8))),
    row("fire on the flat net", "65,536 rows, 1 image", "rows", |s| on_flat(cube(s, Guard::None), counts_of(s, 0).len(), orders(1, 1, [64, 64, 4]))),
    row("fire on the flat net", "64,512 rows, 65,536 images", "images", |s| on_flat(nets::cube(16, Guard::Most), 2112, cube_orders(s.of(LONG)))),
    row("fire on the flat net", "64 rows of 12,288 arcs, 64 images", "images", |s| on_flat(nets::longest(64), 4096, gauge_orders(s.of(64), 64, 1))),
    row("first order", "64 bindings, found first", "transitions", |s| first_order(gauges(s, 8), vec![9; 16])),
    row("first order", "64 bindings, none", "transitions", |s| first_order(gauges(s, 8), vec![0; 16])),
    row("first order", "65,536 bindings, found first", "bindings", |s| first_order(cube(s, Guard::None), counts_of(s, 9))),
    row("first order", "65,536 bindings, found last", "bindings", |s| first_order(cube(s, Guard::None), last_of_cube(s.of(16)))),
    row("first order", "65,536 bindings, none", "bindings", |s| first_order(cube(s, Guard::None), counts_of(s, 0))),
    row("first row", "64 rows, found first", "rows", |s| first_row(gauges(s, 8), vec![9; 16])),
    row("first row", "64 rows, none", "rows", |s| first_row(gauges(s, 8), vec![0; 16])),
    row("first row", "65,536 rows, found first", "rows", |s| first_row(cube(s, Guard::None), counts_of(s, 9))),
    row("first row", "65,536 rows, found last", "rows", |s| first_row(cube(s, Guard::None), last_of_cube(s.of(16)))),
    row("first row", "65,536 rows, none", "rows", |s| first_row(cube(s, Guard::None), counts_of(s, 0))),
];

/// What is wrong with an input, if what is said of it is not what its row is for: lists fire whole, searches end where the row's
/// name says.
pub fn wrong(row: &Row, input: &Input, said: &Said) -> Option<&'static str> {
    let mut lent = Lent::new(input);
    perform(&PLAIN, input, &mut lent);
    let fires = matches!(input.call, Call::FireOrders | Call::FireImages);
    let (found, tried) = match said {
        Said::FirstOrder(Ok(first)) => (first.found.is_some(), first.tried),
        Said::FirstRow(Ok(first)) => (first.found.is_some(), first.tried),
        _ => return (fires && lent.bytes.iter().any(|&answer| answer != 0)).then_some("not all fire"),
    };
    let fits = match row.name.rsplit(", ").next() {
        Some("found first") => found && tried == 1,
        Some("found last") => found && tried > 16000,
        _ => !found,
    };
    (!fits).then_some("the search ends elsewhere")
}
