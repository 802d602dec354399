//! The two sides, the proved calls and the plain ones; an input; one call on it by one side.
use crate::plain::{self, First, Order, Reading};
use crate::proved;

/// The nine calls of one side.
pub struct Side {
    pub name: &'static str,
    net_sizes: fn(&[u8]) -> Reading<(usize, usize, usize)>,
    flat_sizes: fn(&[u8]) -> Reading<(usize, usize)>,
    pub unfold: fn(&[u8], &mut [u8]) -> Reading<usize>,
    pub images: fn(&[u8], &[u8], &mut [u8]) -> Reading<usize>,
    row_order: fn(&[u8], u32) -> Reading<Option<Order>>,
    fire_orders: fn(&[u8], &mut [u16], &[u8], &mut [u8]) -> Reading<usize>,
    fire_images: fn(&[u8], &mut [u16], &[u8], &mut [u8]) -> Reading<usize>,
    first_order: fn(&[u8], &[u16]) -> Reading<First<Order>>,
    first_row: fn(&[u8], &[u16]) -> Reading<First<usize>>,
}

macro_rules! side {
    ($calls:ident) => {
        Side {
            name: stringify!($calls),
            net_sizes: $calls::net_sizes,
            flat_sizes: $calls::flat_sizes,
            unfold: $calls::unfold,
            images: $calls::images,
            row_order: $calls::row_order,
            fire_orders: $calls::fire_orders,
            fire_images: $calls::fire_images,
            first_order: $calls::first_order,
            first_row: $calls::first_row,
        }
    };
}

pub static PROVED: Side = side!(proved);
pub static PLAIN: Side = side!(plain);

/// Which call an input is for.
#[derive(Clone, Copy)]
pub enum Call {
    NetSizes,
    FlatSizes,
    Unfold,
    Images,
    RowOrder(u32),
    FireOrders,
    FireImages,
    FirstOrder,
    FirstRow,
}

/// What a call is given: a net file or a flat file, a marking, a list of orders or images, and how many bytes it may write.
pub struct Input {
    pub call: Call,
    pub file: Vec<u8>,
    pub marking: Vec<u16>,
    pub list: Vec<u8>,
    pub room: usize,
}

impl Input {
    pub fn new(call: Call, file: Vec<u8>) -> Input {
        Input { call, file, marking: vec![], list: vec![], room: 0 }
    }

    pub fn marking(self, marking: Vec<u16>) -> Input {
        Input { marking, ..self }
    }

    pub fn list(self, list: Vec<u8>) -> Input {
        Input { list, ..self }
    }

    pub fn room(self, room: usize) -> Input {
        Input { room, ..self }
    }
}

/// What a call says.
#[derive(Debug, PartialEq)]
pub enum Said {
    Net(Reading<(usize, usize, usize)>),
    Flat(Reading<(usize, usize)>),
    Count(Reading<usize>),
    Order(Reading<Option<Order>>),
    FirstOrder(Reading<First<Order>>),
    FirstRow(Reading<First<usize>>),
}

impl Said {
    fn refused(&self) -> bool {
        match self {
            Said::Net(r) => r.is_err(),
            Said::Flat(r) => r.is_err(),
            Said::Count(r) => r.is_err(),
            Said::Order(r) => r.is_err(),
            Said::FirstOrder(r) => r.is_err(),
            Said::FirstRow(r) => r.is_err(),
        }
    }
}

/// The lists that a call may change.
#[derive(PartialEq)]
pub struct Lent {
    pub marking: Vec<u16>,
    pub bytes: Vec<u8>,
}

impl Lent {
    pub fn new(input: &Input) -> Lent {
        Lent { marking: input.marking.clone(), bytes: vec![0xAA; input.room] }
    }
}

/// One call by one side, on the marking that the input starts with.
pub fn perform(side: &Side, input: &Input, lent: &mut Lent) -> Said {
    let (file, list) = (&input.file[..], &input.list[..]);
    match input.call {
        Call::NetSizes => Said::Net((side.net_sizes)(file)),
        Call::FlatSizes => Said::Flat((side.flat_sizes)(file)),
        Call::Unfold => Said::Count((side.unfold)(file, &mut lent.bytes)),
        Call::Images => Said::Count((side.images)(file, list, &mut lent.bytes)),
        Call::RowOrder(row) => Said::Order((side.row_order)(file, row)),
        Call::FirstOrder => Said::FirstOrder((side.first_order)(file, &input.marking)),
        Call::FirstRow => Said::FirstRow((side.first_row)(file, &input.marking)),
        Call::FireOrders | Call::FireImages => {
            lent.marking.copy_from_slice(&input.marking);
            let fire = if let Call::FireOrders = input.call { side.fire_orders } else { side.fire_images };
            Said::Count(fire(file, &mut lent.marking, list, &mut lent.bytes))
        }
    }
}

/// Whether both sides say the same and leave the same behind, and no one refuses; what they say.
pub fn agree(input: &Input) -> (bool, Said) {
    let (mut ours, mut theirs) = (Lent::new(input), Lent::new(input));
    let (said, other) = (perform(&PROVED, input, &mut ours), perform(&PLAIN, input, &mut theirs));
    (said == other && ours == theirs && !said.refused(), said)
}
