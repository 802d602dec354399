//! A case of one call, what must come of it, and the stream of cases that the program `cases` reads, with what it prints.
//!
//! A case in a stream is the call's number (u8), then each of its buffers: its length in bytes (u32, little-endian) and its
//! bytes. Counts are u16, little-endian; a row number is a buffer of four bytes. README.md has the table.
use crate::plain::{self, First, Order, Refusal};

#[derive(Clone, Copy, Debug, PartialEq, Eq)]
pub enum Call {
    FlatSizes = 1,
    FirstRow,
    FireImages,
    Unfold,
    Images,
    RowOrder,
    FireOrders,
    FirstOrder,
    NetSizes,
}

pub const CALLS: [Call; 9] = [
    Call::FlatSizes, Call::FirstRow, Call::FireImages, Call::Unfold, Call::Images, Call::RowOrder, Call::FireOrders, Call::FirstOrder, Call::NetSizes,
];

#[derive(Clone, Copy, PartialEq, Eq)]
enum Buffer {
    File,
    Marking,
    List,
    Output,
    Row,
}

impl Call {
    pub fn name(self) -> &'static str {
        ["flat_sizes", "first_row", "fire_images", "unfold", "images", "row_order", "fire_orders", "first_order", "net_sizes"][self as usize - 1]
    }

    /// Whether it is a call on flat files.
    pub fn is_flat(self) -> bool {
        self as u8 <= 3
    }

    /// Whether it fires a list.
    pub fn fires(self) -> bool {
        matches!(self, Call::FireImages | Call::FireOrders)
    }

    pub fn has_marking(self) -> bool {
        self.buffers().contains(&Buffer::Marking)
    }

    pub fn has_list(self) -> bool {
        self.buffers().contains(&Buffer::List)
    }

    pub fn has_output(self) -> bool {
        self.buffers().contains(&Buffer::Output)
    }

    fn buffers(self) -> &'static [Buffer] {
        use Buffer::*;
        match self {
            Call::FlatSizes | Call::NetSizes => &[File],
            Call::FirstRow | Call::FirstOrder => &[File, Marking],
            Call::FireImages | Call::FireOrders => &[File, Marking, List, Output],
            Call::Unfold => &[File, Output],
            Call::Images => &[File, List, Output],
            Call::RowOrder => &[File, Row],
        }
    }
}

/// A call and all that is lent to it; what the call does not take is empty.
#[derive(Clone, Debug, PartialEq, Eq)]
pub struct Case {
    pub call: Call,
    pub file: Vec<u8>,
    pub marking: Vec<u16>,
    pub list: Vec<u8>,
    pub output: Vec<u8>,
    pub row: u32,
}

/// What a call returned.
#[derive(Clone, Copy, Debug, PartialEq, Eq)]
pub enum Said {
    Refused { number: u8, place: usize },
    FlatSizes { places: usize, rows: usize },
    NetSizes { places: usize, transitions: usize, bindings: usize },
    Row { row: usize, tried: usize },
    FirstOrder { order: Order, tried: usize },
    Nothing { tried: usize },
    Order(Order),
    NoOrder,
    Answered(usize),
    Written(usize),
}

/// What a call returned, and the buffers that were lent for writing as they are afterwards.
#[derive(Clone, Debug, PartialEq, Eq)]
pub struct Outcome {
    pub said: Said,
    pub marking: Vec<u16>,
    pub output: Vec<u8>,
}

impl Case {
    pub fn new(call: Call, file: Vec<u8>) -> Case {
        Case { call, file, marking: vec![], list: vec![], output: vec![], row: 0 }
    }

    /// What must come of the case.
    pub fn expected(&self) -> Outcome {
        let (mut marking, mut output) = (self.marking.clone(), self.output.clone());
        let (file, list) = (&self.file[..], &self.list[..]);
        let said = match self.call {
            Call::FlatSizes => plain::flat_sizes(file).map(|(places, rows)| Said::FlatSizes { places, rows }),
            Call::FirstRow => plain::first_row(file, &marking).map(|First { found, tried }| {
                found.map_or(Said::Nothing { tried }, |row| Said::Row { row, tried })
            }),
            Call::FireImages => plain::fire_images(file, &mut marking, list, &mut output).map(Said::Answered),
            Call::Unfold => plain::unfold(file, &mut output).map(Said::Written),
            Call::Images => plain::images(file, list, &mut output).map(Said::Answered),
            Call::RowOrder => plain::row_order(file, self.row).map(|order| order.map_or(Said::NoOrder, Said::Order)),
            Call::FireOrders => plain::fire_orders(file, &mut marking, list, &mut output).map(Said::Answered),
            Call::FirstOrder => plain::first_order(file, &marking).map(|First { found, tried }| {
                found.map_or(Said::Nothing { tried }, |order| Said::FirstOrder { order, tried })
            }),
            Call::NetSizes => {
                plain::net_sizes(file).map(|(places, transitions, bindings)| Said::NetSizes { places, transitions, bindings })
            }
        };
        let said = said.unwrap_or_else(|Refusal { number, place }| Said::Refused { number, place });
        Outcome { said, marking, output }
    }

    /// The bytes of the case in a stream.
    pub fn write(&self, stream: &mut Vec<u8>) {
        stream.push(self.call as u8);
        for buffer in self.call.buffers() {
            let bytes = match buffer {
                Buffer::File => self.file.clone(),
                Buffer::Marking => self.marking.iter().flat_map(|count| count.to_le_bytes()).collect(),
                Buffer::List => self.list.clone(),
                Buffer::Output => self.output.clone(),
                Buffer::Row => self.row.to_le_bytes().to_vec(),
            };
            stream.extend((bytes.len() as u32).to_le_bytes());
            stream.extend(bytes);
        }
    }

    /// The case that stands first in a stream, and the rest; none where it is no case.
    pub fn read(stream: &[u8]) -> Option<(Case, &[u8])> {
        let (&number, mut rest) = stream.split_first()?;
        let call = *CALLS.get((number as usize).wrapping_sub(1))?;
        let mut case = Case::new(call, vec![]);
        for buffer in call.buffers() {
            let length = u32::from_le_bytes(rest.get(..4)?.try_into().ok()?) as usize;
            let bytes = rest.get(4..4 + length)?;
            rest = &rest[4 + length..];
            match buffer {
                Buffer::File => case.file = bytes.to_vec(),
                Buffer::Marking => case.marking = bytes.chunks_exact(2).map(|b| u16::from_le_bytes([b[0], b[1]])).collect(),
                Buffer::List => case.list = bytes.to_vec(),
                Buffer::Output => case.output = bytes.to_vec(),
                Buffer::Row => case.row = u32::from_le_bytes(bytes.try_into().ok()?),
            }
        }
        Some((case, rest))
    }
}

/// All cases of a stream; none where it is no stream.
pub fn read_all(mut stream: &[u8]) -> Option<Vec<Case>> {
    let mut cases = vec![];
    while !stream.is_empty() {
        let (case, rest) = Case::read(stream)?;
        cases.push(case);
        stream = rest;
    }
    Some(cases)
}

/// Numbers with a blank in front of each.
fn words<T: ToString>(numbers: &[T]) -> String {
    numbers.iter().map(|n| format!(" {}", n.to_string())).collect()
}

/// What is printed for the case with this number when this comes of it.
pub fn text(number: usize, call: Call, outcome: &Outcome) -> String {
    let said = match outcome.said {
        Said::Refused { number, place } => format!("refused {number} at {place}"),
        Said::FlatSizes { places, rows } => format!("places {places} rows {rows}"),
        Said::NetSizes { places, transitions, bindings } => format!("places {places} transitions {transitions} bindings {bindings}"),
        Said::Row { row, tried } => format!("found {row} tried {tried}"),
        Said::FirstOrder { order, tried } => format!("found{} tried {tried}", words(&order)),
        Said::Nothing { tried } => format!("nothing tried {tried}"),
        Said::Order(order) => format!("order{}", words(&order)),
        Said::NoOrder => "none".to_string(),
        Said::Answered(count) => format!("answered {count}"),
        Said::Written(length) => format!("written {length}"),
    };
    let mut text = format!("case {number} {}\n{said}\n", call.name());
    if call.fires() {
        text += &format!("marking{}\nanswers{}\n", words(&outcome.marking), words(&outcome.output));
    } else if call.has_output() {
        text += &format!("output{}\n", words(&outcome.output));
    }
    text
}

/// What the program `cases` must print for these cases.
pub fn printed(cases: &[Case]) -> String {
    cases.iter().enumerate().map(|(i, case)| text(i + 1, case.call, &case.expected())).collect()
}
