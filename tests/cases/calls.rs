//! Cases of calls: on a file, with whatever else is lent, and such as are made to reach one line of a call each.
use super::aims::{file_aims, FileAim, RICH, RICH_FLAT};
use super::dice::Dice;
use super::nets::{self, Scale};
use super::{flats, lists};
use crate::plain;
use crate::stream::{Call, Case, CALLS};

pub type MakeCase = Box<dyn Fn(&mut Dice, Scale) -> Case>;

/// A case of a call on a file, with whatever else the call is lent.
pub fn case_on(dice: &mut Dice, call: Call, file: Vec<u8>) -> Case {
    let shape = if call.is_flat() { lists::shape_of_flat(&file) } else { lists::shape_of_net(&file) };
    let mut case = Case::new(call, file);
    if call.has_marking() {
        case.marking = lists::marking(dice, &shape);
    }
    if call.has_list() {
        case.list = if call.is_flat() { lists::images(dice, &shape) } else { lists::orders(dice, &lists::transitions_of(&case.file)) };
    }
    if call.has_output() {
        let needed = match call {
            Call::Unfold => shape.flat_length,
            Call::Images => case.list.len() / 6 * 5,
            Call::FireOrders => case.list.len() / 6,
            _ => case.list.len() / 5,
        };
        case.output = lists::output(dice, needed);
    }
    if call == Call::RowOrder {
        let rows = shape.rows as u32;
        case.row = dice.among(&[0, rows / 2, rows.saturating_sub(1), rows, rows + 1, u32::MAX]);
    }
    case
}

/// The calls of a side.
pub fn calls(flat: bool) -> Vec<Call> {
    CALLS.into_iter().filter(|call| call.is_flat() == flat).collect()
}

/// Cases made for a line of a call.
pub fn call_aims() -> Vec<MakeCase> {
    let mut out: Vec<MakeCase> = vec![];
    for call in CALLS {
        let numbers: &[u8] = if call.is_flat() { &[2, 3, 4, 5, 9, 15] } else { &[1, 2, 3, 4, 5, 6, 7, 8, 9, 10, 11, 15] };
        for &number in numbers {
            let aims: Vec<FileAim> = file_aims().into_iter().filter(|aim| aim.flat == call.is_flat() && aim.number == number).collect();
            let most = if call.is_flat() && number == 4 { 1 } else { aims.len() };
            out.push(Box::new(move |dice, scale| {
                let file = (aims[dice.below(most)].make)(dice, scale);
                case_on(dice, call, file)
            }));
        }
        lent_aims(call, &mut out);
    }
    out
}

/// A sound case of a call: a file with flat places, rows and bindings, a list of two items, everything as long as it must be.
fn fitting(dice: &mut Dice, scale: Scale, call: Call) -> Case {
    loop {
        let file = if dice.percent(20) {
            if call.is_flat() { RICH_FLAT.to_vec() } else { RICH.to_vec() }
        } else if call.is_flat() {
            flats::sound(dice, scale)
        } else {
            nets::sound(dice, scale)
        };
        let shape = if call.is_flat() { lists::shape_of_flat(&file) } else { lists::shape_of_net(&file) };
        if shape.places == 0 || shape.rows < 2 {
            continue;
        }
        let mut case = Case::new(call, file);
        case.marking = if call.has_marking() { vec![3; shape.places] } else { vec![] };
        if call.has_list() {
            case.list = if call.is_flat() { vec![0x61, 1, 0, 0, 0, 0x61, 0, 0, 0, 0] } else { vec![0x60, 0, 0, 0, 0, 0, 0x60, 1, 0, 0, 0, 0] };
        }
        case.output = vec![0xAA; if call == Call::Unfold { shape.flat_length } else if call == Call::Images { 10 } else if call.fires() { 2 } else { 0 }];
        case.row = if call == Call::RowOrder { shape.rows as u32 - 1 } else { 0 };
        return case;
    }
}

/// Adds a case that fits, but for one change.
fn vary(out: &mut Vec<MakeCase>, call: Call, change: Vary) {
    out.push(Box::new(move |dice: &mut Dice, scale: Scale| {
        let mut case = fitting(dice, scale, call);
        change(&mut case, dice);
        case
    }));
}

/// Lent buffers that are too short, too long, ragged or empty, alone and together.
fn lent_aims(call: Call, out: &mut Vec<MakeCase>) {
    let mut all: Vec<Vary> = vec![|_, _| {}];
    if call.has_marking() {
        all.extend(MARKINGS);
    }
    if call.has_list() {
        all.extend(LISTS);
    }
    if call.fires() {
        all.extend(TOGETHER);
    }
    if call.has_output() {
        all.extend(OUTPUTS);
    }
    if call == Call::RowOrder {
        all.extend(ROWS);
    }
    all.into_iter().for_each(|change| vary(out, call, change));
}

type Vary = fn(&mut Case, &mut Dice);

const MARKINGS: [Vary; 5] = [
    |case, _| case.marking.truncate(case.marking.len() - 1),
    |case, _| case.marking.push(0),
    |case, _| case.marking.clear(),
    |case, _| case.marking.fill(0),
    |case, _| case.marking.fill(65535),
];

const LISTS: [Vary; 12] = [
    |case, _| case.list.truncate(1),
    |case, _| case.list.truncate(7),
    |case, _| case.list.truncate(8),
    |case, _| case.list.truncate(9),
    |case, _| case.list.truncate(10),
    |case, _| case.list.truncate(11),
    |case, _| case.list.extend([0x60, 0, 0]),
    |case, _| case.list.push(0x61),
    |case, _| case.list.clear(),
    |case, _| case.list.truncate(if case.call.is_flat() { 5 } else { 6 }),
    |case, _| {
        case.list.push(0x60);
        case.output.clear();
    },
    |case, _| {
        case.list.clear();
        case.output.clear();
    },
];

const TOGETHER: [Vary; 2] = [
    |case, _| {
        case.marking.pop();
        case.list.push(0);
    },
    |case, _| {
        case.marking.push(9);
        case.output.pop();
    },
];

const OUTPUTS: [Vary; 3] = [
    |case, _| case.output.truncate(case.output.len() - 1),
    |case, _| case.output.clear(),
    |case, dice| case.output.extend(vec![7; 1 + dice.below(9)]),
];

const ROWS: [Vary; 3] = [|case, _| case.row = 0, |case, _| case.row += 1, |case, _| case.row = u32::MAX];

const TWO_GAUGE: [u8; 40] = [
    0x01, 1, 0x10, 2, 0x11, 0, 0x12, 0, 0x12, 0, 0x14, 0x16, 0, 0x40, 1, 0, 0x30, 0, 0x17, 1, 0x40, 1, 0, 0x32, 0x30, 0, 0x18, 1, 0x40, 2, 0, 0x30, 0, 0x19, 0, 0,
    0, 3, 0, 0x1F,
];

/// Cases of both engines on the two-gauge net and on the same with a guard: every answer, every way to name nothing.
pub fn fixed() -> Vec<Case> {
    let guarded = [&TWO_GAUGE[..11], &[0x15, 0x24, 0x30, 0, 0x31, 0, 1], &TWO_GAUGE[11..]].concat();
    let mut out = vec![Case::new(Call::FirstOrder, vec![0x01, 1, 0x1F]), Case::new(Call::FirstRow, vec![0x02, 1, 0x5F])];
    for net in [TWO_GAUGE.to_vec(), guarded] {
        let mut flat = vec![0; 100];
        let length = plain::unfold(&net, &mut flat).unwrap_or(0);
        flat.truncate(length);
        out.extend([Case::new(Call::NetSizes, net.clone()), Case::new(Call::FlatSizes, flat.clone())]);
        out.push(Case { output: vec![0xAA; length + 3], ..Case::new(Call::Unfold, net.clone()) });
        out.extend([0, 1, 2, u32::MAX].map(|row| Case { row, ..Case::new(Call::RowOrder, net.clone()) }));
        for marking in [[3, 0, 0, 0], [0, 1, 0, 2], [0, 1, 0, 1], [1, 0, 0, 65535], [0, 1, 65535, 0], [0, 0, 0, 0], [3, 3, 0, 0]] {
            out.push(Case { marking: marking.to_vec(), ..Case::new(Call::FirstOrder, net.clone()) });
            out.push(Case { marking: marking.to_vec(), ..Case::new(Call::FirstRow, flat.clone()) });
            (0..3).for_each(|colour| out.extend(fired(&net, &flat, &marking, colour)));
        }
    }
    out
}

/// An order and its image four times, with others behind that name nothing.
fn fired(net: &[u8], flat: &[u8], marking: &[u16], colour: u8) -> [Case; 3] {
    let others = [[0x61, 0, 1, 0, 0, 0], [0x60, 1, 0, 0, 0, 0], [0x60, 0, 1, 1, 0, 0], [0x60, 0, 1, 0, 0, 1], [0x60, 0, 255, 0, 0, 0]];
    let orders = [[0x60, 0, colour, 0, 0, 0].repeat(4), others.concat()].concat();
    let images = [[0x61, colour, 0, 0, 0].repeat(4), vec![0x60, 0, 0, 0, 0, 0x61, 0, 0, 1, 0, 0x61, 255, 255, 255, 255]].concat();
    let marking = marking.to_vec();
    [
        Case { marking: marking.clone(), list: orders.clone(), output: vec![7; 9], ..Case::new(Call::FireOrders, net.to_vec()) },
        Case { marking, list: images, output: vec![7; 7], ..Case::new(Call::FireImages, flat.to_vec()) },
        Case { list: orders, output: vec![7; 45], ..Case::new(Call::Images, net.to_vec()) },
    ]
}
