//! A walk over a file's commands without judging them: what had to stand where. Coverage and aimed damage both go by it.

/// What kind of command must stand at a place.
#[derive(Clone, Copy, Debug, PartialEq, Eq)]
pub enum Need {
    Edition,
    Set,
    Variable,
    Place,
    GuardOrArc,
    Arc,
    Tokens,
    Guard,
    Colour,
    Term,
    FlatEdition,
    FlatPlace,
    FlatArc,
    Nothing,
}

pub const NET_NEEDS: [Need; 10] = [
    Need::Edition, Need::Set, Need::Variable, Need::Place, Need::GuardOrArc, Need::Arc, Need::Tokens, Need::Guard, Need::Colour, Need::Term,
];
pub const FLAT_NEEDS: [Need; 3] = [Need::FlatEdition, Need::FlatPlace, Need::FlatArc];

impl Need {
    /// The commands that may stand there.
    pub fn allowed(self) -> &'static [u8] {
        match self {
            Need::Edition => &[0x01],
            Need::Set => &[0x10, 0x11, 0x12, 0x13, 0x14, 0x19, 0x1F],
            Need::Variable => &[0x11, 0x12, 0x13, 0x14, 0x19, 0x1F],
            Need::Place => &[0x12, 0x13, 0x14, 0x19, 0x1F],
            Need::GuardOrArc => &[0x15, 0x16, 0x17, 0x18, 0x14, 0x19, 0x1F],
            Need::Arc => &[0x16, 0x17, 0x18, 0x14, 0x19, 0x1F],
            Need::Tokens => &[0x19, 0x1F],
            Need::Guard => &[0x20, 0x21, 0x22, 0x23, 0x24, 0x25],
            Need::Colour => &[0x30, 0x31, 0x32, 0x33],
            Need::Term => &[0x40, 0x41, 0x42, 0x43, 0x44],
            Need::FlatEdition => &[0x02],
            Need::FlatPlace => &[0x50, 0x51, 0x5F],
            Need::FlatArc => &[0x51, 0x52, 0x53, 0x54, 0x5F],
            Need::Nothing => &[],
        }
    }
}

/// How many bytes of operands a command has, in net files and in flat files.
pub fn width(byte: u8) -> usize {
    match byte {
        0x01 | 0x02 | 0x10..=0x12 | 0x16..=0x18 | 0x30 => 1,
        0x13 | 0x31 | 0x40 | 0x41 | 0x44 | 0x50 => 2,
        0x52..=0x54 => 4,
        0x19 => 5,
        _ => 0,
    }
}

/// A command, where it stands, what had to stand there, and its level (0 where it is in no expression).
#[derive(Clone, Copy, Debug)]
pub struct Step {
    pub at: usize,
    pub byte: u8,
    pub need: Need,
    pub level: usize,
}

/// The commands up to a place, what has to stand at the place behind them, and at which level.
#[derive(Debug)]
pub struct Walk {
    pub steps: Vec<Step>,
    pub end: usize,
    pub need: Need,
    pub level: usize,
}

/// Walks over the whole commands of a file that start before a place, as far as each is one that may stand there.
pub fn walk(file: &[u8], flat: bool, place: usize) -> Walk {
    let mut walk = Walk { steps: vec![], end: 0, need: if flat { Need::FlatEdition } else { Need::Edition }, level: 0 };
    let (mut open, mut pairs, mut pair) = (vec![], vec![], false);
    while walk.end < place.min(file.len()) {
        let (at, byte) = (walk.end, file[walk.end]);
        let end = at + 1 + width(byte);
        if end > file.len() || !walk.need.allowed().contains(&byte) {
            break;
        }
        walk.steps.push(Step { at, byte, need: walk.need, level: walk.level });
        match byte {
            0x12 | 0x13 => pairs.push(byte == 0x13),
            0x16..=0x18 => pair = pairs.get(file[at + 1] as usize).copied().unwrap_or(false),
            _ => {}
        }
        let inner = inside(byte, pair);
        open.extend(inner.iter().map(|&need| (need, walk.level + 1)));
        walk.end = end;
        (walk.need, walk.level) = open.pop().unwrap_or((after(byte), 0));
    }
    walk
}

/// The expressions that a command holds.
fn inside(byte: u8, pair: bool) -> &'static [Need] {
    match byte {
        0x15 | 0x21 => &[Need::Guard],
        0x22 | 0x23 => &[Need::Guard, Need::Guard],
        0x16..=0x18 | 0x44 => &[Need::Term],
        0x42 | 0x43 => &[Need::Term, Need::Term],
        0x24 | 0x25 => &[Need::Colour, Need::Colour],
        0x40 if pair => &[Need::Colour, Need::Colour],
        0x32 | 0x33 | 0x40 => &[Need::Colour],
        _ => &[],
    }
}

/// What must stand behind a command that ends all that was open.
fn after(byte: u8) -> Need {
    match byte {
        0x01 | 0x10 => Need::Set,
        0x11 => Need::Variable,
        0x12 | 0x13 => Need::Place,
        0x14 => Need::GuardOrArc,
        0x19 => Need::Tokens,
        0x02 | 0x50 => Need::FlatPlace,
        0x51..=0x54 => Need::FlatArc,
        0x1F | 0x5F => Need::Nothing,
        _ => Need::Arc,
    }
}
