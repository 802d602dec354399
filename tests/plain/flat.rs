//! Flat files and the calls on them. A file is checked in one pass that notes where each row stands; rows are fired from the
//! file's own bytes.
use super::commands::{refuse, unless, word, Reading};
use super::firing::{self, Weight};
use super::First;

const MOST_PLACES: usize = 4096;
const MOST_ROWS: usize = 65536;
const ARC: usize = 5;
const IMAGE: usize = 5;

/// Where a row's arcs start, and how many takes, puts and hinders it has.
#[derive(Clone, Copy)]
struct Row {
    start: usize,
    arcs: [u16; 3],
}

/// The arcs of one kind in a row.
#[derive(Clone)]
struct Arcs<'a>(std::slice::ChunksExact<'a, u8>);

impl Iterator for Arcs<'_> {
    type Item = Weight;

    #[inline]
    fn next(&mut self) -> Option<Weight> {
        self.0.next().map(|arc| Weight { place: word(&arc[1..]), weight: word(&arc[3..]) })
    }
}

impl Row {
    /// Its takes, puts and hinders.
    #[inline]
    fn arcs(self, file: &[u8]) -> [Arcs<'_>; 3] {
        let mut rest = &file[self.start..];
        self.arcs.map(|count| {
            let (here, after) = rest.split_at(ARC * count as usize);
            rest = after;
            Arcs(here.chunks_exact(ARC))
        })
    }

    /// What the row is answered: 3, 4, 5 or 0.
    #[inline]
    fn answer(self, file: &[u8], marking: &[u16]) -> u8 {
        let [takes, puts, hinders] = self.arcs(file);
        if firing::short(takes.clone(), marking) {
            3
        } else if firing::hindered(hinders, marking) {
            4
        } else if firing::overflows(takes, puts, marking) {
            5
        } else {
            0
        }
    }
}

/// Checks a flat file, hands each of its rows on, and gives its counts of flat places and rows.
fn read(file: &[u8], mut found: impl FnMut(Row)) -> Reading<(usize, usize)> {
    let cut = refuse(2, file.len());
    match file {
        [] | [0x02] => return cut,
        [0x02, edition, ..] => unless(*edition == 1, 5, 0)?,
        _ => return refuse(3, 0),
    }
    let (mut at, mut places, mut rows) = (2, 0, 0);
    while file.get(at) == Some(&0x50) {
        if file.len() - at < 3 {
            return cut;
        }
        unless(places < MOST_PLACES, 4, at)?;
        places += 1;
        at += 3;
    }
    while file.get(at) == Some(&0x51) {
        unless(rows < MOST_ROWS, 4, at)?;
        rows += 1;
        let (row, end) = read_row(file, at + 1, places)?;
        at = end;
        found(row);
    }
    match file.get(at) {
        None => cut,
        Some(0x5F) => unless(at + 1 == file.len(), 15, at + 1).map(|()| (places, rows)),
        Some(_) => refuse(3, at),
    }
}

/// Checks the arcs of a row, and gives it with its end.
#[inline]
fn read_row(file: &[u8], start: usize, places: usize) -> Reading<(Row, usize)> {
    let mut row = Row { start, arcs: [0; 3] };
    let (mut at, mut last) = (start, 0);
    while let Some(&kind @ 0x52..=0x54) = file.get(at) {
        let Some(arc) = file[at..].first_chunk::<ARC>() else { return refuse(2, file.len()) };
        let (place, weight) = (word(&arc[1..]), word(&arc[3..]));
        let key = (kind as u32) << 16 | place as u32;
        unless((place as usize) < places && weight > 0, 5, at)?;
        unless(key > last, 9, at)?;
        last = key;
        row.arcs[kind as usize - 0x52] += 1;
        at += ARC;
    }
    Ok((row, at))
}

/// Checks a flat file and a marking for it, and gives where the rows are.
fn read_for(file: &[u8], marking: &[u16]) -> Reading<Vec<Row>> {
    let mut rows = vec![];
    let (places, _) = read(file, |row| rows.push(row))?;
    unless(marking.len() == places, 12, 0)?;
    Ok(rows)
}

/// How many flat places and rows a flat file has.
pub fn flat_sizes(file: &[u8]) -> Reading<(usize, usize)> {
    read(file, |_| {})
}

/// The first row that would fire.
pub fn first_row(file: &[u8], marking: &[u16]) -> Reading<First<usize>> {
    let rows = read_for(file, marking)?;
    let found = rows.iter().position(|row| row.answer(file, marking) == 0);
    Ok(First { found, tried: found.map_or(rows.len(), |row| row + 1) })
}

/// Fires a list of images in turn, and gives how many there are.
pub fn fire_images(file: &[u8], marking: &mut [u16], images: &[u8], answers: &mut [u8]) -> Reading<usize> {
    let rows = read_for(file, marking)?;
    unless(images.len() % IMAGE == 0, 13, 0)?;
    let count = images.len() / IMAGE;
    unless(count <= answers.len(), 14, 0)?;
    for (image, answer) in images.chunks_exact(IMAGE).zip(answers) {
        let number = u32::from_le_bytes([image[1], image[2], image[3], image[4]]);
        let row = rows.get(number as usize).filter(|_| image[0] == 0x61);
        *answer = row.map_or(1, |row| row.answer(file, marking));
        if let (0, Some(row)) = (*answer, row) {
            let [takes, puts, _] = row.arcs(file);
            firing::apply(takes, puts, marking);
        }
    }
    Ok(count)
}
