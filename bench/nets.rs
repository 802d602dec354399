//! The nets that the calls are timed on, as net files.

fn join(parts: &[&[u8]]) -> Vec<u8> {
    parts.concat()
}

fn variable(v: u8) -> Vec<u8> {
    vec![0x30, v]
}

fn colour(set: u8, c: u8) -> Vec<u8> {
    vec![0x31, set, c]
}

fn after(k: &[u8]) -> Vec<u8> {
    join(&[&[0x32], k])
}

fn before(k: &[u8]) -> Vec<u8> {
    join(&[&[0x33], k])
}

fn compare(byte: u8, k: &[u8], l: &[u8]) -> Vec<u8> {
    join(&[&[byte], k, l])
}

fn one(count: u16, colours: &[&[u8]]) -> Vec<u8> {
    join(&[&[0x40], &count.to_le_bytes(), &colours.concat()])
}

fn all(count: u16) -> Vec<u8> {
    join(&[&[0x41], &count.to_le_bytes()])
}

/// Expressions joined by a command of two operands, as a tree of least depth.
fn tree(byte: u8, leaves: &[Vec<u8>]) -> Vec<u8> {
    match leaves {
        [leaf] => leaf.clone(),
        _ => {
            let (left, right) = leaves.split_at(leaves.len() / 2);
            join(&[&[byte], &tree(byte, left), &tree(byte, right)])
        }
    }
}

/// A transition with a guard (none where empty) and arcs: kind, place, expression.
fn transition(guard: &[u8], arcs: &[(u8, u8, &[u8])]) -> Vec<u8> {
    let mut bytes = vec![0x14];
    if !guard.is_empty() {
        bytes.extend(join(&[&[0x15], guard]));
    }
    for (kind, place, term) in arcs {
        bytes.extend(join(&[&[*kind, *place], term]));
    }
    bytes
}

fn set(size: u8) -> [u8; 2] {
    [0x10, size]
}

const TAKE: u8 = 0x16;
const PUT: u8 = 0x17;
const HINDER: u8 = 0x18;
const FAR: u16 = 60000; // a hinder weight that no count in a benchmark reaches

/// Two places of so many colours; transitions that move a token to the next colour of the other place, there and back by turns.
/// Flat places: 2 * colours. Bindings: colours * transitions. Each has a guard that always holds.
pub fn gauges(colours: u8, transitions: u8) -> Vec<u8> {
    let mut file = join(&[&[1, 1], &set(colours), &[0x11, 0, 0x12, 0, 0x12, 0]]);
    let v = variable(0);
    for t in 0..transitions {
        let (from, to) = (t % 2, 1 - t % 2);
        let guard = compare(0x24, &v, &v);
        let moved = if from == 0 { after(&v) } else { before(&v) };
        file.extend(transition(&guard, &[(TAKE, from, &one(1, &[&v])), (PUT, to, &one(1, &[&moved])), (HINDER, to, &one(FAR, &[&v]))]));
    }
    file.push(0x1F);
    file
}

/// One place of pairs, side * side colours; one transition over all of them whose arcs touch one colour each.
pub fn square(side: u8) -> Vec<u8> {
    let (x, y) = (variable(0), variable(1));
    let arcs = [one(1, &[&x, &y]), one(1, &[&after(&x), &y]), one(FAR, &[&y, &x])];
    let moves = transition(&[], &[(TAKE, 0, &arcs[0]), (PUT, 0, &arcs[1]), (HINDER, 0, &arcs[2])]);
    join(&[&[1, 1], &set(side), &[0x11, 0, 0x11, 0, 0x13, 0, 0], &moves, &[0x1F]])
}

/// The guards of `cube`.
pub enum Guard {
    None,
    Most,
    Few,
}

/// 64 * 64 * depth bindings x, y, z of one transition: a token from (x, z) in the first place to (y, z) in the second, hindered by
/// x in the third. Flat places: 128 * depth + 64. Guard: none; x and y differ; x and y are equal.
pub fn cube(depth: u8, guard: Guard) -> Vec<u8> {
    let (x, y, z) = (variable(0), variable(1), variable(2));
    let same = compare(0x24, &x, &y);
    let guard = match guard {
        Guard::None => vec![],
        Guard::Most => join(&[&[0x21], &same]),
        Guard::Few => same,
    };
    let moves = transition(&guard, &[(TAKE, 0, &one(1, &[&x, &z])), (PUT, 1, &one(1, &[&y, &z])), (HINDER, 2, &one(FAR, &[&x]))]);
    join(&[&[1, 1], &set(64), &set(depth), &[0x11, 0, 0x11, 0, 0x11, 1, 0x13, 0, 1, 0x13, 0, 1, 0x12, 0], &moves, &[0x1F]])
}

/// The longest rows: so many bindings, each with arcs of all three kinds at every one of 4,096 colours.
pub fn longest(bindings: u8) -> Vec<u8> {
    let (v, corner) = (variable(0), colour(0, 0));
    let moved = join(&[&[0x42], &all(1), &one(1, &[&corner, &corner])]);
    let moves = transition(&compare(0x24, &v, &v), &[(TAKE, 0, &moved), (PUT, 0, &moved), (HINDER, 0, &all(FAR))]);
    join(&[&[1, 1], &set(64), &set(bindings), &[0x11, 1, 0x13, 0, 0], &moves, &[0x1F]])
}

/// So many variables, places and transitions, over 8 colours: each transition moves a token from its place to the next one by its
/// own variable.
pub fn ring(things: u8) -> Vec<u8> {
    let mut file = join(&[&[1, 1], &set(8), &[0x11, 0].repeat(things as usize), &[0x12, 0].repeat(things as usize)]);
    for t in 0..things {
        let moved = one(1, &[&variable(t)]);
        file.extend(transition(&[], &[(TAKE, t, &moved), (PUT, (t + 1) % things, &moved)]));
    }
    file.push(0x1F);
    file
}

/// One place of so many colours; each binding takes one of every colour but its own, and puts them back.
pub fn others(colours: u8) -> Vec<u8> {
    let v = variable(0);
    let moved = join(&[&[0x43], &all(1), &one(1, &[&v])]);
    let moves = transition(&[], &[(TAKE, 0, &moved), (PUT, 0, &moved)]);
    join(&[&[1, 1], &set(colours), &[0x11, 0, 0x12, 0], &moves, &[0x1F]])
}

/// One place of 64 colours; each binding takes one of its colour and of those before it, so many in all, and puts them back.
pub fn runs(terms: usize) -> Vec<u8> {
    let leaves: Vec<Vec<u8>> = (0..terms).map(|i| one(1, &[&join(&[&vec![0x33; i], &variable(0)])])).collect();
    let sum = tree(0x42, &leaves);
    let moves = transition(&[], &[(TAKE, 0, &sum), (PUT, 0, &sum)]);
    join(&[&[1, 1], &set(64), &[0x11, 0, 0x12, 0], &moves, &[0x1F]])
}

/// Wide expressions: 4 bindings, whose take and put are sums of so many terms (a multiple of 64), each at a colour of its own out
/// of 4,096.
pub fn sums(terms: usize) -> Vec<u8> {
    let v = variable(0);
    let leaves: Vec<Vec<u8>> = (0..terms).map(|i| one(1, &[&colour(0, (i % 64) as u8), &colour(0, (i / 64) as u8)])).collect();
    let sum = tree(0x42, &leaves);
    let moves = transition(&compare(0x24, &v, &v), &[(TAKE, 0, &sum), (PUT, 0, &sum)]);
    join(&[&[1, 1], &set(64), &set(4), &[0x11, 1, 0x13, 0, 0], &moves, &[0x1F]])
}

/// Expressions of every kind: so many transitions of 500 bytes, each with a guard of 40 comparisons and three arcs of 12 terms.
/// 32 of them come to 16,030 bytes.
pub fn expressions(transitions: u8) -> Vec<u8> {
    let (x, y) = (variable(0), variable(1));
    let guard = tree(0x23, &vec![compare(0x25, &x, &after(&y)); 40]);
    let sum = |count: u16| tree(0x42, &(0..12).map(|i| one(count, &[if i % 2 == 0 { &x } else { &y }])).collect::<Vec<_>>());
    let moves = transition(&guard, &[(TAKE, 0, &sum(1)), (PUT, 1, &sum(1)), (HINDER, 1, &sum(FAR / 12))]);
    join(&[&[1, 1], &set(8), &[0x11, 0, 0x11, 0, 0x12, 0, 0x12, 0], &moves.repeat(transitions as usize), &[0x1F]])
}

/// So many tokens commands, each for a colour of its own out of 4,096; 2,720 of them come to 16,328 bytes.
pub fn tokens(count: u16) -> Vec<u8> {
    let mut file = join(&[&[1, 1], &set(64), &[0x13, 0, 0]]);
    for rank in 0..count {
        file.extend(join(&[&[0x19, 0], &rank.to_le_bytes(), &[7, 0]]));
    }
    file.push(0x1F);
    file
}
