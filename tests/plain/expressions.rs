//! Guards, colours and arc expressions: what is left of them after reading, and their values under a binding. Nodes lie in
//! two lists and name their operands by number.

/// The colour of each variable, by the variable's number, and one entry more that is always 0.
pub type Binding = [u8; 33];

/// The entry of a binding that stands for no variable.
pub const NO_VARIABLE: u8 = 32;

/// A colour expression: so many steps round its set from a variable's colour, or from 0 where it has no variable.
#[derive(Clone, Copy)]
pub struct Colour {
    pub variable: u8,
    pub steps: u8,
    pub set: u8,
    pub size: u8,
}

impl Colour {
    /// What a place of one set has as its second colour: the one colour of a set of one.
    pub const ONLY: Colour = Colour { variable: NO_VARIABLE, steps: 0, set: 0, size: 1 };

    pub fn successor(self) -> Colour {
        Colour { steps: if self.steps + 1 == self.size { 0 } else { self.steps + 1 }, ..self }
    }

    pub fn predecessor(self) -> Colour {
        Colour { steps: if self.steps == 0 { self.size - 1 } else { self.steps - 1 }, ..self }
    }

    /// The colour under a binding.
    #[inline]
    pub fn value(self, binding: &Binding) -> u8 {
        let sum = binding[self.variable as usize] + self.steps;
        if sum >= self.size { sum - self.size } else { sum }
    }
}

/// A guard; inner guards by their numbers.
#[derive(Clone, Copy)]
pub enum Guard {
    True,
    Not(u16),
    And(u16, u16),
    Or(u16, u16),
    Equal(Colour, Colour),
    Less(Colour, Colour),
}

/// An arc expression; inner ones by their numbers.
#[derive(Clone, Copy)]
pub enum Term {
    One { count: u16, first: Colour, second: Colour },
    All { count: u16 },
    Plus(u16, u16),
    Minus(u16, u16),
    Times(u16, u16),
}

/// Whether a guard holds.
pub fn holds(guards: &[Guard], guard: u16, binding: &Binding) -> bool {
    match guards[guard as usize] {
        Guard::True => true,
        Guard::Not(g) => !holds(guards, g, binding),
        Guard::And(g, h) => holds(guards, g, binding) && holds(guards, h, binding),
        Guard::Or(g, h) => holds(guards, g, binding) || holds(guards, h, binding),
        Guard::Equal(k, l) => k.value(binding) == l.value(binding),
        Guard::Less(k, l) => k.value(binding) < l.value(binding),
    }
}

/// A rank and the count that an expression gives it.
#[derive(Clone, Copy)]
pub struct Named {
    pub rank: u16,
    pub count: u16,
}

/// Room for the values of arc expressions, used again for each.
#[derive(Default)]
pub struct Room {
    named: Vec<Named>,
    merged: Vec<Named>,
}

impl Room {
    /// The counts that an expression gives: those of the ranks that are named, by rising rank, and that of every other rank.
    #[inline]
    pub fn counts(&mut self, terms: &[Term], term: u16, binding: &Binding) -> (&[Named], u16) {
        self.named.clear();
        let rest = self.evaluate(terms, term, binding);
        (&self.named, rest)
    }

    /// Puts the expression's named ranks behind those that are there, and gives the count of every other rank.
    fn evaluate(&mut self, terms: &[Term], term: u16, binding: &Binding) -> u16 {
        match terms[term as usize] {
            Term::One { count, first, second } => {
                let rank = first.value(binding) as u16 * second.size as u16 + second.value(binding) as u16;
                self.named.push(Named { rank, count });
                0
            }
            Term::All { count } => count,
            Term::Plus(e, f) => self.join(terms, (e, f), binding, |x, y| x + y),
            Term::Minus(e, f) => self.join(terms, (e, f), binding, u16::saturating_sub),
            Term::Times(factor, e) => {
                let start = self.named.len();
                let rest = self.evaluate(terms, e, binding);
                self.named[start..].iter_mut().for_each(|n| n.count *= factor);
                factor * rest
            }
        }
    }

    /// Evaluates two expressions and joins their counts rank by rank.
    fn join(&mut self, terms: &[Term], (e, f): (u16, u16), binding: &Binding, with: impl Fn(u16, u16) -> u16) -> u16 {
        let start = self.named.len();
        let left = self.evaluate(terms, e, binding);
        let middle = self.named.len();
        let right = self.evaluate(terms, f, binding);
        let (first, second) = self.named[start..].split_at_mut(middle - start);
        if second.is_empty() {
            first.iter_mut().for_each(|n| n.count = with(n.count, right));
        } else if first.is_empty() {
            second.iter_mut().for_each(|n| n.count = with(left, n.count));
        } else {
            self.merged.clear();
            merge(first, left, second, right, &with, &mut self.merged);
            self.named.truncate(start);
            self.named.extend_from_slice(&self.merged);
        }
        with(left, right)
    }
}

/// Joins two lists of named ranks, each with the count of its other ranks, into one.
fn merge(mut first: &[Named], left: u16, mut second: &[Named], right: u16, with: impl Fn(u16, u16) -> u16, out: &mut Vec<Named>) {
    while let ([n, after_n @ ..], [m, after_m @ ..]) = (first, second) {
        let rank = n.rank.min(m.rank);
        let x = if n.rank == rank { n.count } else { left };
        let y = if m.rank == rank { m.count } else { right };
        first = if n.rank == rank { after_n } else { first };
        second = if m.rank == rank { after_m } else { second };
        out.push(Named { rank, count: with(x, y) });
    }
    out.extend(first.iter().map(|n| Named { rank: n.rank, count: with(n.count, right) }));
    out.extend(second.iter().map(|m| Named { rank: m.rank, count: with(left, m.count) }));
}
