//! Net files: the net, and its reader, which goes once over the file.
use super::commands::{refuse, unless, File, Reading};
use super::expressions::{holds, Binding, Colour, Guard, Room, Term, NO_VARIABLE};
use super::firing::Weight;

const MOST_BYTES: usize = 16384;
const MOST_SETS: usize = 16;
const MOST_THINGS: usize = 32; // variables, places, transitions
const MOST_COLOURS: usize = 4096;
const MOST_BINDINGS: usize = 65536;
const MOST_VARIABLES: usize = 4; // of one transition
const DEEPEST: u8 = 16;
const HIGHEST: u32 = 65535;

/// A variable: its set, and how many colours that has.
#[derive(Clone, Copy)]
struct Variable {
    set: u8,
    size: u8,
}

/// A place: its one or two sets, its first flat place, and how many colours it has.
#[derive(Clone, Copy)]
struct Place {
    sets: (u8, Option<u8>),
    first: usize,
    colours: usize,
}

/// An arc: its place and its expression.
#[derive(Clone, Copy)]
pub struct Arc {
    place: u8,
    term: u16,
}

/// A variable that a transition uses: its number, and how many colours it has.
#[derive(Clone, Copy, Default)]
pub struct Used {
    pub variable: u8,
    pub size: u8,
}

/// A transition: its guard (none: true), its arcs of each kind by rising place, its variables by rising number, and how many
/// bindings it has.
pub struct Transition {
    pub guard: Option<u16>,
    pub inputs: Vec<Arc>,
    pub outputs: Vec<Arc>,
    pub inhibitors: Vec<Arc>,
    variables: [Used; MOST_VARIABLES],
    count: usize,
    pub bindings: usize,
}

impl Transition {
    /// Its variables.
    #[inline]
    pub fn variables(&self) -> &[Used] {
        &self.variables[..self.count]
    }

    /// Goes on to the next binding; false, and back at the first, after the last one.
    #[inline]
    pub fn advance(&self, binding: &mut Binding) -> bool {
        for used in self.variables().iter().rev() {
            let colour = &mut binding[used.variable as usize];
            *colour += 1;
            if *colour < used.size {
                return true;
            }
            *colour = 0;
        }
        false
    }
}

/// A net that was read.
#[derive(Default)]
pub struct Net {
    sets: Vec<u8>,
    variables: Vec<Variable>,
    places: Vec<Place>,
    pub transitions: Vec<Transition>,
    pub initial: Vec<u16>,
    guards: Vec<Guard>,
    terms: Vec<Term>,
    pub flat_places: usize,
    pub bindings: usize,
}

impl Net {
    /// Whether a transition's guard holds.
    #[inline]
    pub fn holds(&self, transition: &Transition, binding: &Binding) -> bool {
        transition.guard.map_or(true, |guard| holds(&self.guards, guard, binding))
    }

    /// Puts the weights above 0 that arcs of one kind give into a list, by rising flat place.
    pub fn load(&self, arcs: &[Arc], binding: &Binding, room: &mut Room, weights: &mut Vec<Weight>) {
        weights.clear();
        for arc in arcs {
            let place = self.places[arc.place as usize];
            let (named, rest) = room.counts(&self.terms, arc.term, binding);
            let weight = |rank: usize, weight: u16| Weight { place: (place.first + rank) as u16, weight };
            if rest == 0 {
                weights.extend(named.iter().filter(|n| n.count > 0).map(|n| weight(n.rank as usize, n.count)));
                continue;
            }
            let mut next = 0;
            for n in named {
                weights.extend((next..n.rank as usize).map(|rank| weight(rank, rest)));
                weights.extend((n.count > 0).then(|| weight(n.rank as usize, n.count)));
                next = n.rank as usize + 1;
            }
            weights.extend((next..place.colours).map(|rank| weight(rank, rest)));
        }
    }
}

/// Reads a net file.
pub fn read(bytes: &[u8]) -> Reading<Net> {
    unless(bytes.len() <= MOST_BYTES, 1, MOST_BYTES)?;
    let mut reader = Reader { file: File::new(bytes), net: Net::default(), used: 0 };
    let edition = reader.file.command(|byte| byte == 0x01)?;
    unless(edition.operands[0] == 1, 5, edition.place)?;
    reader.sets()?;
    reader.variables()?;
    reader.places()?;
    while reader.file.next() == Some(0x14) {
        reader.transition()?;
    }
    reader.tokens()?;
    reader.file.finish()?;
    Ok(reader.net)
}

/// The file that is being read, what was read of the net, and the variables used in the transition so far, one bit each.
struct Reader<'a> {
    file: File<'a>,
    net: Net,
    used: u32,
}

impl Reader<'_> {
    fn sets(&mut self) -> Reading<()> {
        while self.file.next() == Some(0x10) {
            let set = self.file.command(|_| true)?;
            let size = set.operands[0];
            unless((1..=64).contains(&size), 5, set.place)?;
            unless(self.net.sets.len() < MOST_SETS, 4, set.place)?;
            self.net.sets.push(size);
        }
        Ok(())
    }

    fn variables(&mut self) -> Reading<()> {
        while self.file.next() == Some(0x11) {
            let variable = self.file.command(|_| true)?;
            let set = variable.operands[0];
            let Some(&size) = self.net.sets.get(set as usize) else { return refuse(5, variable.place) };
            unless(self.net.variables.len() < MOST_THINGS, 4, variable.place)?;
            self.net.variables.push(Variable { set, size });
        }
        Ok(())
    }

    fn places(&mut self) -> Reading<()> {
        while let Some(0x12 | 0x13) = self.file.next() {
            let place = self.file.command(|_| true)?;
            let mut colours = 1;
            for &set in place.operands {
                let Some(&size) = self.net.sets.get(set as usize) else { return refuse(5, place.place) };
                colours *= size as usize;
            }
            let first = self.net.flat_places;
            unless(self.net.places.len() < MOST_THINGS && first + colours <= MOST_COLOURS, 4, place.place)?;
            let sets = (place.operands[0], place.operands.get(1).copied());
            self.net.places.push(Place { sets, first, colours });
            self.net.flat_places += colours;
        }
        Ok(())
    }

    fn transition(&mut self) -> Reading<()> {
        let start = self.file.command(|_| true)?.place;
        unless(self.net.transitions.len() < MOST_THINGS, 4, start)?;
        self.used = 0;
        let mut guard = None;
        if self.file.next() == Some(0x15) {
            self.file.command(|_| true)?;
            guard = Some(self.guard(1)?);
        }
        let [inputs, outputs, inhibitors] = self.arcs()?;
        let (variables, count, bindings) = self.bindings(start)?;
        self.net.transitions.push(Transition { guard, inputs, outputs, inhibitors, variables, count, bindings });
        Ok(())
    }

    /// The variables that the transition at this place uses, how many they are, and how many bindings they have: 10 and 11.
    fn bindings(&mut self, start: usize) -> Reading<([Used; MOST_VARIABLES], usize, usize)> {
        let count = self.used.count_ones() as usize;
        unless(count <= MOST_VARIABLES, 10, start)?;
        let (mut variables, mut left, mut bindings) = ([Used::default(); MOST_VARIABLES], self.used, 1);
        for used in &mut variables[..count] {
            let variable = left.trailing_zeros() as u8;
            *used = Used { variable, size: self.net.variables[variable as usize].size };
            bindings *= used.size as usize;
            left &= left - 1;
        }
        self.net.bindings += bindings;
        unless(self.net.bindings <= MOST_BINDINGS, 11, start)?;
        Ok((variables, count, bindings))
    }

    /// Reads a transition's arcs, up to a byte that neither opens one nor a guard.
    fn arcs(&mut self) -> Reading<[Vec<Arc>; 3]> {
        let (mut arcs, mut there) = ([vec![], vec![], vec![]], [0u32; 3]);
        while let Some(0x15..=0x18) = self.file.next() {
            let arc = self.file.command(|byte| byte != 0x15)?;
            let (kind, place) = (arc.byte as usize - 0x16, arc.operands[0]);
            unless((place as usize) < self.net.places.len(), 5, arc.place)?;
            unless(there[kind] >> place & 1 == 0, 9, arc.place)?;
            there[kind] |= 1 << place;
            let (term, _) = self.term(self.net.places[place as usize].sets, 1)?;
            arcs[kind].push(Arc { place, term });
        }
        arcs.iter_mut().for_each(|kind| kind.sort_unstable_by_key(|arc| arc.place));
        Ok(arcs)
    }

    fn tokens(&mut self) -> Reading<()> {
        self.net.initial = vec![0; self.net.flat_places];
        let mut told = vec![false; self.net.flat_places];
        while self.file.next() == Some(0x19) {
            let tokens = self.file.command(|_| true)?;
            let (place, rank) = (self.net.places.get(tokens.operands[0] as usize), tokens.word(1) as usize);
            let Some(place) = place.filter(|place| rank < place.colours) else { return refuse(5, tokens.place) };
            let at = place.first + rank;
            unless(!told[at], 9, tokens.place)?;
            told[at] = true;
            self.net.initial[at] = tokens.word(3);
        }
        Ok(())
    }

    fn colour(&mut self, level: u8) -> Reading<Colour> {
        let command = self.file.command(|byte| matches!(byte, 0x30..=0x33))?;
        let here = match (command.byte, command.operands) {
            (0x30, &[variable]) => match self.net.variables.get(variable as usize) {
                Some(&Variable { set, size }) => Some(Colour { variable, steps: 0, set, size }),
                None => return refuse(5, command.place),
            },
            (0x31, &[set, colour]) => match self.net.sets.get(set as usize) {
                Some(&size) if colour < size => Some(Colour { variable: NO_VARIABLE, steps: colour, set, size }),
                _ => return refuse(5, command.place),
            },
            _ => None,
        };
        unless(level <= DEEPEST, 7, command.place)?;
        if let Some(colour) = here {
            if colour.variable != NO_VARIABLE {
                self.used |= 1 << colour.variable;
            }
            return Ok(colour);
        }
        let inner = self.colour(level + 1)?;
        Ok(if command.byte == 0x32 { inner.successor() } else { inner.predecessor() })
    }

    /// Reads a guard, and gives its number.
    fn guard(&mut self, level: u8) -> Reading<u16> {
        let command = self.file.command(|byte| matches!(byte, 0x20..=0x25))?;
        unless(level <= DEEPEST, 7, command.place)?;
        let guard = match command.byte {
            0x20 => Guard::True,
            0x21 => Guard::Not(self.guard(level + 1)?),
            0x22 => Guard::And(self.guard(level + 1)?, self.guard(level + 1)?),
            0x23 => Guard::Or(self.guard(level + 1)?, self.guard(level + 1)?),
            byte => {
                let (k, l) = (self.colour(level + 1)?, self.colour(level + 1)?);
                unless(k.set == l.set, 6, command.place)?;
                if byte == 0x24 { Guard::Equal(k, l) } else { Guard::Less(k, l) }
            }
        };
        self.net.guards.push(guard);
        Ok(self.net.guards.len() as u16 - 1)
    }

    /// Reads an arc expression for a place of these sets, and gives its number and its ceiling.
    fn term(&mut self, sets: (u8, Option<u8>), level: u8) -> Reading<(u16, u32)> {
        let command = self.file.command(|byte| matches!(byte, 0x40..=0x44))?;
        unless(level <= DEEPEST, 7, command.place)?;
        let (term, ceiling) = match command.byte {
            0x40 => {
                let first = self.colour(level + 1)?;
                let second = sets.1.map(|_| self.colour(level + 1)).transpose()?;
                unless(first.set == sets.0 && second.map(|k| k.set) == sets.1, 6, command.place)?;
                let count = command.word(0);
                (Term::One { count, first, second: second.unwrap_or(Colour::ONLY) }, count as u32)
            }
            0x41 => (Term::All { count: command.word(0) }, command.word(0) as u32),
            0x44 => {
                let (e, ceiling) = self.term(sets, level + 1)?;
                (Term::Times(command.word(0), e), command.word(0) as u32 * ceiling)
            }
            byte => {
                let ((e, left), (f, right)) = (self.term(sets, level + 1)?, self.term(sets, level + 1)?);
                if byte == 0x42 { (Term::Plus(e, f), left + right) } else { (Term::Minus(e, f), left) }
            }
        };
        unless(ceiling <= HIGHEST, 8, command.place)?;
        self.net.terms.push(term);
        Ok((self.net.terms.len() as u16 - 1, ceiling))
    }
}

/// How many flat places, transitions and bindings a net file's net has.
pub fn net_sizes(file: &[u8]) -> Reading<(usize, usize, usize)> {
    read(file).map(|net| (net.flat_places, net.transitions.len(), net.bindings))
}
