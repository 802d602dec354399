//! Random net files: sound ones of every shape, and ones that break the rules of one or two refusals now and then.
use super::dice::Dice;

/// How large a file may become.
#[derive(Clone, Copy, PartialEq, Eq)]
pub enum Scale {
    Small,
    Any,
}

/// A net in the making. A number is `broken` where the rule of that refusal is to be broken now and then.
pub struct Maker<'a> {
    dice: &'a mut Dice,
    broken: Vec<u8>,
    small: bool,
    deep: bool,
    pub sets: Vec<usize>,
    pub variables: Vec<usize>,
    pub places: Vec<Vec<usize>>,
    space: usize,
    pub out: Vec<u8>,
}

/// A sound net file.
pub fn sound(dice: &mut Dice, scale: Scale) -> Vec<u8> {
    Maker::new(dice, vec![], scale).net()
}

/// A net file in which the rules of one or two refusals are broken, or nearly.
pub fn careless(dice: &mut Dice, scale: Scale) -> Vec<u8> {
    let count = dice.among(&[1, 1, 2]);
    let broken = dice.sample(&[4, 5, 6, 7, 8, 9, 10, 11], count);
    Maker::new(dice, broken, scale).net()
}

impl<'a> Maker<'a> {
    pub fn new(dice: &'a mut Dice, broken: Vec<u8>, scale: Scale) -> Maker<'a> {
        let small = scale == Scale::Small;
        let deep = broken.contains(&7) || dice.percent(if small { 5 } else { 20 });
        let mut maker = Maker { dice, broken, small, deep, sets: vec![], variables: vec![], places: vec![], space: 0, out: vec![] };
        maker.declare();
        maker
    }

    /// Chooses sets, variables and places.
    fn declare(&mut self) {
        let small = self.small;
        for _ in 0..self.many(if small { &[0, 1, 1, 2, 2, 3] } else { &[0, 1, 1, 2, 2, 3, 5, 16] }, 16) {
            let size = self.size();
            self.sets.push(size);
        }
        if self.sets.is_empty() {
            return;
        }
        for _ in 0..self.many(if small { &[0, 1, 1, 2, 3, 4] } else { &[0, 1, 2, 3, 4, 5, 8, 32] }, 32) {
            let set = self.number(self.sets.len());
            self.variables.push(set);
        }
        let most = self.dice.among(if small { &[4, 8, 20] } else { &[8, 40, 200, 200, 4096] });
        let mut colours = 0;
        for _ in 0..self.many(if small { &[0, 1, 2, 2, 3] } else { &[0, 1, 2, 2, 3, 4, 6, 32] }, 32) {
            let width = self.dice.among(&[1, 1, 2]);
            let sets: Vec<usize> = (0..width).map(|_| self.number(self.sets.len())).collect();
            let size = self.product(&sets);
            if colours + size <= most || self.slip(4) {
                self.places.push(sets);
                colours += size;
            }
        }
        self.space = if small { 12 } else { (60000 / colours.max(1)).min(2000) };
    }

    /// Whether the rule of this refusal is broken here.
    fn slip(&mut self, number: u8) -> bool {
        self.broken.contains(&number) && self.dice.percent(25)
    }

    /// How many of a thing, or one more than there may be.
    fn many(&mut self, choices: &[usize], most: usize) -> usize {
        if self.slip(4) { most + 1 } else { self.dice.among(choices) }
    }

    /// The number of one of so many things.
    fn number(&mut self, count: usize) -> usize {
        if self.slip(5) { count } else { self.dice.below(count) }
    }

    fn size(&mut self) -> usize {
        if self.slip(5) {
            return self.dice.among(&[0, 65, 255]);
        }
        if self.broken.contains(&11) {
            return self.dice.among(&[16, 17, 64]);
        }
        let any = 1 + self.dice.below(64);
        if self.small { self.dice.among(&[1, 2, 2, 3, 3, 4]) } else { self.dice.among(&[1, 1, 2, 2, 3, 4, 7, 64, any]) }
    }

    /// How many colours these sets have together.
    fn product(&self, sets: &[usize]) -> usize {
        sets.iter().map(|&s| self.sets.get(s).map_or(1, |&size| size)).product()
    }

    fn word(&mut self, n: usize) {
        self.out.extend((n as u16).to_le_bytes());
    }

    /// Writes the edition and what was chosen.
    pub fn head(&mut self) {
        self.out.extend([0x01, 1]);
        self.out.extend(self.sets.iter().flat_map(|&size| [0x10, size as u8]));
        self.out.extend(self.variables.iter().flat_map(|&set| [0x11, set as u8]));
        for sets in &self.places {
            self.out.push(0x11 + sets.len() as u8);
            self.out.extend(sets.iter().map(|&s| s as u8));
        }
    }

    /// The whole net file.
    pub fn net(mut self) -> Vec<u8> {
        self.head();
        let small = self.small;
        for _ in 0..self.many(if small { &[0, 1, 1, 1, 2] } else { &[0, 1, 1, 2, 3, 5, 32] }, 32) {
            self.transition();
        }
        self.tokens();
        self.out.push(0x1F);
        self.out
    }

    /// A transition over at most four variables, within the binding space that is left.
    pub fn transition(&mut self) {
        let wanted = if self.slip(10) { 7 } else { self.dice.among(&[0, 1, 2, 3, 4, 4]) };
        let all: Vec<usize> = (0..self.variables.len()).collect();
        let mut pool = vec![];
        for v in self.dice.sample(&all, wanted) {
            pool.push(v);
            if wanted < 7 && !self.broken.contains(&11) && self.bindings(&pool) > self.space {
                pool.pop();
            }
        }
        self.space -= self.space.min(self.bindings(&pool));
        self.out.push(0x14);
        if self.dice.percent(60) {
            self.out.push(0x15);
            self.guard(1, &pool);
        }
        let arcs: Vec<(u8, usize)> = (0x16..=0x18).flat_map(|kind| (0..self.places.len()).map(move |place| (kind, place))).collect();
        let count = self.dice.among(if self.small { &[0, 1, 1, 2, 3] } else { &[0, 1, 2, 3, 4, 6] });
        let mut arcs = self.dice.sample(&arcs, count);
        if !arcs.is_empty() && self.slip(9) {
            arcs.push(self.dice.among(&arcs));
        }
        for (kind, place) in arcs {
            self.arc(kind, place, &pool);
        }
    }

    fn bindings(&self, pool: &[usize]) -> usize {
        self.product(&pool.iter().map(|&v| self.variables[v]).collect::<Vec<_>>())
    }

    /// An arc with its expression.
    pub fn arc(&mut self, kind: u8, place: usize, pool: &[usize]) {
        let most = self.dice.among(&[3, 3, 3, 9, 65535]);
        let shown = if self.slip(5) { self.places.len() } else { place };
        self.out.extend([kind, shown as u8]);
        match self.dice.below(100) {
            0..=9 if self.out.len() < 3000 => self.sum(place, pool),
            10..=13 => self.all_but_one(place, pool),
            _ => self.term(place, 1, pool, most),
        }
    }

    /// A sum of many counts, nested evenly or to one side; now and then one of them is something else.
    fn sum(&mut self, place: usize, pool: &[usize]) {
        let count = self.dice.among(if self.small || self.deep { &[2, 3, 5, 16, 17, 33] } else { &[2, 4, 9, 16, 17, 32, 33, 64, 65, 130, 300] });
        let lean = self.dice.below(3);
        let strange = if self.dice.percent(30) { self.dice.below(count) } else { count };
        self.operands(place, 1, pool, (0..count, lean, strange));
    }

    /// These operands of a sum, each of a ceiling of at most 2.
    pub fn operands(&mut self, place: usize, level: usize, pool: &[usize], (these, lean, strange): (std::ops::Range<usize>, usize, usize)) {
        if these.len() == 1 && these.start == strange {
            let byte = self.dice.among(&[0x41, 0x44]);
            self.out.extend([byte, 1, 0]);
            return if byte == 0x44 { self.term(place, level + 1, pool, 2) };
        }
        if these.len() == 1 {
            let number = self.dice.among(&[0, 1, 1, 2]);
            return self.count(place, level, pool, number);
        }
        let even = lean == 0 || level + these.len() > 13;
        let middle = if even { these.start + these.len() / 2 } else if lean == 1 { these.start + 1 } else { these.end - 1 };
        self.out.push(0x42);
        self.operands(place, level + 1, pool, (these.start..middle, lean, strange));
        self.operands(place, level + 1, pool, (middle..these.end, lean, strange));
    }

    /// Every colour less one.
    pub fn all_but_one(&mut self, place: usize, pool: &[usize]) {
        self.out.extend([0x43, 0x41]);
        let (all, one) = (self.dice.among(&[0, 1, 1, 2, 3]), self.dice.among(&[0, 1, 1, 2, 3]));
        self.word(all);
        self.count(place, 2, pool, one);
    }

    /// A count of one colour or pair.
    fn count(&mut self, place: usize, level: usize, pool: &[usize], number: usize) {
        self.out.push(0x40);
        self.word(number);
        for set in self.places[place].clone() {
            self.colour(set, level + 1, pool);
        }
    }

    /// Whether an expression at this level shall hold another one.
    fn nests(&mut self, level: usize) -> bool {
        let heavy = self.broken.contains(&8);
        let percent = if self.deep { 93 } else if heavy { 60 } else if self.small { 20 } else { 30 };
        self.inner(level) && self.dice.percent(percent)
    }

    /// Whether an expression at this level may hold another one.
    fn inner(&mut self, level: usize) -> bool {
        level < 16 || level < 20 && self.slip(7)
    }

    pub fn colour(&mut self, set: usize, level: usize, pool: &[usize]) {
        let set = if self.slip(6) { self.dice.below(self.sets.len()) } else { set };
        if self.nests(level) {
            let step = self.dice.among(&[0x32, 0x33]);
            self.out.push(step);
            return self.colour(set, level + 1, pool);
        }
        let fitting: Vec<usize> = pool.iter().copied().filter(|&v| self.variables[v] == set).collect();
        if !fitting.is_empty() && self.dice.percent(80) {
            let variable = if self.slip(5) { self.variables.len() } else { self.dice.among(&fitting) };
            self.out.extend([0x30, variable as u8]);
            return;
        }
        let size = self.sets.get(set).copied().unwrap_or(1).max(1);
        let any = if self.slip(5) { size } else { self.dice.below(size) };
        let colour = self.dice.among(&[0, size - 1, any]);
        self.out.extend([0x31, set as u8, colour as u8]);
    }

    pub fn guard(&mut self, level: usize, pool: &[usize]) {
        let percent = if self.deep { 10 } else { 60 };
        if self.inner(level) && !self.sets.is_empty() && self.dice.percent(percent) {
            let set = if pool.is_empty() { self.dice.below(self.sets.len()) } else { self.variables[self.dice.among(pool)] };
            let byte = self.dice.among(&[0x24, 0x25]);
            self.out.push(byte);
            self.colour(set, level + 1, pool);
            self.colour(set, level + 1, pool);
        } else if !self.nests(level) {
            self.out.push(0x20);
        } else if self.deep || self.dice.percent(40) {
            self.out.push(0x21);
            self.guard(level + 1, pool);
        } else {
            let byte = self.dice.among(&[0x22, 0x23]);
            self.out.push(byte);
            self.guard(level + 1, pool);
            self.guard(level + 1, pool);
        }
    }

    /// An arc expression whose ceiling is at most this.
    pub fn term(&mut self, place: usize, level: usize, pool: &[usize], most: usize) {
        let most = if self.slip(8) { 65535 } else { most };
        if self.nests(level) {
            return self.nested_term(place, level, pool, most);
        }
        let count = self.dice.among(&[0, 1, 1, 2, 3, most]).min(most);
        if !self.inner(level) || self.dice.percent(20) {
            self.out.push(0x41);
            return self.word(count);
        }
        self.count(place, level, pool, count);
    }

    fn nested_term(&mut self, place: usize, level: usize, pool: &[usize], most: usize) {
        let kind = self.dice.among(&[0x42, 0x43, 0x44]);
        self.out.push(kind);
        if kind == 0x44 {
            let factor = self.dice.among(&[0, 1, 1, 2, 3, 255, 256, most]).min(most);
            self.word(factor);
            return self.term(place, level + 1, pool, most / factor.max(1));
        }
        let first = if kind == 0x42 { self.dice.below(most + 1) } else { most };
        let second = if kind == 0x42 { most - first } else { self.dice.among(&[2, 65535]) };
        self.term(place, level + 1, pool, first);
        let deep = std::mem::replace(&mut self.deep, false);
        self.term(place, level + 1, pool, second);
        self.deep = deep;
    }

    /// Tokens at some ranks.
    pub fn tokens(&mut self) {
        let mut ranks = vec![];
        for place in 0..self.places.len() {
            let beyond = self.slip(5) as usize;
            ranks.extend((0..self.product(&self.places[place]) + beyond).map(|rank| (place, rank)));
        }
        let count = self.dice.among(if self.small { &[0, 0, 1, 2] } else { &[0, 1, 2, 5, 9] });
        let mut chosen = self.dice.sample(&ranks, count);
        if !chosen.is_empty() && self.slip(9) {
            chosen.push(self.dice.among(&chosen));
        }
        for (place, rank) in chosen {
            let count = some_count(self.dice, &[2, 3]);
            self.out.extend([0x19, place as u8]);
            self.word(rank);
            self.word(count as usize);
        }
    }
}

/// A count that tells weights apart: at one of them, next to it, at 0, or at or near the highest.
pub fn some_count(dice: &mut Dice, weights: &[u16]) -> u16 {
    let w = dice.among(weights);
    dice.among(&[0, 1, w, w, w.saturating_sub(1), w.saturating_add(1), 65535, 65535 - w, (65535 - w).saturating_add(1), 5])
}
