//! Random procedures, files, formulas and sessions, from a generator with a fixed seed.
#![allow(dead_code)]

use crate::naive;
use std::fmt;

/// xorshift64*
pub struct Random(u64);

impl Random {
    pub fn new(seed: u64) -> Random {
        Random(seed.wrapping_mul(0x9e37_79b9_7f4a_7c15) | 1)
    }

    pub fn next(&mut self) -> u64 {
        self.0 ^= self.0 >> 12;
        self.0 ^= self.0 << 25;
        self.0 ^= self.0 >> 27;
        self.0.wrapping_mul(0x2545_f491_4f6c_dd1d) >> 16
    }

    pub fn below(&mut self, n: usize) -> usize {
        (self.next() % n as u64) as usize
    }

    /// From `low` to `high`, both included.
    pub fn between(&mut self, low: usize, high: usize) -> usize {
        low + self.below(high - low + 1)
    }

    /// Yes in so many of a hundred cases.
    pub fn percent(&mut self, chance: usize) -> bool {
        self.below(100) < chance
    }

    pub fn pick<T: Copy>(&mut self, from: &[T]) -> T {
        from[self.below(from.len())]
    }

    pub fn shuffle<T>(&mut self, list: &mut [T]) {
        for i in (1..list.len()).rev() {
            list.swap(i, self.below(i + 1));
        }
    }

    pub fn fill16(&mut self, length: usize) -> Vec<u16> {
        (0..length).map(|_| self.next() as u16).collect()
    }

    pub fn fill8(&mut self, length: usize) -> Vec<u8> {
        (0..length).map(|_| self.next() as u8).collect()
    }
}

/// An input as the library takes it.
#[derive(Clone, PartialEq)]
pub enum Bytes {
    Term(Vec<u8>),
    Table(Vec<u8>),
}

impl Bytes {
    pub fn bytes(&self) -> &[u8] {
        match self {
            Bytes::Term(bytes) | Bytes::Table(bytes) => bytes,
        }
    }

    pub fn bytes_mut(&mut self) -> &mut Vec<u8> {
        match self {
            Bytes::Term(bytes) | Bytes::Table(bytes) => bytes,
        }
    }

    pub fn input(&self) -> nabrotzu::Input<'_> {
        match self {
            Bytes::Term(bytes) => nabrotzu::Input::Term(bytes),
            Bytes::Table(bytes) => nabrotzu::Input::Table(bytes),
        }
    }

    pub fn kind(&self) -> u8 {
        match self {
            Bytes::Term(_) => nabrotzu::raw::TERM,
            Bytes::Table(_) => nabrotzu::raw::TABLE,
        }
    }

    /// What the naive implementation makes of it.
    pub fn read(&self) -> Result<naive::Procedure, naive::Refusal> {
        match self {
            Bytes::Term(text) => naive::terms::read(text).map(|term| naive::terms::graph(&term)),
            Bytes::Table(file) => naive::tables::read(file),
        }
    }
}

impl fmt::Debug for Bytes {
    fn fmt(&self, f: &mut fmt::Formatter<'_>) -> fmt::Result {
        match self {
            Bytes::Term(text) => write!(f, "Term(b\"{}\")", text.escape_ascii()),
            Bytes::Table(file) => write!(f, "Table(&{file:?})"),
        }
    }
}

const CHARACTERS: &[u8] = b"abcdefghijklmnopqrstuvwxyzABCDEFGHIJKLMNOPQRSTUVWXYZ0123456789";

/// Some action characters, often few, so that procedures meet.
pub fn alphabet(random: &mut Random) -> Vec<u8> {
    let size = random.pick(&[1, 1, 2, 2, 2, 3, 3, 4, 8, 62]);
    let first = if random.percent(50) { 0 } else { random.below(62) };
    (0..size).map(|i| CHARACTERS[(first + i) % 62]).collect()
}

/// A term as a tree.
#[derive(Clone, Debug, PartialEq)]
pub enum Tree {
    Action(u8),
    Sum(Box<Tree>, Box<Tree>),
    Sequence(Box<Tree>, Box<Tree>),
}

fn sum(x: Tree, y: Tree) -> Tree {
    Tree::Sum(Box::new(x), Box::new(y))
}

fn sequence(x: Tree, y: Tree) -> Tree {
    Tree::Sequence(Box::new(x), Box::new(y))
}

impl Tree {
    pub fn random(random: &mut Random, actions: usize, characters: &[u8]) -> Tree {
        if random.percent(6) {
            return Tree::groups(random, actions, characters);
        }
        let sums = random.pick(&[5, 30, 50, 50, 70, 95]);
        let lopsided = random.percent(30);
        Tree::shaped(random, actions, characters, sums, lopsided)
    }

    /// A sequence of wide choices: many steps.
    pub fn groups(random: &mut Random, actions: usize, characters: &[u8]) -> Tree {
        let width = random.between(1, actions);
        let mut left = actions;
        let mut tree: Option<Tree> = None;
        while left > 0 {
            let mut group = Tree::Action(random.pick(characters));
            for _ in 1..width.min(left) {
                group = sum(group, Tree::Action(random.pick(characters)));
            }
            left -= width.min(left);
            tree = Some(match tree {
                None => group,
                Some(tree) => sequence(tree, group),
            });
        }
        tree.unwrap()
    }

    /// A choice of 16, then one of 31: 512 steps; and with one more action beside it 513.
    pub fn at_512_steps(random: &mut Random, characters: &[u8]) -> Tree {
        let mut choice = |count: usize| {
            let action = Tree::Action(random.pick(characters));
            (1..count).fold(action.clone(), |group, _| sum(group, action.clone()))
        };
        let full = sequence(choice(16), choice(31));
        if random.percent(50) { full } else { sum(full, Tree::Action(random.pick(characters))) }
    }

    fn shaped(random: &mut Random, actions: usize, characters: &[u8], sums: usize, lopsided: bool) -> Tree {
        if actions == 1 {
            return Tree::Action(random.pick(characters));
        }
        let first = match (lopsided, random.percent(50)) {
            (true, true) => 1,
            (true, false) => actions - 1,
            _ => random.between(1, actions - 1),
        };
        let x = Tree::shaped(random, first, characters, sums, lopsided);
        let y = Tree::shaped(random, actions - first, characters, sums, lopsided);
        if random.percent(sums) { sum(x, y) } else { sequence(x, y) }
    }

    pub fn actions(&self) -> usize {
        match self {
            Tree::Action(_) => 1,
            Tree::Sum(x, y) | Tree::Sequence(x, y) => x.actions() + y.actions(),
        }
    }

    /// The text, with the brackets that it needs and, in so many of a hundred places, more.
    pub fn text(&self, random: &mut Random, brackets: usize) -> Vec<u8> {
        let mut out = vec![];
        self.write(random, brackets, 0, &mut out);
        out
    }

    /// `place` is 0 where a sum may stand, 1 where a product may, and 2 where only an operand may.
    fn write(&self, random: &mut Random, brackets: usize, place: usize, out: &mut Vec<u8>) {
        let needed = match self {
            Tree::Action(_) => false,
            Tree::Sum(..) => place > 0,
            Tree::Sequence(..) => place > 1,
        };
        if needed || random.percent(brackets) {
            out.push(b'(');
            self.inner(random, brackets, out);
            out.push(b')');
        } else {
            self.inner(random, brackets, out);
        }
    }

    fn inner(&self, random: &mut Random, brackets: usize, out: &mut Vec<u8>) {
        match self {
            Tree::Action(character) => out.push(*character),
            Tree::Sum(x, y) => {
                x.write(random, brackets, 0, out);
                out.push(b'+');
                y.write(random, brackets, 1, out);
            }
            Tree::Sequence(x, y) => {
                x.write(random, brackets, 1, out);
                out.push(b'.');
                y.write(random, brackets, 2, out);
            }
        }
    }

    /// The tree with some node replaced.
    fn edited(&self, random: &mut Random, edit: &mut dyn FnMut(&Tree, &mut Random) -> Tree) -> Tree {
        match self {
            Tree::Action(_) => edit(self, random),
            _ if random.percent(35) => edit(self, random),
            Tree::Sum(x, y) if random.percent(50) => sum(x.edited(random, edit), (**y).clone()),
            Tree::Sum(x, y) => sum((**x).clone(), y.edited(random, edit)),
            Tree::Sequence(x, y) if random.percent(50) => sequence(x.edited(random, edit), (**y).clone()),
            Tree::Sequence(x, y) => sequence((**x).clone(), y.edited(random, edit)),
        }
    }

    /// A tree that behaves alike.
    pub fn rewritten(&self, random: &mut Random) -> Tree {
        self.edited(random, &mut |tree, random| match tree {
            Tree::Sum(x, y) if random.percent(30) => sum((**y).clone(), (**x).clone()),
            Tree::Sum(x, y) if random.percent(60) => match (&**x, &**y) {
                // x.z + y.z is (x + y).z
                (Tree::Sequence(p, q), Tree::Sequence(r, s)) if q == s => {
                    sequence(sum((**p).clone(), (**r).clone()), (**q).clone())
                }
                (_, Tree::Sum(p, q)) => sum(sum((**x).clone(), (**p).clone()), (**q).clone()),
                (Tree::Sum(p, q), _) => sum((**p).clone(), sum((**q).clone(), (**y).clone())),
                _ if x == y => (**x).clone(),
                _ => sum((**y).clone(), (**x).clone()),
            },
            Tree::Sequence(x, z) if random.percent(70) => match (&**x, &**z) {
                // (x + y).z is x.z + y.z
                (Tree::Sum(p, q), _) => {
                    sum(sequence((**p).clone(), (**z).clone()), sequence((**q).clone(), (**z).clone()))
                }
                (Tree::Sequence(p, q), _) => sequence((**p).clone(), sequence((**q).clone(), (**z).clone())),
                (_, Tree::Sequence(p, q)) => sequence(sequence((**x).clone(), (**p).clone()), (**q).clone()),
                _ => sum(tree.clone(), tree.clone()),
            },
            _ => sum(tree.clone(), tree.clone()),
        })
    }

    /// A tree that most often behaves otherwise.
    pub fn changed(&self, random: &mut Random, characters: &[u8]) -> Tree {
        self.edited(random, &mut |tree, random| match tree {
            Tree::Action(character) => match random.below(4) {
                0 => sequence(tree.clone(), tree.clone()),
                1 => sum(tree.clone(), Tree::Action(random.pick(characters))),
                2 => Tree::Action(random.pick(characters)),
                _ => Tree::Action(if *character == b'a' { b'b' } else { b'a' }),
            },
            Tree::Sum(x, y) => match random.below(3) {
                0 => sequence((**x).clone(), (**y).clone()),
                1 => (**x).clone(),
                _ => (**y).clone(),
            },
            Tree::Sequence(x, z) => match &**z {
                // x.(y + z) is not x.y + x.z, though the two have the same traces
                Tree::Sum(p, q) if random.percent(60) => {
                    sum(sequence((**x).clone(), (**p).clone()), sequence((**x).clone(), (**q).clone()))
                }
                _ => match random.below(3) {
                    0 => (**x).clone(),
                    1 => (**z).clone(),
                    _ => sum((**x).clone(), (**z).clone()),
                },
            },
        })
    }
}

/// A table: states, ends and steps.
#[derive(Clone, Debug, PartialEq)]
pub struct Table {
    pub n: usize,
    pub ends: Vec<usize>,
    pub steps: Vec<(usize, u8, usize)>,
}

impl Table {
    pub fn random(random: &mut Random, n: usize) -> Table {
        let actions = random.pick(&[1, 1, 2, 2, 3, 5, 64]);
        let base = random.below(64);
        let action = |random: &mut Random| ((base + random.below(actions)) % 64) as u8;
        let mut steps = vec![];
        match random.below(6) {
            // A chain, perhaps closed to a ring, perhaps with short cuts.
            0 => {
                for s in 0..n - 1 {
                    steps.push((s, action(random), s + 1));
                }
                if random.percent(40) {
                    steps.push((n - 1, action(random), random.below(n)));
                }
                for _ in 0..random.pick(&[0, 0, 1, 3]) {
                    steps.push((random.below(n), action(random), random.below(n)));
                }
            }
            // Steps forward only.
            1 => {
                for s in 0..n - 1 {
                    for _ in 0..random.between(1, 3) {
                        steps.push((s, action(random), random.between(s + 1, n - 1)));
                    }
                }
            }
            // Few targets.
            2 => {
                let targets = random.between(1, n.min(4));
                for _ in 0..n * 3 {
                    steps.push((random.below(n), action(random), random.below(targets)));
                }
            }
            // Any.
            _ => {
                for _ in 0..n * random.between(0, 4) {
                    steps.push((random.below(n), action(random), random.below(n)));
                }
            }
        }
        let chance = random.pick(&[0, 5, 20, 50, 100]);
        let mut ends: Vec<usize> = (0..n).filter(|_| random.percent(chance)).collect();
        if random.percent(50) {
            // Where nothing follows is an end.
            ends.extend((0..n).filter(|&s| steps.iter().all(|step| step.0 != s)));
        }
        Table { n, ends, steps }
    }

    pub fn of(procedure: &naive::Procedure) -> Table {
        let n = procedure.count();
        Table {
            n,
            ends: (0..n).filter(|&s| procedure.ends[s]).collect(),
            steps: (0..n).flat_map(|s| procedure.steps[s].iter().map(move |&(a, t)| (s, a, t))).collect(),
        }
    }

    /// A table whose start behaves alike.
    pub fn rewritten(&self, random: &mut Random) -> Table {
        let mut table = self.clone();
        match random.below(7) {
            // Other numbers for the states behind the start.
            0 | 1 => {
                let mut names: Vec<usize> = (1..table.n).collect();
                random.shuffle(&mut names);
                names.insert(0, 0);
                table.ends.iter_mut().for_each(|s| *s = names[*s]);
                table.steps.iter_mut().for_each(|step| *step = (names[step.0], step.1, names[step.2]));
            }
            // A state twice, with steps into either: a loop is unrolled.
            2 | 3 => {
                if table.n < 128 {
                    let (old, new) = (random.below(table.n), table.n);
                    table.n += 1;
                    if table.ends.contains(&old) {
                        table.ends.push(new);
                    }
                    let out: Vec<_> =
                        table.steps.iter().filter(|step| step.0 == old).map(|step| (new, step.1, step.2)).collect();
                    if table.steps.len() + out.len() > 512 {
                        return self.clone();
                    }
                    table.steps.extend(out);
                    for step in &mut table.steps {
                        if step.2 == old && random.percent(50) {
                            step.2 = new;
                        }
                    }
                }
            }
            // A step twice.
            4 => {
                if !table.steps.is_empty() && table.steps.len() < 512 {
                    let step = random.pick(&table.steps);
                    table.steps.insert(random.below(table.steps.len() + 1), step);
                }
            }
            5 => random.shuffle(&mut table.steps),
            // A state that the start does not reach.
            _ => {
                if table.n < 128 && table.steps.len() < 510 {
                    table.steps.push((table.n, random.below(64) as u8, random.below(table.n)));
                    table.n += 1;
                }
            }
        }
        table
    }

    /// A table whose start often behaves otherwise.
    pub fn changed(&self, random: &mut Random) -> Table {
        let mut table = self.clone();
        let count = table.steps.len();
        match random.below(6) {
            0 if count > 0 => table.steps[random.below(count)].1 = random.below(64) as u8,
            1 if count > 0 => table.steps[random.below(count)].2 = random.below(table.n),
            2 if count > 0 => table.steps[random.below(count)].0 = random.below(table.n),
            3 if count > 0 => drop(table.steps.remove(random.below(count))),
            4 if !table.ends.is_empty() => drop(table.ends.remove(random.below(table.ends.len()))),
            _ => table.ends.push(random.below(table.n)),
        }
        table
    }

    pub fn file(&self, random: &mut Random) -> Vec<u8> {
        let mut records: Vec<(u16, Vec<u8>)> = vec![];
        for &end in &self.ends {
            for _ in 0..random.pick(&[1, 1, 1, 1, 1, 2]) {
                records.push((2, vec![end as u8]));
            }
        }
        for &(from, action, to) in &self.steps {
            records.push((3, vec![from as u8, action, to as u8]));
        }
        if random.percent(20) {
            for _ in 0..random.between(1, 3) {
                let length = random.pick(&[0, 1, 3, 3, 10, 300]);
                records.push((4, random.fill8(length)));
            }
        }
        if random.percent(70) {
            random.shuffle(&mut records);
        }
        let mut file = vec![];
        push_record(&mut file, 1, &[self.n as u8]);
        for (kind, body) in records {
            push_record(&mut file, kind, &body);
        }
        file
    }
}

pub fn push_record(file: &mut Vec<u8>, kind: u16, body: &[u8]) {
    file.extend((body.len() as u16).to_le_bytes());
    file.extend(kind.to_le_bytes());
    file.extend(body);
}

/// A procedure before it is written down.
#[derive(Clone, Debug)]
pub enum Source {
    Term(Tree, Vec<u8>),
    Table(Table),
}

/// How many states: mostly few.
fn states(random: &mut Random, most: usize) -> usize {
    match random.below(200) {
        0..110 => random.between(1, 7.min(most)),
        110..180 => random.between(1, 16.min(most)),
        180..198 => random.between(1, 48.min(most)),
        _ => random.between(1, most),
    }
}

impl Source {
    pub fn term(random: &mut Random) -> Source {
        let characters = alphabet(random);
        let actions = states(random, 63);
        Source::Term(Tree::random(random, actions, &characters), characters)
    }

    pub fn table(random: &mut Random) -> Source {
        let n = states(random, 128);
        Source::Table(Table::random(random, n))
    }

    /// At the limits and one past them.
    pub fn large(random: &mut Random, term: bool) -> Source {
        if term {
            let characters = alphabet(random);
            let actions = random.pick(&[62, 63, 63, 63, 64]);
            Source::Term(Tree::random(random, actions, &characters), characters)
        } else {
            let n = random.pick(&[1, 2, 60, 127, 128, 128, 128]);
            let mut table = Table::random(random, n);
            let steps = random.pick(&[500, 511, 512, 512, 512, 513]);
            let span = random.pick(&[1, 4, 128]).min(n);
            while table.steps.len() < steps {
                let action = if random.percent(90) { 0 } else { random.below(64) as u8 };
                table.steps.push((random.below(span), action, random.below(n)));
            }
            if steps == 513 && random.percent(50) {
                // Out of range as well, which is told first.
                table.steps[512].1 = 64;
            }
            Source::Table(table)
        }
    }

    pub fn rewritten(&self, random: &mut Random) -> Source {
        match self {
            Source::Term(tree, characters) => {
                let next = tree.rewritten(random);
                // What grows past the limit is rather left.
                if next.actions() > 63 { self.clone() } else { Source::Term(next, characters.clone()) }
            }
            Source::Table(table) => Source::Table(table.rewritten(random)),
        }
    }

    pub fn changed(&self, random: &mut Random) -> Source {
        match self {
            Source::Term(tree, characters) => Source::Term(tree.changed(random, characters), characters.clone()),
            Source::Table(table) => Source::Table(table.changed(random)),
        }
    }

    /// The graph of a term as a table, if it is not too large.
    pub fn drawn(&self, random: &mut Random) -> Source {
        match self {
            Source::Term(tree, _) => match Bytes::Term(tree.text(random, 0)).read() {
                Ok(procedure) if procedure.size() <= 512 => Source::Table(Table::of(&procedure)),
                _ => self.clone(),
            },
            Source::Table(_) => self.clone(),
        }
    }

    pub fn written(&self, random: &mut Random) -> Bytes {
        match self {
            Source::Term(tree, _) => {
                let brackets = random.pick(&[0, 0, 0, 10, 30]);
                let mut text = tree.text(random, brackets);
                match random.below(40) {
                    // As many brackets as may be open, or one more.
                    0 => {
                        let depth = random.pick(&[31, 32, 32, 32, 33, 34]) - open_brackets(&text).min(31);
                        text = [b"(".repeat(depth), text, b")".repeat(depth)].concat();
                    }
                    // As long as a text may be, or longer.
                    1 => {
                        let length = random.pick(&[509, 511, 511, 511, 513, 515]);
                        while text.len() + 1 < length {
                            let at = random.below(text.len());
                            if naive::action(text[at]).is_some() {
                                let action = text[at];
                                text.splice(at..=at, [b'(', action, b')']);
                            }
                        }
                    }
                    _ => {}
                }
                Bytes::Term(text)
            }
            Source::Table(table) => {
                let mut file = table.file(random);
                // As long as a file may be, or longer.
                if random.percent(1) && file.len() < 16_000 {
                    let length = random.pick(&[16_383, 16_384, 16_384, 16_385]);
                    let remark = random.fill8(length - file.len() - 4);
                    push_record(&mut file, 4, &remark);
                }
                Bytes::Table(file)
            }
        }
    }
}

/// How many brackets are open at a time at most.
pub fn open_brackets(text: &[u8]) -> usize {
    let (mut open, mut most) = (0, 0);
    for byte in text {
        match byte {
            b'(' => open += 1,
            b')' => open -= 1,
            _ => {}
        }
        most = most.max(open);
    }
    most
}

/// Bytes changed here and there.
pub fn damaged(random: &mut Random, bytes: &mut Vec<u8>, likely: &[u8]) {
    for _ in 0..random.pick(&[1, 1, 1, 2, 3]) {
        let at = random.below(bytes.len() + 1);
        let byte = if random.percent(80) { random.pick(likely) } else { random.next() as u8 };
        match random.below(7) {
            0 | 1 if at < bytes.len() => bytes[at] = byte,
            2 if at < bytes.len() => drop(bytes.remove(at)),
            3 => bytes.truncate(at),
            4 => bytes.push(byte),
            5 => {
                // A part twice.
                let end = (at + random.between(1, 12)).min(bytes.len());
                let part = bytes[at..end].to_vec();
                bytes.splice(at..at, part);
            }
            _ => bytes.insert(at, byte),
        }
    }
}

pub const TERM_BYTES: &[u8] = b"ab09zAZ.+()(). #\n\r\t-*\x00\x7f\xff@[`{/:";
pub const TABLE_BYTES: &[u8] = &[0, 0, 1, 1, 2, 3, 4, 5, 6, 7, 62, 63, 64, 65, 126, 127, 128, 129, 255];

pub fn damaged_input(random: &mut Random, input: &mut Bytes) {
    match input {
        Bytes::Term(text) => damaged(random, text, TERM_BYTES),
        Bytes::Table(file) => {
            if random.percent(40) {
                // A record that does not fit, between others.
                let kind = random.pick(&[0, 1, 1, 2, 2, 3, 3, 3, 4, 5, 256, 257, 258, 65535]);
                let length = random.pick(&[0, 1, 1, 2, 3, 3, 4]);
                let body: Vec<u8> = (0..length).map(|_| random.pick(TABLE_BYTES)).collect();
                let mut at = 0;
                let mut record = vec![];
                push_record(&mut record, kind, &body);
                while random.percent(90) && at + 4 <= file.len() {
                    at = (at + 4 + u16::from_le_bytes([file[at], file[at + 1]]) as usize).min(file.len());
                }
                file.splice(at..at, record);
            } else {
                damaged(random, file, TABLE_BYTES);
            }
        }
    }
    if random.percent(2) {
        *input.bytes_mut() = vec![];
    }
}

/// What two inputs are of.
#[derive(Clone, Copy)]
pub enum Mix {
    Terms,
    Tables,
    Mixed,
}

/// Two inputs, often the one a rewriting of the other, sometimes damaged.
pub fn pair(random: &mut Random, mix: Mix) -> (Bytes, Bytes) {
    let term = match mix {
        Mix::Terms | Mix::Mixed => true,
        Mix::Tables => random.percent(10),
    };
    let large = random.percent(2);
    let left = match (large, term) {
        (true, term) => Source::large(random, term),
        (false, true) => Source::term(random),
        (false, false) => Source::table(random),
    };
    let mut right = left.clone();
    let way = random.below(10);
    if matches!(mix, Mix::Mixed | Mix::Tables) && random.percent(70) {
        right = right.drawn(random);
    }
    for _ in 0..random.pick(&[0, 1, 2, 4, 8]) {
        right = right.rewritten(random);
    }
    match way {
        0..5 => {}
        5..8 => right = right.changed(random),
        8 => {
            right = if term { Source::term(random) } else { Source::table(random) };
        }
        _ => {
            right = match mix {
                Mix::Terms => Source::term(random),
                _ if large => Source::large(random, false),
                Mix::Tables | Mix::Mixed => Source::table(random),
            };
        }
    }
    let left = match mix {
        Mix::Tables => left.drawn(random),
        _ => left,
    };
    if matches!(mix, Mix::Mixed | Mix::Tables) {
        right = right.drawn(random);
    }
    let (mut left, mut right) = (left.written(random), right.written(random));
    if random.percent(8) {
        damaged_input(random, &mut left);
    }
    if random.percent(8) {
        damaged_input(random, &mut right);
    }
    if matches!(mix, Mix::Mixed) && random.percent(50) {
        std::mem::swap(&mut left, &mut right);
    }
    (left, right)
}

/// Any single input.
pub fn input(random: &mut Random) -> Bytes {
    let term = random.percent(50);
    let source = match random.below(100) {
        0 => Source::large(random, term),
        _ if term => Source::term(random),
        _ => Source::table(random),
    };
    let mut input = source.written(random);
    if random.percent(5) {
        damaged_input(random, &mut input);
    }
    input
}

/// So many lines that are well formed, over the actions that are given or others.
pub fn formula(random: &mut Random, count: usize, actions: &[u8]) -> Vec<[u16; 3]> {
    let letter = |byte: u8| byte as u16;
    let near = random.percent(60);
    let mut lines: Vec<[u16; 3]> = vec![];
    for i in 0..count {
        let earlier = |random: &mut Random| {
            if near { (i - random.between(1, i.min(4))) as u16 } else { random.below(i) as u16 }
        };
        lines.push(match random.below(if i == 0 { 2 } else { 10 }) {
            0 => [letter(b'T'), 0, 0],
            1 => [letter(b'E'), 0, 0],
            2..4 => [letter(b'N'), earlier(random), 0],
            4..6 => [letter(b'A'), earlier(random), earlier(random)],
            _ => {
                let known = !actions.is_empty() && random.percent(85);
                let action = if known { random.pick(actions) as u16 } else { random.below(64) as u16 };
                [letter(b'D'), action, earlier(random)]
            }
        });
    }
    lines
}

/// A line that may not stand at place i, or not always.
pub fn damaged_line(random: &mut Random, i: usize, line: &mut [u16; 3]) {
    let later = (i + random.pick(&[0, 0, 1, 5, 2000])).min(65_535) as u16;
    match random.below(8) {
        0 => line[0] = random.pick(b"TENADXtenad019 \x00\xff") as u16,
        1 => line[0] |= 0x100,
        2 => line[0] = random.next() as u16,
        3 => *line = [b'N' as u16, later, 0],
        4 => *line = [b'A' as u16, later, 0],
        5 => *line = [b'A' as u16, 0, later],
        6 => *line = [b'D' as u16, random.below(64) as u16, later],
        _ => *line = [b'D' as u16, random.pick(&[62, 63, 64, 65, 100, 255, 256, 65_535]), 0],
    }
    // What a letter has no use for is 0.
    match line[0] as u8 {
        b'T' | b'E' => (line[1], line[2]) = (0, 0),
        b'N' => line[2] = 0,
        _ => {}
    }
}

/// A console's input.
pub fn session(random: &mut Random) -> Vec<u8> {
    let characters = alphabet(random);
    let slots = random.pick(&[1, 1, 2, 4, 8, 10]);
    let maps = random.percent(40);
    let few = random.pick(&[3, 6, 6, 12]);
    let mut known: Vec<Option<Tree>> = vec![None; 10];
    let full = random.below(300) == 0;
    let count = if full { usize::MAX } else { random.between(0, 60) };
    let mut out = vec![];
    for _ in 0..count {
        if out.len() > 32_800 {
            break;
        }
        let slot = random.below(slots);
        let actions = if random.below(200) == 0 { random.between(50, 64) } else { random.between(1, few) };
        let fresh = match random.below(100) {
            0 => Tree::groups(random, 62, &characters),
            1 => Tree::at_512_steps(random, &characters),
            _ => Tree::random(random, actions, &characters),
        };
        let brackets = random.pick(&[0, 0, 10]);
        let mut line = match random.below(100) {
            0..18 => {
                if known[slot].is_none() {
                    known[slot] = Some(fresh.clone());
                }
                [format!("F {slot} ").into_bytes(), fresh.text(random, brackets)].concat()
            }
            18..65 => {
                let mut tree = match &known[slot] {
                    Some(tree) if !random.percent(8) => tree.clone(),
                    _ => fresh,
                };
                for _ in 0..random.pick(&[0, 1, 2, 3]) {
                    let next = tree.rewritten(random);
                    tree = if next.actions() > 63 { tree } else { next };
                }
                if random.percent(30) {
                    tree = tree.changed(random, &characters);
                }
                [format!("S {slot} ").into_bytes(), tree.text(random, brackets)].concat()
            }
            65..85 => format!("R {slot}").into_bytes(),
            85..94 => format!("W {slot}").into_bytes(),
            _ if maps => {
                let (x, y) = (random.pick(&characters), random.pick(&characters));
                vec![b'M', b' ', x, if random.percent(60) { x } else { y }]
            }
            _ => vec![],
        };
        if random.percent(6) {
            damaged(random, &mut line, b"FSRWM  0123456789abzAZ+.()\r\n\t\x00\xff/:");
        }
        out.extend(line);
        out.push(b'\n');
    }
    match random.below(10) {
        0..3 => drop(out.pop()),
        3 => damaged(random, &mut out, b"FSRWM  0123456789ab+.()\r\n\n\n"),
        _ => {}
    }
    if full {
        out.truncate(random.pick(&[32_767, 32_768, 32_768, 32_769]));
    }
    out
}
