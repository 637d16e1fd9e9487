//! The proved comparison against an idiomatic one in Rust, on the same inputs in one run, each with its reading.
//!
//!     cargo run --offline --release --example speed
//!
//! Both read the bytes of two inputs and compare them. Both report the verdict, the number of classes, the number of rounds and
//! the depth, which must agree; the proved one also writes a class number for each state and, on "different", the lines of a
//! formula, which the other one does not. The proved one's buffers are lent once and are not cleared between runs, since a
//! comparison needs nothing of their contents; the other one allocates what it needs in each run.

use std::collections::HashMap;
use std::hash::{BuildHasherDefault, Hasher};
use std::hint::black_box;
use std::time::{Duration, Instant};

use nabrotzu::{Input, MOST_LINES, MOST_STATES};

/// What both must agree on: classes, rounds, and the depth where the two differ.
type Report = (usize, usize, Option<usize>);

/// The idiomatic one: signature refinement with hashing.
mod idiomatic {
    use super::*;

    /// Each state's steps, sorted and without repetitions.
    struct Graph {
        ends: Vec<bool>,
        steps: Vec<Vec<(u8, u16)>>,
    }

    fn table(file: &[u8]) -> Option<Graph> {
        if file.len() > 16_384 {
            return None;
        }
        let mut graph: Option<Graph> = None;
        let (mut rest, mut count) = (file, 0);
        while !rest.is_empty() {
            let (head, tail) = rest.split_at_checked(4)?;
            let length = u16::from_le_bytes([head[0], head[1]]) as usize;
            let kind = u16::from_le_bytes([head[2], head[3]]);
            let (body, tail) = tail.split_at_checked(length)?;
            rest = tail;
            match (&mut graph, kind, body) {
                (None, 1, &[n @ 1..=128]) => {
                    graph = Some(Graph { ends: vec![false; n as usize], steps: vec![vec![]; n as usize] });
                }
                (Some(graph), 2, &[state]) => *graph.ends.get_mut(state as usize)? = true,
                (Some(graph), 3, &[from, action @ 0..=63, to]) => {
                    count += 1;
                    if to as usize >= graph.ends.len() || count > 512 {
                        return None;
                    }
                    graph.steps.get_mut(from as usize)?.push((action, to.into()));
                }
                (Some(_), 4, _) => {}
                _ => return None,
            }
        }
        let mut graph = graph?;
        for list in &mut graph.steps {
            list.sort_unstable();
            list.dedup();
        }
        Some(graph)
    }

    enum Node {
        Action(u16),
        Choice(Box<Node>, Box<Node>),
        Sequence(Box<Node>, Box<Node>),
    }

    struct Parser<'a> {
        text: &'a [u8],
        at: usize,
        open: usize,
        actions: Vec<u8>,
    }

    impl Parser<'_> {
        fn take(&mut self, byte: u8) -> bool {
            let found = self.text.get(self.at) == Some(&byte);
            self.at += found as usize;
            found
        }

        fn sum(&mut self) -> Option<Node> {
            let mut left = self.product()?;
            while self.take(b'+') {
                left = Node::Choice(Box::new(left), Box::new(self.product()?));
            }
            Some(left)
        }

        fn product(&mut self) -> Option<Node> {
            let mut left = self.operand()?;
            while self.take(b'.') {
                left = Node::Sequence(Box::new(left), Box::new(self.operand()?));
            }
            Some(left)
        }

        fn operand(&mut self) -> Option<Node> {
            if self.take(b'(') {
                self.open += 1;
                if self.open > 32 {
                    return None;
                }
                let inner = self.sum()?;
                self.open -= 1;
                return self.take(b')').then_some(inner);
            }
            let action = match *self.text.get(self.at)? {
                byte @ b'a'..=b'z' => byte - b'a',
                byte @ b'A'..=b'Z' => byte - b'A' + 26,
                byte @ b'0'..=b'9' => byte - b'0' + 52,
                _ => return None,
            };
            self.at += 1;
            self.actions.push(action);
            (self.actions.len() <= 63).then_some(Node::Action(self.actions.len() as u16))
        }
    }

    /// Appends the states that the node's first actions lead to.
    fn firsts(node: &Node, actions: &[u8], out: &mut Vec<(u8, u16)>) {
        match node {
            Node::Action(state) => out.push((actions[*state as usize - 1], *state)),
            Node::Choice(x, y) => {
                firsts(x, actions, out);
                firsts(y, actions, out);
            }
            Node::Sequence(x, _) => firsts(x, actions, out),
        }
    }

    /// Gives each action's state the steps that follow it.
    fn follow(node: &Node, actions: &[u8], next: &[(u8, u16)], steps: &mut [Vec<(u8, u16)>]) {
        match node {
            Node::Action(state) => steps[*state as usize] = next.to_vec(),
            Node::Choice(x, y) => {
                follow(x, actions, next, steps);
                follow(y, actions, next, steps);
            }
            Node::Sequence(x, y) => {
                let mut behind = vec![];
                firsts(y, actions, &mut behind);
                follow(x, actions, &behind, steps);
                follow(y, actions, next, steps);
            }
        }
    }

    fn term(text: &[u8]) -> Option<Graph> {
        if text.len() > 512 {
            return None;
        }
        let mut parser = Parser { text, at: 0, open: 0, actions: vec![] };
        let root = parser.sum()?;
        if parser.at != text.len() {
            return None;
        }
        let mut steps = vec![vec![]; parser.actions.len() + 1];
        firsts(&root, &parser.actions, &mut steps[0]);
        follow(&root, &parser.actions, &[], &mut steps);
        let ends = steps.iter().map(Vec::is_empty).collect();
        steps.iter_mut().for_each(|list| list.sort_unstable());
        Some(Graph { ends, steps })
    }

    fn read(input: Input<'_>) -> Option<Graph> {
        match input {
            Input::Term(text) => term(text),
            Input::Table(file) => table(file),
        }
    }

    /// A fast hash: multiply and rotate, word by word.
    #[derive(Default)]
    pub struct Fast(u64);

    impl Hasher for Fast {
        fn write(&mut self, bytes: &[u8]) {
            for part in bytes.chunks(8) {
                let mut word = [0; 8];
                word[..part.len()].copy_from_slice(part);
                self.write_u64(u64::from_le_bytes(word));
            }
        }

        fn write_u64(&mut self, word: u64) {
            self.0 = (self.0.rotate_left(5) ^ word).wrapping_mul(0x517c_c1b7_2722_0a95);
        }

        fn write_usize(&mut self, word: usize) {
            self.write_u64(word as u64);
        }

        fn finish(&self) -> u64 {
            self.0 ^ (self.0 >> 32)
        }
    }

    pub fn compare(left: Input<'_>, right: Input<'_>) -> Option<Report> {
        let (left, right) = (read(left)?, read(right)?);
        let n = left.ends.len();
        let total = n + right.ends.len();
        // The joined steps, one state's behind the other's.
        let mut first = Vec::with_capacity(total + 1);
        let mut steps: Vec<(u8, u16)> = vec![];
        for list in &left.steps {
            first.push(steps.len());
            steps.extend(list);
        }
        for list in &right.steps {
            first.push(steps.len());
            steps.extend(list.iter().map(|&(action, target)| (action, target + n as u16)));
        }
        first.push(steps.len());

        let ends = || left.ends.iter().chain(&right.ends);
        let mut class: Vec<u16> = ends().map(|&end| end as u16).collect();
        let mut count = if ends().any(|&end| end) && ends().any(|&end| !end) { 2 } else { 1 };
        let (mut rounds, mut depth) = (0, None);
        let mut signatures: Vec<u32> = Vec::with_capacity(total + steps.len());
        let mut bounds: Vec<usize> = Vec::with_capacity(total + 1);
        loop {
            if depth.is_none() && class[0] != class[n] {
                depth = Some(rounds);
            }
            signatures.clear();
            bounds.clear();
            bounds.push(0);
            for s in 0..total {
                let start = signatures.len();
                signatures.push(u32::MAX - class[s] as u32);
                let own = &steps[first[s]..first[s + 1]];
                signatures.extend(own.iter().map(|&(action, t)| (action as u32) << 16 | class[t as usize] as u32));
                let own = &mut signatures[start + 1..];
                own.sort_unstable();
                let kept = dedup(own);
                signatures.truncate(start + 1 + kept);
                bounds.push(signatures.len());
            }
            let mut names: HashMap<&[u32], u16, BuildHasherDefault<Fast>> =
                HashMap::with_capacity_and_hasher(2 * count, Default::default());
            for s in 0..total {
                let fresh = names.len() as u16;
                class[s] = *names.entry(&signatures[bounds[s]..bounds[s + 1]]).or_insert(fresh);
            }
            if names.len() == count {
                return Some((count, rounds, depth));
            }
            count = names.len();
            rounds += 1;
        }
    }

    /// Moves the different ones of a sorted slice to its front and counts them.
    fn dedup(sorted: &mut [u32]) -> usize {
        let mut kept = 0;
        for i in 0..sorted.len() {
            if kept == 0 || sorted[i] != sorted[kept - 1] {
                sorted[kept] = sorted[i];
                kept += 1;
            }
        }
        kept
    }
}

struct Random(u64);

impl Random {
    fn below(&mut self, n: usize) -> usize {
        self.0 ^= self.0 << 13;
        self.0 ^= self.0 >> 7;
        self.0 ^= self.0 << 17;
        (self.0 % n as u64) as usize
    }

    fn shuffle<T>(&mut self, list: &mut [T]) {
        for i in (1..list.len()).rev() {
            list.swap(i, self.below(i + 1));
        }
    }
}

#[derive(Clone)]
struct Table {
    n: usize,
    ends: Vec<usize>,
    steps: Vec<(usize, usize, usize)>,
}

impl Table {
    fn chain(n: usize) -> Table {
        Table { n, ends: vec![n - 1], steps: (0..n - 1).map(|s| (s, 0, s + 1)).collect() }
    }

    /// Other numbers for the states behind the start, steps in another order: the same.
    fn permuted(&self, random: &mut Random) -> Table {
        let mut names: Vec<usize> = (0..self.n).collect();
        random.shuffle(&mut names[1..]);
        let mut steps: Vec<_> = self.steps.iter().map(|&(s, a, t)| (names[s], a, names[t])).collect();
        random.shuffle(&mut steps);
        Table { n: self.n, ends: self.ends.iter().map(|&s| names[s]).collect(), steps }
    }

    /// Permuted, with another action in the last step that makes a difference.
    fn changed(&self, random: &mut Random) -> Table {
        let file = self.file();
        for step in (0..self.steps.len()).rev() {
            let mut table = self.clone();
            table.steps[step].1 = (table.steps[step].1 + 1) % 64;
            let report = idiomatic::compare(Input::Table(&file), Input::Table(&table.file()));
            if matches!(report, Some((_, _, Some(_)))) {
                return table.permuted(random);
            }
        }
        panic!("no step makes a difference")
    }

    fn file(&self) -> Vec<u8> {
        assert!(self.n <= 128 && self.steps.len() <= 512);
        let mut file = vec![1, 0, 1, 0, self.n as u8];
        for &end in &self.ends {
            file.extend([1, 0, 2, 0, end as u8]);
        }
        for &(from, action, to) in &self.steps {
            file.extend([3, 0, 3, 0, from as u8, action as u8, to as u8]);
        }
        file
    }
}

enum Bytes {
    Term(Vec<u8>),
    Table(Vec<u8>),
}

impl Bytes {
    fn input(&self) -> Input<'_> {
        match self {
            Bytes::Term(text) => Input::Term(text),
            Bytes::Table(file) => Input::Table(file),
        }
    }
}

struct Case {
    name: String,
    n: usize,
    left: Bytes,
    right: Bytes,
}

fn tables(cases: &mut Vec<Case>, random: &mut Random, name: &str, table: &Table) {
    for (how, right) in [("same", table.permuted(random)), ("changed", table.changed(random))] {
        cases.push(Case {
            name: format!("{name}, {how}"),
            n: table.n,
            left: Bytes::Table(table.file()),
            right: Bytes::Table(right.file()),
        });
    }
}

fn terms(cases: &mut Vec<Case>, name: &str, n: usize, left: String, same: String, changed: String) {
    for (how, right) in [("same", same), ("changed", changed)] {
        cases.push(Case {
            name: format!("{name}, {how}"),
            n,
            left: Bytes::Term(left.clone().into_bytes()),
            right: Bytes::Term(right.into_bytes()),
        });
    }
}

/// A random term of so many actions, of the characters a to d.
fn random_term(random: &mut Random, actions: usize) -> String {
    if actions == 1 {
        return ["a", "b", "c", "d"][random.below(4)].to_string();
    }
    let first = 1 + random.below(actions - 1);
    let (x, y) = (random_term(random, first), random_term(random, actions - first));
    if random.below(2) == 0 { format!("({x}+{y})") } else { format!("{x}.{y}") }
}

fn cases(random: &mut Random) -> Vec<Case> {
    let mut cases = vec![];
    for n in [16, 32, 64, 128] {
        tables(&mut cases, random, "chain", &Table::chain(n));
        for actions in [2, 8, 64] {
            // A step into each state, so that the start reaches all, then any.
            let mut steps: Vec<_> = (1..n).map(|t| (random.below(t), random.below(actions), t)).collect();
            while steps.len() < 4 * n {
                steps.push((random.below(n), random.below(actions), random.below(n)));
            }
            let ends = (0..n).filter(|_| random.below(8) == 0).collect();
            tables(&mut cases, random, &format!("random, {actions} actions"), &Table { n, ends, steps });
        }

        // The start lists its one step hundreds of times.
        let mut repeated = Table::chain(n);
        while repeated.steps.len() < 512 {
            repeated.steps.insert(0, (0, 0, 1));
        }
        tables(&mut cases, random, "one step repeated", &repeated);

        // Neighbours in turn an end and none, and the first of each kind lists its step hundreds of times: whoever holds each
        // state against the first of its class reads these lists in turn, in each of some n rounds.
        let mut leaders = Table::chain(n);
        leaders.ends = (0..n).filter(|s| s % 2 == 1).collect();
        while leaders.steps.len() < 512 {
            let leader = leaders.steps.len() % 2;
            leaders.steps.insert(0, (leader, 0, leader + 1));
        }
        tables(&mut cases, random, "leaders alternate", &leaders);

        // Every state reaches every class, few rounds: class c leads to class j by action c + j.
        let classes = (512 / n).min(n);
        let mut dense = Table { n, ends: (0..n).filter(|s| s % classes == 0).collect(), steps: vec![] };
        for s in 0..n {
            for j in 0..classes {
                let target = j + classes * random.below(n / classes);
                dense.steps.push((s, (s % classes + j) % classes, target));
            }
        }
        tables(&mut cases, random, "dense", &dense);

        // Every state lists the next one and the last ones, by one action: many steps and many rounds.
        let mut ladder = Table { n, ends: vec![n - 1], steps: vec![] };
        for s in 0..n - 1 {
            let last = (512 / n - 1).min(n - 2 - s.min(n - 2));
            ladder.steps.extend((n - last..n).map(|t| (s, 0, t)));
            ladder.steps.push((s, 0, s + 1));
        }
        tables(&mut cases, random, "dense chain", &ladder);

        if n <= 64 {
            let k = n - 1;
            let chain = vec!["a"; k].join(".");
            let nested = format!("{}a{}", "a.(".repeat(k.min(32) - 1), ")".repeat(k.min(32) - 1));
            let nested = if k > 32 { format!("{}.{nested}", vec!["a"; k - 32].join(".")) } else { nested };
            let other = format!("{}b", &chain[..chain.len() - 1]);
            terms(&mut cases, "term, chain", n, chain, nested, other);

            let letter = |i: usize| char::from(b"abcdefghijklmnopqrstuvwxyz"[i % 26]).to_string();
            let wide = |turn: usize| (0..k).map(|i| letter(i + turn)).collect::<Vec<_>>().join("+");
            terms(
                &mut cases,
                "term, wide choice",
                n,
                wide(0),
                wide(0).chars().rev().collect(),
                wide(0).replacen('a', "A", 1),
            );

            // A choice, then a choice, with half of the actions each: some n * n / 4 steps.
            let half = |i: usize| vec![["a", "b"][i]; k / 2].join("+");
            let dense = format!("({}).({})", half(0), half(0));
            let grouped = format!("({0}).(({0}))", half(0));
            terms(&mut cases, "term, dense", n, dense, grouped, format!("({}).({})", half(0), half(1)));

            let text = random_term(random, k);
            let bracketed = format!("({text})");
            let at = text.rfind(|c: char| c.is_ascii_alphabetic()).unwrap();
            let other = format!("{}e{}", &text[..at], &text[at + 1..]);
            terms(&mut cases, "term, random", n, text, bracketed, other);
        }
    }
    cases
}

/// The medians of two functions in microseconds, run in turn, warm.
fn medians(mut one: impl FnMut(), mut other: impl FnMut()) -> (f64, f64) {
    fn batch(f: &mut impl FnMut()) -> u32 {
        // So many runs to a sample that the clock's own cost does not count.
        let start = Instant::now();
        let mut runs = 0;
        while start.elapsed() < Duration::from_millis(2) {
            f();
            runs += 1;
        }
        (runs / 60).max(1)
    }
    fn sample(f: &mut impl FnMut(), runs: u32) -> f64 {
        let start = Instant::now();
        for _ in 0..runs {
            f();
        }
        start.elapsed().as_secs_f64() * 1e6 / f64::from(runs)
    }
    let (one_runs, other_runs) = (batch(&mut one), batch(&mut other));
    let (mut one_samples, mut other_samples) = (vec![], vec![]);
    let start = Instant::now();
    while one_samples.len() < 15 || (start.elapsed() < Duration::from_millis(50) && one_samples.len() < 501) {
        one_samples.push(sample(&mut one, one_runs));
        other_samples.push(sample(&mut other, other_runs));
    }
    (median(&mut one_samples), median(&mut other_samples))
}

fn median(samples: &mut [f64]) -> f64 {
    samples.sort_by(f64::total_cmp);
    samples[samples.len() / 2]
}

/// A session of 32,768 bytes at most: some lines, then one line again and again.
fn session(first: &str, again: &str) -> Vec<u8> {
    let mut input = first.as_bytes().to_vec();
    while input.len() + again.len() <= 32_768 {
        input.extend(again.as_bytes());
    }
    input
}

fn consoles(random: &mut Random) {
    let chain = ["a"; 63].join(".");
    let other = format!("{}b", &chain[..chain.len() - 1]);
    // Three choices of ten and one of thirty: 510 steps.
    let ten = ["a"; 10].join("+");
    let dense = format!("({ten}).({ten}).({ten}).({})", ["a"; 30].join("+"));
    let some = loop {
        let text = random_term(random, 63);
        if text.len() < 300 {
            break text;
        }
    };
    let file = |text: &str| format!("F 0 {text}\n");
    let submit = |text: &str| format!("S 0 {text}\n");
    let sessions = [
        ("S of a chain of 63 against one that ends otherwise", session(&file(&chain), &submit(&other))),
        ("S of `a` against a chain of 63", session(&file(&chain), &submit("a"))),
        ("S of `a` against a term of 510 steps", session(&file(&dense), &submit("a"))),
        ("S of a random term of 63 against a chain of 63", session(&file(&chain), &submit(&some))),
        ("F into a slot that is taken, 63 actions", session(&file(&chain), &file(&chain))),
        ("empty lines", session("", "\n")),
    ];
    println!("\n{:<52} {:>7} {:>7} {:>12} {:>10}", "console", "bytes", "lines", "us", "us a line");
    let mut output = vec![0; 32 * 32_769];
    let mut most = (0.0, "");
    for (name, input) in &sessions {
        let lines = input.iter().filter(|byte| **byte == b'\n').count();
        assert_eq!(nabrotzu::console(input, &mut output).read, input.len());
        let mut samples = vec![];
        let begin = Instant::now();
        while samples.len() < 3 || (begin.elapsed() < Duration::from_millis(500) && samples.len() < 101) {
            let start = Instant::now();
            black_box(nabrotzu::console(black_box(input), &mut output));
            samples.push(start.elapsed().as_secs_f64() * 1e6);
        }
        let time = median(&mut samples);
        println!("{name:<52} {:>7} {lines:>7} {time:>12.1} {:>10.2}", input.len(), time / lines as f64);
        if time > most.0 {
            most = (time, name);
        }
    }
    println!("the costliest session: {} ({:.1} ms)", most.1, most.0 / 1000.0);
}

/// The most memory that this process had, from the kernel's account.
fn peak_memory() -> String {
    let status = std::fs::read_to_string("/proc/self/status").unwrap_or_default();
    match status.lines().find_map(|line| line.strip_prefix("VmHWM:")) {
        Some(peak) => peak.trim().to_string(),
        None => "unknown".to_string(),
    }
}

fn main() {
    let mut random = Random(0x2545_f491_4f6c_dd1d);
    let mut lines = vec![[0; 3]; MOST_LINES];
    let mut classes = vec![0; MOST_STATES];
    println!(
        "{:<32} {:>4} {:>8} {:>7} {:>12} {:>12} {:>7}",
        "input", "n", "classes", "rounds", "proved us", "Rust us", "ratio"
    );
    let mut rows: Vec<(String, usize, f64, f64)> = vec![];
    for case in cases(&mut random) {
        let (left, right) = (case.left.input(), case.right.input());
        let proved = nabrotzu::compare(left, right, &mut lines, &mut classes).expect("a good input");
        let report: Report = (proved.classes, proved.rounds, proved.difference.map(|difference| difference.depth));
        assert_eq!(idiomatic::compare(left, right), Some(report), "{} {}", case.name, case.n);
        assert_eq!(report.2.is_none(), case.name.ends_with("same"), "{} {}", case.name, case.n);
        let (proved, rust) = medians(
            || _ = black_box(nabrotzu::compare(black_box(left), black_box(right), &mut lines, &mut classes)),
            || _ = black_box(idiomatic::compare(black_box(left), black_box(right))),
        );
        println!(
            "{:<32} {:>4} {:>8} {:>7} {:>12.2} {:>12.2} {:>7.2}",
            case.name,
            case.n,
            report.0,
            report.1,
            proved,
            rust,
            proved / rust
        );
        rows.push((case.name, case.n, proved, rust));
    }

    println!("\n{:<32} {:>22} {:>22}", "growth from n / 2 to n", "proved: 32   64  128", "Rust: 32   64  128");
    let mut names: Vec<&String> = vec![];
    for (name, ..) in &rows {
        if !names.contains(&name) {
            names.push(name);
        }
    }
    for name in names {
        let time = |n: usize| rows.iter().find(|row| row.0 == *name && row.1 == n);
        let growth = |n: usize, of: fn(&(String, usize, f64, f64)) -> f64| match (time(n / 2), time(n)) {
            (Some(half), Some(whole)) => format!("{:5.1}", of(whole) / of(half)),
            _ => "     ".to_string(),
        };
        print!("{name:<32} ");
        for of in [|row: &(String, usize, f64, f64)| row.2, |row: &(String, usize, f64, f64)| row.3] {
            print!("{:>22} ", [32, 64, 128].map(|n| growth(n, of)).concat());
        }
        println!();
    }

    println!();
    for (who, of) in [
        ("proved", (|row: &(String, usize, f64, f64)| row.2) as fn(&(String, usize, f64, f64)) -> f64),
        ("Rust", |row| row.3),
    ] {
        let mut times: Vec<f64> = rows.iter().filter(|row| row.1 == 128).map(of).collect();
        let middle = median(&mut times);
        let largest = rows.iter().filter(|row| row.1 == 128).max_by(|x, y| of(x).total_cmp(&of(y))).unwrap();
        println!(
            "{who}, n = 128: median {middle:.2} us, largest {:.2} us ({}), {:.1} times the median",
            of(largest),
            largest.0,
            of(largest) / middle
        );
    }
    let mut ratios: Vec<f64> = rows.iter().map(|row| row.2 / row.3).collect();
    let middle = median(&mut ratios);
    println!("ratio: least {:.2}, median {middle:.2}, largest {:.2}", ratios[0], ratios[ratios.len() - 1]);

    consoles(&mut random);
    println!("\npeak memory of the process: {}", peak_memory());
}
