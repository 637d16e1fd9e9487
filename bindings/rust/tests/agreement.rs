//! The library against the naive implementation, on random inputs. A difference prints the input.

mod inputs;
mod naive;

use inputs::{Bytes, Mix, Random};
use nabrotzu::{Line, Side, raw};
use naive::formulas;
use std::collections::BTreeMap;
use std::fmt::Debug;

/// Prints what was tried where the test fails.
struct Tried<'a>(&'a dyn Debug);

impl Drop for Tried<'_> {
    fn drop(&mut self) {
        if std::thread::panicking() {
            eprintln!("tried: {:?}", self.0);
        }
    }
}

/// How often what was met.
#[derive(Default)]
struct Seen(BTreeMap<String, usize>);

impl Seen {
    fn count(&mut self, what: impl ToString) {
        *self.0.entry(what.to_string()).or_default() += 1;
    }

    fn most(&mut self, what: &str, number: usize) {
        let most = self.0.entry(format!("most {what}")).or_default();
        *most = number.max(*most);
    }

    fn of(&self, what: &str) -> usize {
        self.0.get(what).copied().unwrap_or(0)
    }

    fn print(&self, title: &str) {
        println!("{title}");
        for (what, number) in &self.0 {
            println!("  {what}: {number}");
        }
    }
}

fn raw_compare(left: &Bytes, right: &Bytes, lines: &mut [u16], classes: &mut [u16]) -> raw::Comparison {
    // Other contents than any answer has, so that every field must be written.
    let mut answer = raw::Comparison {
        number: 99,
        layer: 99,
        side: 99,
        placed: 99,
        same: 99,
        place: 99,
        classes: 9999,
        rounds: 9999,
        lines: 9999,
        line: 9999,
        depth: 9999,
    };
    // SAFETY: pointers and lengths of slices; what is written is borrowed mutably.
    unsafe {
        raw::nabrotzu_compare(
            left.kind(),
            left.bytes().as_ptr(),
            left.bytes().len(),
            right.kind(),
            right.bytes().as_ptr(),
            right.bytes().len(),
            lines.as_mut_ptr(),
            lines.len(),
            classes.as_mut_ptr(),
            classes.len(),
            &mut answer,
        );
    }
    answer
}

/// One comparison: all that the answer and the buffers hold.
fn agree_on_comparison(random: &mut Random, left: &Bytes, right: &Bytes, seen: &mut Seen) {
    let read = (left.read(), right.read());
    let n = match &read {
        (Ok(left), Ok(right)) => left.count() + right.count(),
        _ => random.between(1, 256),
    };

    // The places lent: as many as are wanted, more, or too few.
    let (mut line_numbers, mut class_numbers) = (3 * (4 * n - 3), n);
    match random.below(30) {
        0 => line_numbers -= 1,
        1 => class_numbers -= 1,
        2 => line_numbers = random.below(line_numbers),
        3 => class_numbers = random.below(class_numbers),
        4 => (line_numbers, class_numbers) = (0, 0),
        5..15 => {
            line_numbers += random.below(20);
            class_numbers += random.below(20);
        }
        _ => {}
    }
    let (lines_before, classes_before) = (random.fill16(line_numbers), random.fill16(class_numbers));
    let (mut lines, mut classes) = (lines_before.clone(), classes_before.clone());
    let tried = (left, right, line_numbers, class_numbers);
    let _tried = Tried(&tried);
    let answer = raw_compare(left, right, &mut lines, &mut classes);

    // The safe function on the same inputs.
    let mut safe_lines: Vec<[u16; 3]> = lines_before.as_chunks::<3>().0.to_vec();
    let mut safe_classes = classes_before.clone();
    let safe = nabrotzu::compare(left.input(), right.input(), &mut safe_lines, &mut safe_classes);
    assert!(safe_lines.as_flattened() == &lines[..3 * safe_lines.len()] && safe_classes == classes);

    let refusal = match &read {
        (Err(refusal), _) => Some((1, *refusal)),
        (_, Err(refusal)) => Some((2, *refusal)),
        (Ok(left), Ok(right)) => {
            naive::comparing::room(left, right, line_numbers / 3, class_numbers).map(|refusal| (0, refusal))
        }
    };
    if let Some((side, refusal)) = refusal {
        seen.count(format!("refused {}", refusal.number));
        assert_eq!((answer.number, answer.layer, answer.side), (refusal.number, refusal.layer, side));
        assert_eq!((answer.placed, answer.place), (refusal.place.is_some() as u8, refusal.place.unwrap_or(0)));
        assert_eq!((answer.classes, answer.rounds), (0, 0));
        assert_eq!((answer.lines, answer.line, answer.depth), (0, 0, 0));
        assert!(lines == lines_before, "lines changed by a refusal");
        assert!(classes == classes_before, "classes changed by a refusal");
        let safe = safe.unwrap_err();
        let safe_side = match safe.side {
            None => 0,
            Some(Side::Left) => 1,
            Some(Side::Right) => 2,
        };
        assert_eq!(safe_side, side);
        assert_eq!((safe.refusal.number, safe.refusal.layer as u8), (refusal.number, refusal.layer));
        assert_eq!(safe.refusal.place, refusal.place);
        return;
    }
    let (Ok(left_procedure), Ok(right_procedure)) = read else { unreachable!() };
    for (input, procedure) in [(left, &left_procedure), (right, &right_procedure)] {
        match input {
            Bytes::Term(text) => {
                seen.most("bytes of a term", text.len());
                seen.most("actions of a term", procedure.count() - 1);
                seen.most("open brackets", inputs::open_brackets(text));
                seen.most("steps of a term", procedure.size());
            }
            Bytes::Table(file) => {
                seen.most("bytes of a table", file.len());
                seen.most("states of a table", procedure.count());
                seen.most("steps of a table", procedure.size());
            }
        }
    }
    let expected = naive::comparing::compare(&left_procedure, &right_procedure);

    // The report.
    assert_eq!((answer.number, answer.layer, answer.side, answer.placed, answer.place), (0, 0, 0, 0, 0));
    assert_eq!(answer.same, expected.depth.is_none() as u8, "verdict");
    assert_eq!(answer.classes as usize, expected.classes, "K");
    assert_eq!(answer.rounds as usize, expected.rounds, "r");
    assert!(expected.rounds < n);
    let safe = safe.unwrap();
    assert_eq!((safe.classes, safe.rounds, safe.same()), (expected.classes, expected.rounds, expected.depth.is_none()));

    // Class numbers: a renaming, each below K used.
    let mut names: Vec<Option<u16>> = vec![None; n];
    let mut used = vec![false; expected.classes];
    for state in 0..n {
        let leader = expected.leaders[state];
        if leader == state {
            let name = classes[state];
            assert!((name as usize) < expected.classes, "class number {name}");
            assert!(!used[name as usize], "class number {name} for two classes");
            used[name as usize] = true;
            names[state] = Some(name);
        } else {
            assert_eq!(Some(classes[state]), names[leader], "class number of state {state}");
        }
    }
    assert!(used.iter().all(|used| *used));
    assert!(classes[n..] == classes_before[n..], "class places beyond");

    seen.most("states", n);
    seen.most("classes", expected.classes);
    seen.most("rounds", expected.rounds);
    let Some(depth) = expected.depth else {
        seen.count("same");
        assert_eq!(answer.lines, 0);
        assert!(lines == lines_before, "lines written on same");
        return;
    };
    seen.count("different");
    seen.most("depth", depth);

    // The formula.
    let (count, line) = (answer.lines as usize, answer.line as usize);
    assert!((1..=4 * expected.classes - 3).contains(&count), "{count} lines, {} classes", expected.classes);
    assert!(line < count);
    assert_eq!(answer.depth as usize, depth, "depth");
    let difference = safe.difference.unwrap();
    assert_eq!((difference.lines, difference.line, difference.depth), (count, line, depth));
    assert!(lines[3 * count..] == lines_before[3 * count..], "line places beyond");
    let written = &lines.as_chunks::<3>().0[..count];
    for (i, numbers) in written.iter().enumerate() {
        assert!(formulas::well_formed(i, *numbers).is_some(), "line {i}: {numbers:?}");
        // 0 where the letter has no number.
        assert_eq!(Line::from_numbers(*numbers).unwrap().numbers(), *numbers, "line {i}");
    }
    let formula = formulas::formula(written).unwrap();
    assert!(formulas::holds(&left_procedure, &formula, line, 0, &mut vec![]), "fails on the left");
    assert!(!formulas::holds(&right_procedure, &formula, line, 0, &mut vec![]), "holds on the right");
    assert_eq!(formulas::depth(&formula, line, &mut vec![]), depth, "depth of the line");
    seen.most("lines", count);

    // And by the library's own evaluation.
    for (input, procedure, holds) in [(left, &left_procedure, true), (right, &right_procedure, false)] {
        let mut work = vec![7; count * procedure.count()];
        assert_eq!(nabrotzu::evaluate(input.input(), written, line as u64, 0, &mut work), Ok(holds));
    }
}

const TERM_REFUSALS: &[u8] = &[10, 11, 12, 13, 14];
const TABLE_REFUSALS: &[u8] = &[1, 2, 3, 4, 5, 6, 7];

fn agree_on_comparisons(seed: u64, count: usize, mix: Mix, title: &str) {
    let mut random = Random::new(seed);
    let mut seen = Seen::default();
    for _ in 0..count {
        let (left, right) = inputs::pair(&mut random, mix);
        agree_on_comparison(&mut random, &left, &right, &mut seen);
    }
    seen.print(title);
    // The inputs were worth it: the limits were met and passed.
    assert!(seen.of("same") > count / 5 && seen.of("different") > count / 5);
    let mut refusals = vec![25];
    if !matches!(mix, Mix::Tables) {
        refusals.extend(TERM_REFUSALS);
        assert_eq!((seen.of("most bytes of a term"), seen.of("most actions of a term")), (511, 63));
        assert_eq!(seen.of("most open brackets"), 32);
        assert!(seen.of("most steps of a term") > 512);
    }
    if !matches!(mix, Mix::Terms) {
        refusals.extend(TABLE_REFUSALS);
        assert_eq!((seen.of("most bytes of a table"), seen.of("most steps of a table")), (16_384, 512));
        assert_eq!(seen.of("most states of a table"), 128);
    }
    for number in refusals {
        assert!(seen.of(&format!("refused {number}")) > 0, "no refusal {number} was met");
    }
}

#[test]
fn terms_against_terms() {
    agree_on_comparisons(1, 40_000, Mix::Terms, "terms against terms");
}

#[test]
fn tables_against_tables() {
    agree_on_comparisons(2, 40_000, Mix::Tables, "tables against tables");
}

#[test]
fn tables_against_terms() {
    agree_on_comparisons(3, 40_000, Mix::Mixed, "tables against terms");
}

/// A kind that is no term is a table.
#[test]
fn other_kinds() {
    let file = Bytes::Table(vec![1, 0, 1, 0, 1]);
    for kind in 1..=255 {
        let (mut lines, mut classes, mut answer) = ([0; 15], [0; 2], raw::Comparison::default());
        let bytes = file.bytes();
        // SAFETY: as above.
        unsafe {
            raw::nabrotzu_compare(
                kind,
                bytes.as_ptr(),
                bytes.len(),
                kind,
                bytes.as_ptr(),
                bytes.len(),
                lines.as_mut_ptr(),
                lines.len(),
                classes.as_mut_ptr(),
                classes.len(),
                &mut answer,
            );
        }
        assert_eq!((answer.number, answer.same, answer.classes, answer.rounds), (0, 1, 1, 0));
    }
}

fn agree_on_evaluation(random: &mut Random, seen: &mut Seen) {
    let input = inputs::input(random);
    let read = input.read();
    let (n, actions) = match &read {
        Ok(procedure) => (procedure.count(), procedure.steps.iter().flatten().map(|step| step.0).collect()),
        Err(_) => (random.between(1, 128), vec![]),
    };
    let count = match random.below(1000) {
        0..5 => random.pick(&[1023, 1024, 1024, 1025, 1100]),
        5..10 => 0,
        10..30 => random.between(1, 200),
        30..200 => random.between(1, 40),
        _ => random.between(1, 12),
    };
    let mut lines = inputs::formula(random, count, &actions);
    if random.percent(20) && count > 0 {
        for _ in 0..random.between(1, 2) {
            let i = random.below(count);
            inputs::damaged_line(random, i, &mut lines[i]);
        }
    }
    let mut line = random.below(count.max(1)) as u64;
    let mut state = random.below(n) as u64;
    match random.below(30) {
        0 => line = count as u64,
        1 => state = n as u64,
        2 => line = random.pick(&[count as u64 + 1, 256, 1024, 1 << 16, 1 << 32, 1 << 63, u64::MAX]),
        3 => state = random.pick(&[n as u64 + 1, 128, 256, 1 << 16, 1 << 32, 1 << 63, u64::MAX]),
        _ => {}
    }
    let mut places = count * n;
    match random.below(20) {
        0 => places = places.saturating_sub(1),
        1 => places = random.below(places + 1),
        2..8 => places += random.below(50),
        _ => {}
    }
    let before = random.fill8(places);
    let mut work = before.clone();
    let mut numbers = lines.as_flattened().to_vec();
    for _ in 0..random.pick(&[0, 0, 1, 2]) {
        numbers.push(random.pick(&[b'T' as u16, 0, 9999]));
    }
    let tried = (&input, &numbers, line, state, places);
    let _tried = Tried(&tried);
    let mut answer = raw::Evaluation { number: 99, layer: 99, placed: 99, holds: 99, place: 99 };
    // SAFETY: as above.
    unsafe {
        raw::nabrotzu_evaluate(
            input.kind(),
            input.bytes().as_ptr(),
            input.bytes().len(),
            numbers.as_ptr(),
            numbers.len(),
            line,
            state,
            work.as_mut_ptr(),
            work.len(),
            &mut answer,
        );
    }
    let mut safe_work = before.clone();
    let safe = nabrotzu::evaluate(input.input(), &lines, line, state, &mut safe_work);
    assert!(safe_work == work);

    match read.and_then(|procedure| formulas::evaluate(&procedure, &lines, line, state, places)) {
        Ok((holds, written)) => {
            seen.count(if holds { "holds" } else { "fails" });
            seen.most("lines", count);
            seen.most("states", n);
            assert_eq!((answer.number, answer.layer, answer.placed, answer.place), (0, 0, 0, 0));
            assert_eq!(answer.holds, holds as u8);
            if work[..written.len()] != written {
                let place = (0..written.len()).find(|&place| work[place] != written[place]).unwrap();
                panic!("line {} at state {}: {}", place / n, place % n, work[place]);
            }
            assert!(work[written.len()..] == before[written.len()..], "places beyond");
            assert_eq!(safe, Ok(holds));
        }
        Err(refusal) => {
            seen.count(format!("refused {}", refusal.number));
            assert_eq!((answer.number, answer.layer), (refusal.number, refusal.layer));
            assert_eq!((answer.placed, answer.place), (refusal.place.is_some() as u8, refusal.place.unwrap_or(0)));
            assert!(work == before, "places changed by a refusal");
            let safe = safe.unwrap_err();
            assert_eq!((safe.number, safe.layer as u8), (refusal.number, refusal.layer));
            assert_eq!(safe.place, refusal.place);
        }
    }
}

#[test]
fn evaluations() {
    let mut random = Random::new(4);
    let mut seen = Seen::default();
    for _ in 0..40_000 {
        agree_on_evaluation(&mut random, &mut seen);
    }
    seen.print("evaluations");
    assert!(seen.of("holds") > 8_000 && seen.of("fails") > 8_000);
    for number in [30, 31, 32, 33] {
        assert!(seen.of(&format!("refused {number}")) > 100, "no refusal {number} was met");
    }
}

struct Session<'a>(&'a [u8], usize);

impl Debug for Session<'_> {
    fn fmt(&self, f: &mut std::fmt::Formatter<'_>) -> std::fmt::Result {
        write!(f, "b\"{}\" with {} places", self.0.escape_ascii(), self.1)
    }
}

fn agree_on_session(random: &mut Random, seen: &mut Seen) {
    let input = inputs::session(random);
    let lines = input.iter().filter(|byte| **byte == b'\n').count() + 1;
    let all = naive::console::session(&input, 32 * lines + 32).0.len();
    // Room for all, or for some; an input that is too long always finds room for its line.
    let places = match random.below(10) {
        0 => all + random.below(40),
        1 => (all + 8).saturating_sub(random.below(16)),
        2 => random.below(all + 64),
        3 => random.below(70),
        _ => 32 * lines + random.below(40),
    };
    let places = if input.len() > 32_768 { places.max(32) } else { places };
    let (output, read) = naive::console::session(&input, places);

    let before = random.fill8(places);
    let mut written = before.clone();
    let tried = Session(&input, places);
    let _tried = Tried(&tried);
    let mut answer = raw::Session { read: 99_999_999, written: 99_999_999 };
    // SAFETY: as above.
    unsafe {
        raw::nabrotzu_console(input.as_ptr(), input.len(), written.as_mut_ptr(), written.len(), &mut answer);
    }
    if answer.written as usize <= places && written[..answer.written as usize] != output {
        let (left, right) = (written[..answer.written as usize].escape_ascii(), output.escape_ascii());
        panic!("the console wrote\n{left}\nand not\n{right}");
    }
    assert_eq!((answer.read as usize, answer.written as usize), (read, output.len()));
    assert!(written[output.len()..] == before[output.len()..], "places beyond");
    let mut safe_output = before.clone();
    let safe = nabrotzu::console(&input, &mut safe_output);
    assert!((safe.read, safe.written) == (read, output.len()) && safe_output == written);

    seen.count(if read == input.len() { "sessions read whole" } else { "sessions cut short" });
    seen.most("input", input.len());
    for line in std::str::from_utf8(&output).unwrap().lines() {
        assert!(line.len() < 32);
        // The letter and the verdict or the number.
        let mut words: Vec<&str> =
            line.split(' ').filter(|word| !word.starts_with(|c: char| c.is_ascii_digit())).collect();
        if let Some(at) = line.find("refused ") {
            words.push(&line[at + 8..at + 10]);
        }
        seen.count(words.join(" "));
    }
}

#[test]
fn consoles() {
    let mut random = Random::new(5);
    let mut seen = Seen::default();
    for _ in 0..12_000 {
        agree_on_session(&mut random, &mut seen);
    }
    seen.print("consoles");
    for what in [
        "F ok",
        "F refused 20",
        "F refused 21",
        "F refused 24",
        "F refused at 11",
        "F refused at 12",
        "F refused at 13",
        "S same",
        "S different",
        "S refused 20",
        "S refused 22",
        "S refused 23",
        "S refused 24",
        "S refused at 11",
        "S refused at 12",
        "R ok",
        "R refused 20",
        "R refused 22",
        "R refused 27",
        "W ok",
        "W refused 20",
        "W refused 22",
        "W refused 27",
        "M ok",
        "refused at 40",
        "refused 41",
    ] {
        assert!(seen.of(what) > 0, "never met: {what}");
    }
}
