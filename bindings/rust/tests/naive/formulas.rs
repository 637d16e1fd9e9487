//! Formulas: the rows of an evaluation, and what a line means.

use super::{EVALUATION, Procedure, Refusal, refused, refused_at};

#[derive(Clone, Copy, Debug, PartialEq)]
pub enum Line {
    True,
    End,
    Not(usize),
    And(usize, usize),
    Step(usize, usize),
}

/// The line of three numbers. Numbers that a letter has no use for are passed over.
pub fn line([letter, first, second]: [u16; 3]) -> Option<Line> {
    let (first, second) = (first as usize, second as usize);
    match char::from_u32(letter as u32)? {
        'T' => Some(Line::True),
        'E' => Some(Line::End),
        'N' => Some(Line::Not(first)),
        'A' => Some(Line::And(first, second)),
        'D' => Some(Line::Step(first, second)),
        _ => None,
    }
}

/// The line with this number, if it may stand there.
pub fn well_formed(number: usize, numbers: [u16; 3]) -> Option<Line> {
    let line = line(numbers)?;
    let good = match line {
        Line::True | Line::End => true,
        Line::Not(i) => i < number,
        Line::And(i, j) => i < number && j < number,
        Line::Step(action, i) => action <= 63 && i < number,
    };
    good.then_some(line)
}

/// The lines, or the number of the first that may not stand there.
pub fn formula(lines: &[[u16; 3]]) -> Result<Vec<Line>, usize> {
    lines.iter().enumerate().map(|(i, &numbers)| well_formed(i, numbers).ok_or(i)).collect()
}

/// Whether line i holds at state s, by the definition. Answers are remembered, since lines share others.
pub fn holds(p: &Procedure, lines: &[Line], i: usize, s: usize, remembered: &mut Vec<Vec<Option<bool>>>) -> bool {
    if remembered.is_empty() {
        *remembered = vec![vec![None; p.count()]; lines.len()];
    }
    if let Some(answer) = remembered[i][s] {
        return answer;
    }
    let answer = match lines[i] {
        Line::True => true,
        Line::End => p.ends[s],
        Line::Not(j) => !holds(p, lines, j, s, remembered),
        Line::And(j, k) => holds(p, lines, j, s, remembered) && holds(p, lines, k, s, remembered),
        Line::Step(a, j) => p.steps[s].iter().any(|&(b, t)| a == b as usize && holds(p, lines, j, t, remembered)),
    };
    remembered[i][s] = Some(answer);
    answer
}

pub fn depth(lines: &[Line], i: usize, remembered: &mut Vec<Option<usize>>) -> usize {
    if remembered.is_empty() {
        *remembered = vec![None; lines.len()];
    }
    if let Some(answer) = remembered[i] {
        return answer;
    }
    let answer = match lines[i] {
        Line::True | Line::End => 0,
        Line::Not(j) => depth(lines, j, remembered),
        Line::And(j, k) => depth(lines, j, remembered).max(depth(lines, k, remembered)),
        Line::Step(_, j) => 1 + depth(lines, j, remembered),
    };
    remembered[i] = Some(answer);
    answer
}

/// The answer, and what is written to the front of the working buffer.
pub fn evaluate(
    p: &Procedure,
    lines: &[[u16; 3]],
    line: u64,
    state: u64,
    places: usize,
) -> Result<(bool, Vec<u8>), Refusal> {
    if lines.is_empty() || lines.len() > 1024 {
        return Err(refused(31, EVALUATION));
    }
    let formula = formula(lines).map_err(|first| refused_at(32, EVALUATION, first))?;
    if line >= lines.len() as u64 || state >= p.count() as u64 {
        return Err(refused(33, EVALUATION));
    }
    if places < lines.len() * p.count() {
        return Err(refused(30, EVALUATION));
    }
    let mut remembered = vec![];
    let mut written = vec![];
    for i in 0..lines.len() {
        for s in 0..p.count() {
            written.push(holds(p, &formula, i, s, &mut remembered) as u8);
        }
    }
    Ok((holds(p, &formula, line as usize, state as usize, &mut remembered), written))
}
