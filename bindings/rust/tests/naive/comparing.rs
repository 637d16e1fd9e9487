//! Two procedures compared, by the definition of the rounds.

use super::{COMPARE, Procedure, Refusal, refused};

/// The joined states: the left procedure's, then the right's.
pub fn joined(left: &Procedure, right: &Procedure) -> Procedure {
    let n = left.count();
    let mut both = left.clone();
    both.ends.extend(&right.ends);
    for list in &right.steps {
        both.steps.push(list.iter().map(|&(action, target)| (action, n + target)).collect());
    }
    both
}

/// Which pairs of states agree at a round.
pub type Agreement = Vec<Vec<bool>>;

pub fn round_zero(p: &Procedure) -> Agreement {
    (0..p.count()).map(|s| (0..p.count()).map(|t| p.ends[s] == p.ends[t]).collect()).collect()
}

/// Whether each step of s has a step of t with the same action, to states that agree.
fn answered(p: &Procedure, agree: &Agreement, s: usize, t: usize) -> bool {
    p.steps[s].iter().all(|&(a, x)| p.steps[t].iter().any(|&(b, y)| a == b && agree[x][y]))
}

pub fn next_round(p: &Procedure, agree: &Agreement) -> Agreement {
    (0..p.count())
        .map(|s| (0..p.count()).map(|t| agree[s][t] && answered(p, agree, s, t) && answered(p, agree, t, s)).collect())
        .collect()
}

#[derive(Debug)]
pub struct Comparison {
    /// For each joined state the least state of its class.
    pub leaders: Vec<usize>,
    /// K
    pub classes: usize,
    /// r
    pub rounds: usize,
    /// The least round at which the starts disagree: "different", and the depth.
    pub depth: Option<usize>,
}

pub fn compare(left: &Procedure, right: &Procedure) -> Comparison {
    let both = joined(left, right);
    let starts = (0, left.count());
    let mut agree = round_zero(&both);
    let mut rounds = 0;
    let mut depth = None;
    loop {
        if depth.is_none() && !agree[starts.0][starts.1] {
            depth = Some(rounds);
        }
        let next = next_round(&both, &agree);
        if next == agree {
            break;
        }
        agree = next;
        rounds += 1;
    }
    let leaders: Vec<usize> = (0..both.count()).map(|s| agree[s].iter().position(|&a| a).unwrap()).collect();
    let classes = (0..both.count()).filter(|&s| leaders[s] == s).count();
    Comparison { leaders, classes, rounds, depth }
}

/// The row for places that are too few.
pub fn room(left: &Procedure, right: &Procedure, lines: usize, classes: usize) -> Option<Refusal> {
    let n = left.count() + right.count();
    (lines < 4 * n - 3 || classes < n).then_some(refused(25, COMPARE))
}
