//! Terms: the reader, the rules of the calculus, and the graph.

use super::{Procedure, Refusal, TERM, action, refused_at};
use std::rc::Rc;

#[derive(Debug, PartialEq)]
pub enum Term {
    /// The action, and which of the text's actions it is, from 1.
    Action(u8, usize),
    Choice(Rc<Term>, Rc<Term>),
    Sequence(Rc<Term>, Rc<Term>),
}

/// The first refusal of a text, by the table of the reader.
pub fn first_refusal(text: &[u8]) -> Option<Refusal> {
    if text.len() > 512 {
        return Some(refused_at(10, TERM, 0));
    }
    let mut before = true;
    let mut open = 0;
    let mut actions = 0;
    for (offset, &byte) in text.iter().enumerate() {
        if before && action(byte).is_some() {
            actions += 1;
            if actions == 64 {
                return Some(refused_at(13, TERM, offset));
            }
            before = false;
        } else if before && byte == b'(' {
            open += 1;
            if open == 33 {
                return Some(refused_at(14, TERM, offset));
            }
        } else if !before && (byte == b'+' || byte == b'.') {
            before = true;
        } else if !before && byte == b')' && open > 0 {
            open -= 1;
        } else {
            return Some(refused_at(11, TERM, offset));
        }
    }
    if before || open > 0 {
        return Some(refused_at(12, TERM, text.len()));
    }
    None
}

/// The term that a text spells, by the grammar.
pub fn read(text: &[u8]) -> Result<Rc<Term>, Refusal> {
    if let Some(refusal) = first_refusal(text) {
        return Err(refusal);
    }
    let mut parser = Parser { text, at: 0, actions: 0 };
    let term = parser.sum();
    assert_eq!(parser.at, text.len());
    Ok(term)
}

struct Parser<'a> {
    text: &'a [u8],
    at: usize,
    actions: usize,
}

impl Parser<'_> {
    fn next_is(&self, byte: u8) -> bool {
        self.text.get(self.at) == Some(&byte)
    }

    fn sum(&mut self) -> Rc<Term> {
        let mut left = self.product();
        while self.next_is(b'+') {
            self.at += 1;
            left = Rc::new(Term::Choice(left, self.product()));
        }
        left
    }

    fn product(&mut self) -> Rc<Term> {
        let mut left = self.operand();
        while self.next_is(b'.') {
            self.at += 1;
            left = Rc::new(Term::Sequence(left, self.operand()));
        }
        left
    }

    fn operand(&mut self) -> Rc<Term> {
        let byte = self.text[self.at];
        self.at += 1;
        if byte == b'(' {
            let inner = self.sum();
            assert!(self.next_is(b')'));
            self.at += 1;
            inner
        } else {
            self.actions += 1;
            Rc::new(Term::Action(action(byte).unwrap(), self.actions))
        }
    }
}

/// What a term can do by the rules: the action, which of the text's actions it is, and what remains, if anything does.
pub fn derivations(term: &Rc<Term>) -> Vec<(u8, usize, Option<Rc<Term>>)> {
    match &**term {
        Term::Action(action, place) => vec![(*action, *place, None)],
        Term::Choice(x, y) => {
            let mut all = derivations(x);
            all.extend(derivations(y));
            all
        }
        Term::Sequence(x, y) => derivations(x)
            .into_iter()
            .map(|(action, place, rest)| match rest {
                None => (action, place, Some(y.clone())),
                Some(rest) => (action, place, Some(Rc::new(Term::Sequence(rest, y.clone())))),
            })
            .collect(),
    }
}

/// What remains after the i-th action written; the outer option is absent where the term does not have that action.
pub fn after(term: &Rc<Term>, i: usize) -> Option<Option<Rc<Term>>> {
    match &**term {
        Term::Action(_, place) => (*place == i).then_some(None),
        Term::Choice(x, y) => after(x, i).or_else(|| after(y, i)),
        Term::Sequence(x, y) => match after(x, i) {
            Some(None) => Some(Some(y.clone())),
            Some(Some(rest)) => Some(Some(Rc::new(Term::Sequence(rest, y.clone())))),
            None => after(y, i),
        },
    }
}

/// How many actions are written.
pub fn actions(term: &Rc<Term>) -> usize {
    match &**term {
        Term::Action(..) => 1,
        Term::Choice(x, y) | Term::Sequence(x, y) => actions(x) + actions(y),
    }
}

/// The states: the whole term, then what remains after each action.
pub fn states(term: &Rc<Term>) -> Vec<Option<Rc<Term>>> {
    let mut all = vec![Some(term.clone())];
    for i in 1..=actions(term) {
        all.push(after(term, i).unwrap());
    }
    all
}

/// The graph of a term.
pub fn graph(term: &Rc<Term>) -> Procedure {
    let mut procedure = Procedure { ends: vec![], steps: vec![] };
    for state in states(term) {
        procedure.ends.push(state.is_none());
        procedure.steps.push(match state {
            None => vec![],
            Some(rest) => derivations(&rest).into_iter().map(|(action, place, _)| (action, place)).collect(),
        });
    }
    procedure
}
