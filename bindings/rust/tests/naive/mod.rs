//! A second implementation, written from README.md and docs/ alone and in the most obvious way. It is what the library is held
//! against, so it is plain rather than fast.
#![allow(dead_code)]

pub mod comparing;
pub mod console;
pub mod formulas;
pub mod shelf;
pub mod tables;
pub mod terms;

/// A procedure: its ends, and for each state its steps, each an action and a target. State 0 is the start.
#[derive(Clone, Debug, PartialEq)]
pub struct Procedure {
    pub ends: Vec<bool>,
    pub steps: Vec<Vec<(u8, usize)>>,
}

impl Procedure {
    pub fn count(&self) -> usize {
        self.ends.len()
    }

    /// How many steps it lists in all.
    pub fn size(&self) -> usize {
        self.steps.iter().map(Vec::len).sum()
    }
}

/// The layers, by the header's numbers.
pub const RECORD: u8 = 1;
pub const TABLE: u8 = 2;
pub const TERM: u8 = 3;
pub const SHELF: u8 = 5;
pub const COMPARE: u8 = 6;
pub const EVALUATION: u8 = 7;
pub const CONSOLE: u8 = 8;

#[derive(Clone, Copy, Debug, PartialEq)]
pub struct Refusal {
    pub number: u8,
    pub layer: u8,
    pub place: Option<u64>,
}

pub fn refused(number: u8, layer: u8) -> Refusal {
    Refusal { number, layer, place: None }
}

pub fn refused_at(number: u8, layer: u8, place: usize) -> Refusal {
    Refusal { number, layer, place: Some(place as u64) }
}

/// As it is written.
impl std::fmt::Display for Refusal {
    fn fmt(&self, f: &mut std::fmt::Formatter<'_>) -> std::fmt::Result {
        match self.place {
            Some(place) => write!(f, "refused {} at {}", self.number, place),
            None => write!(f, "refused {}", self.number),
        }
    }
}

/// The action of a character.
pub fn action(byte: u8) -> Option<u8> {
    match byte {
        b'a'..=b'z' => Some(byte - b'a'),
        b'A'..=b'Z' => Some(26 + (byte - b'A')),
        b'0'..=b'9' => Some(52 + (byte - b'0')),
        _ => None,
    }
}
