//! The procedure shelf from Rust: two procedures compared, a formula evaluated, and the console.
//!
//! The functions are those of `bindings/c/nabrotzu.h`, with slices for pointers. Nothing allocates: the caller lends the places
//! that an answer is written to. The formats, rules and numbers are in `docs/FORMATS.md`, `docs/RULES.md` and
//! `docs/REFUSALS.md` of the repository.
//!
//! ```
//! use nabrotzu::{Input, Line, MOST_LINES, MOST_STATES, compare};
//!
//! let mut lines = [[0; 3]; MOST_LINES];
//! let mut classes = [0; MOST_STATES];
//! let answer = compare(Input::Term(b"a.(b+c)+a.b"), Input::Term(b"a.(b+c)"), &mut lines, &mut classes).unwrap();
//! assert_eq!((answer.classes, answer.rounds), (5, 2));
//! let difference = answer.difference.unwrap();
//! assert_eq!(difference.depth, 2);
//! for numbers in &lines[..difference.lines] {
//!     println!("{}", Line::from_numbers(*numbers).unwrap());
//! }
//! ```

use std::error::Error;
use std::fmt;

/// The functions and structs of the header as they are.
pub mod raw {
    /// A term's text.
    pub const TERM: u8 = 0;
    /// The bytes of a table file.
    pub const TABLE: u8 = 1;

    /// `nabrotzu_comparison`
    #[repr(C)]
    #[derive(Clone, Copy, Debug, Default, PartialEq, Eq)]
    pub struct Comparison {
        pub number: u8,
        pub layer: u8,
        pub side: u8,
        pub placed: u8,
        pub same: u8,
        pub place: u64,
        pub classes: u16,
        pub rounds: u16,
        pub lines: u16,
        pub line: u16,
        pub depth: u16,
    }

    /// `nabrotzu_evaluation`
    #[repr(C)]
    #[derive(Clone, Copy, Debug, Default, PartialEq, Eq)]
    pub struct Evaluation {
        pub number: u8,
        pub layer: u8,
        pub placed: u8,
        pub holds: u8,
        pub place: u64,
    }

    /// `nabrotzu_session`
    #[repr(C)]
    #[derive(Clone, Copy, Debug, Default, PartialEq, Eq)]
    pub struct Session {
        pub read: u64,
        pub written: u64,
    }

    unsafe extern "C" {
        /// Every pointer must be non-null and good for its length, and no two places that are written may overlap others.
        pub fn nabrotzu_compare(
            left_kind: u8,
            left: *const u8,
            left_length: usize,
            right_kind: u8,
            right: *const u8,
            right_length: usize,
            lines: *mut u16,
            lines_length: usize,
            classes: *mut u16,
            classes_length: usize,
            answer: *mut Comparison,
        );
        /// As above.
        pub fn nabrotzu_evaluate(
            kind: u8,
            input: *const u8,
            input_length: usize,
            lines: *const u16,
            lines_length: usize,
            line: u64,
            state: u64,
            work: *mut u8,
            work_length: usize,
            answer: *mut Evaluation,
        );
        /// As above.
        pub fn nabrotzu_console(
            input: *const u8,
            input_length: usize,
            output: *mut u8,
            output_length: usize,
            answer: *mut Session,
        );
    }
}

/// The most states that two procedures have together: as many class numbers suffice for every comparison.
pub const MOST_STATES: usize = 256;

/// As many lines suffice for every comparison: 4 N - 3 for N states.
pub const MOST_LINES: usize = 4 * MOST_STATES - 3;

/// The most bytes that a console's line prints, its 0a included.
pub const LINE_ROOM: usize = 32;

/// A procedure as it is written.
#[derive(Clone, Copy, Debug, PartialEq, Eq)]
pub enum Input<'a> {
    /// A term's text.
    Term(&'a [u8]),
    /// The bytes of a table file.
    Table(&'a [u8]),
}

impl<'a> Input<'a> {
    fn parts(self) -> (u8, &'a [u8]) {
        match self {
            Input::Term(text) => (raw::TERM, text),
            Input::Table(bytes) => (raw::TABLE, bytes),
        }
    }
}

/// A line of a formula. Lines and actions are named by their numbers; a line names lines before it.
///
/// The library takes and gives lines as three numbers each: [`Line::numbers`] and [`Line::from_numbers`].
#[derive(Clone, Copy, Debug, PartialEq, Eq, Hash)]
pub enum Line {
    /// `T`: holds everywhere.
    True,
    /// `E`: holds at ends.
    End,
    /// `N i`: holds where line i does not.
    Not(u16),
    /// `A i j`: holds where both lines do.
    And(u16, u16),
    /// `D a i`: holds where some step by action a leads to a state where line i holds.
    Step(u16, u16),
}

impl Line {
    /// The line as three numbers: its letter, and the two numbers behind it or 0.
    pub fn numbers(self) -> [u16; 3] {
        match self {
            Line::True => [b'T'.into(), 0, 0],
            Line::End => [b'E'.into(), 0, 0],
            Line::Not(i) => [b'N'.into(), i, 0],
            Line::And(i, j) => [b'A'.into(), i, j],
            Line::Step(action, i) => [b'D'.into(), action, i],
        }
    }

    /// The line of three numbers; none where the first is no line's letter.
    pub fn from_numbers([letter, first, second]: [u16; 3]) -> Option<Line> {
        match u8::try_from(letter).ok()? {
            b'T' => Some(Line::True),
            b'E' => Some(Line::End),
            b'N' => Some(Line::Not(first)),
            b'A' => Some(Line::And(first, second)),
            b'D' => Some(Line::Step(first, second)),
            _ => None,
        }
    }
}

/// As `explain` prints it, with the action as its character: `T`, `N 0`, `D b 0`, `D #62 0`.
impl fmt::Display for Line {
    fn fmt(&self, f: &mut fmt::Formatter<'_>) -> fmt::Result {
        match *self {
            Line::True => write!(f, "T"),
            Line::End => write!(f, "E"),
            Line::Not(i) => write!(f, "N {i}"),
            Line::And(i, j) => write!(f, "A {i} {j}"),
            Line::Step(action, i) => match action {
                0..26 => write!(f, "D {} {i}", (b'a' + action as u8) as char),
                26..52 => write!(f, "D {} {i}", (b'A' + (action - 26) as u8) as char),
                52..62 => write!(f, "D {} {i}", (b'0' + (action - 52) as u8) as char),
                _ => write!(f, "D #{action} {i}"),
            },
        }
    }
}

/// The layer that refused.
#[derive(Clone, Copy, Debug, PartialEq, Eq, Hash)]
pub enum Layer {
    /// A record of a table file.
    Record = 1,
    /// The table reader.
    Table = 2,
    /// The term reader.
    Term = 3,
    /// An action map.
    Map = 4,
    /// The shelf.
    Shelf = 5,
    /// The comparison.
    Compare = 6,
    /// The evaluation of a formula.
    Evaluation = 7,
    /// The console.
    Console = 8,
}

impl Layer {
    fn from_number(number: u8) -> Layer {
        match number {
            1 => Layer::Record,
            2 => Layer::Table,
            3 => Layer::Term,
            4 => Layer::Map,
            5 => Layer::Shelf,
            6 => Layer::Compare,
            7 => Layer::Evaluation,
            8 => Layer::Console,
            _ => panic!("the library names no layer {number}"),
        }
    }
}

/// Why a call was refused: the rows of `docs/REFUSALS.md`. It is written `refused 11 at 1`, or `refused 25` without a place.
#[derive(Clone, Copy, Debug, PartialEq, Eq, Hash)]
pub struct Refusal {
    /// The number of the row.
    pub number: u8,
    /// The layer that refused.
    pub layer: Layer,
    /// Where, in the row's sense: an offset in the input, or a line.
    pub place: Option<u64>,
}

impl Refusal {
    fn new(number: u8, layer: u8, placed: u8, place: u64) -> Refusal {
        Refusal { number, layer: Layer::from_number(layer), place: (placed != 0).then_some(place) }
    }
}

impl fmt::Display for Refusal {
    fn fmt(&self, f: &mut fmt::Formatter<'_>) -> fmt::Result {
        match self.place {
            Some(place) => write!(f, "refused {} at {place}", self.number),
            None => write!(f, "refused {}", self.number),
        }
    }
}

impl Error for Refusal {}

/// One of the two inputs of a comparison.
#[derive(Clone, Copy, Debug, PartialEq, Eq, Hash)]
pub enum Side {
    Left,
    Right,
}

/// A refused comparison: the refusal, and the input that it is about, if it is about one.
#[derive(Clone, Copy, Debug, PartialEq, Eq, Hash)]
pub struct Refused {
    /// The input that was refused; none where the places lent are too few.
    pub side: Option<Side>,
    /// Why.
    pub refusal: Refusal,
}

impl fmt::Display for Refused {
    fn fmt(&self, f: &mut fmt::Formatter<'_>) -> fmt::Result {
        match self.side {
            Some(Side::Left) => write!(f, "left {}", self.refusal),
            Some(Side::Right) => write!(f, "right {}", self.refusal),
            None => self.refusal.fmt(f),
        }
    }
}

impl Error for Refused {}

/// What a comparison reports.
#[derive(Clone, Copy, Debug, PartialEq, Eq)]
pub struct Comparison {
    /// How many classes the states of both procedures fall into.
    pub classes: usize,
    /// The least round that the next one equals.
    pub rounds: usize,
    /// How the two differ; none where they are the same.
    pub difference: Option<Difference>,
}

impl Comparison {
    /// Whether a bisimulation relates the two starts, ends included.
    pub fn same(&self) -> bool {
        self.difference.is_none()
    }
}

/// The formula that tells two procedures apart.
#[derive(Clone, Copy, Debug, PartialEq, Eq)]
pub struct Difference {
    /// How many lines were written.
    pub lines: usize,
    /// The line that holds at the left start and fails at the right one.
    pub line: usize,
    /// Its depth: no formula that tells the two apart is shallower.
    pub depth: usize,
}

/// Reads both inputs, the left one first, and compares them.
///
/// With N states in all it wants 4 N - 3 lines and N class numbers; [`MOST_LINES`] and [`MOST_STATES`] always suffice. The class
/// places then hold a number for each state, the left procedure's states first: equal exactly for states of one class. On a
/// difference the first lines hold the formula. All other places keep their contents, and on a refusal all do.
pub fn compare(
    left: Input<'_>,
    right: Input<'_>,
    lines: &mut [[u16; 3]],
    classes: &mut [u16],
) -> Result<Comparison, Refused> {
    let (left_kind, left) = left.parts();
    let (right_kind, right) = right.parts();
    let lines = lines.as_flattened_mut();
    let mut answer = raw::Comparison::default();
    // SAFETY: the pointers are those of slices, so none is null and each is good for its length; the places that are written
    // are borrowed mutably, so they overlap nothing.
    unsafe {
        raw::nabrotzu_compare(
            left_kind,
            left.as_ptr(),
            left.len(),
            right_kind,
            right.as_ptr(),
            right.len(),
            lines.as_mut_ptr(),
            lines.len(),
            classes.as_mut_ptr(),
            classes.len(),
            &mut answer,
        );
    }
    if answer.number != 0 {
        return Err(Refused {
            side: match answer.side {
                1 => Some(Side::Left),
                2 => Some(Side::Right),
                _ => None,
            },
            refusal: Refusal::new(answer.number, answer.layer, answer.placed, answer.place),
        });
    }
    Ok(Comparison {
        classes: answer.classes.into(),
        rounds: answer.rounds.into(),
        difference: (answer.same == 0).then_some(Difference {
            lines: answer.lines.into(),
            line: answer.line.into(),
            depth: answer.depth.into(),
        }),
    })
}

/// Reads the input and evaluates a formula over it: whether the line holds at the state.
///
/// With n states the working buffer wants `lines.len() * n` places; place `i * n + s` then holds 1 where line i holds at state s,
/// and else 0. All other places keep their contents, and on a refusal all do.
pub fn evaluate(input: Input<'_>, lines: &[[u16; 3]], line: u64, state: u64, work: &mut [u8]) -> Result<bool, Refusal> {
    let (kind, input) = input.parts();
    let lines = lines.as_flattened();
    let mut answer = raw::Evaluation::default();
    // SAFETY: as in `compare`.
    unsafe {
        raw::nabrotzu_evaluate(
            kind,
            input.as_ptr(),
            input.len(),
            lines.as_ptr(),
            lines.len(),
            line,
            state,
            work.as_mut_ptr(),
            work.len(),
            &mut answer,
        );
    }
    if answer.number != 0 {
        return Err(Refusal::new(answer.number, answer.layer, answer.placed, answer.place));
    }
    Ok(answer.holds != 0)
}

/// What a console read and wrote.
#[derive(Clone, Copy, Debug, PartialEq, Eq)]
pub struct Session {
    /// Bytes of the input whose lines were answered: the input's length where all were.
    pub read: usize,
    /// Bytes of output.
    pub written: usize,
}

/// Answers the lines of the input on a new console, one after another, as long as [`LINE_ROOM`] places are free for the next
/// line's output. An input of over 32,768 bytes is answered by the one line `refused 41`. What lies behind the written bytes is
/// kept.
pub fn console(input: &[u8], output: &mut [u8]) -> Session {
    let mut answer = raw::Session::default();
    // SAFETY: as in `compare`.
    unsafe {
        raw::nabrotzu_console(input.as_ptr(), input.len(), output.as_mut_ptr(), output.len(), &mut answer);
    }
    // Both numbers are at most the lengths of slices.
    Session { read: answer.read as usize, written: answer.written as usize }
}
