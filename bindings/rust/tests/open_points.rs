//! What the documents and the header leave open, and what a caller would expect. A failure here is a question to them rather
//! than a difference.

use nabrotzu::{Input, evaluate, raw};

/// Numbers that a letter has no use for are passed over.
#[test]
fn needless_numbers() {
    let letter = |byte: u8| byte as u16;
    let mut work = [7; 6];
    let lines = [[letter(b'T'), 9, 9], [letter(b'E'), 9999, 1], [letter(b'N'), 1, 700]];
    assert_eq!(evaluate(Input::Term(b"a"), &lines, 2, 0, &mut work), Ok(true));
    assert_eq!(work, [1, 1, 0, 1, 1, 0]);
}

fn compared(left: &[u8], right: &[u8]) -> raw::Comparison {
    let (mut lines, mut classes) = ([0u16; 300], [0u16; 40]);
    let mut answer = raw::Comparison {
        number: 99,
        layer: 99,
        side: 99,
        placed: 99,
        same: 99,
        place: 99,
        classes: 99,
        rounds: 99,
        lines: 99,
        line: 99,
        depth: 99,
    };
    // SAFETY: pointers and lengths of slices; what is written is borrowed mutably.
    unsafe {
        raw::nabrotzu_compare(
            raw::TERM,
            left.as_ptr(),
            left.len(),
            raw::TERM,
            right.as_ptr(),
            right.len(),
            lines.as_mut_ptr(),
            lines.len(),
            classes.as_mut_ptr(),
            classes.len(),
            &mut answer,
        );
    }
    answer
}

/// The fields that an answer has no use for are 0: `same` on a refusal, which stands before `place`, and line and depth on
/// "same".
#[test]
fn needless_fields() {
    let refused = compared(b"a", b"a+");
    assert_eq!((refused.number, refused.same), (12, 0));
    let same = compared(b"a", b"a+a");
    assert_eq!((same.number, same.same, same.lines, same.line, same.depth), (0, 1, 0, 0, 0));
}

/// A refused evaluation does not hold.
#[test]
fn a_refused_evaluation() {
    let (input, lines, mut work) = (b"a", [b'T' as u16, 0, 0], [7]);
    let mut answer = raw::Evaluation { number: 99, layer: 99, placed: 99, holds: 99, place: 99 };
    // SAFETY: as above.
    unsafe {
        raw::nabrotzu_evaluate(
            raw::TERM,
            input.as_ptr(),
            input.len(),
            lines.as_ptr(),
            lines.len(),
            0,
            0,
            work.as_mut_ptr(),
            work.len(),
            &mut answer,
        );
    }
    assert_eq!((answer.number, answer.layer, answer.placed, answer.holds, answer.place), (30, 7, 0, 0, 0));
}

/// Also the line `refused 41` wants 32 places: with fewer nothing is written and nothing is read, so that a caller sees that the
/// output was too short.
#[test]
fn a_long_input_without_room() {
    let input = vec![b'\n'; 32_769];
    for places in [0, 1, 10, 11, 12, 31] {
        let mut output = vec![7; places];
        let session = nabrotzu::console(&input, &mut output);
        assert_eq!((session.read, session.written), (0, 0), "{places} places");
        assert!(output.iter().all(|byte| *byte == 7));
    }
}
