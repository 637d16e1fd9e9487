//! The examples and the rows of the documents, on the naive implementation and on the library.

mod naive;

use nabrotzu::{Input, Line, MOST_LINES, MOST_STATES, compare, console, evaluate};
use naive::{Procedure, comparing, formulas, tables, terms};

fn graph(text: &str) -> Procedure {
    terms::graph(&terms::read(text.as_bytes()).unwrap())
}

fn told(refusal: naive::Refusal) -> (u8, u8, Option<u64>) {
    (refusal.number, refusal.layer, refusal.place)
}

/// Number, layer and place of the library's refusal of an input, which it must tell on both sides and in an evaluation.
fn library_refusal(input: Input) -> (u8, u8, Option<u64>) {
    let (mut lines, mut classes, mut work) = ([[7; 3]; MOST_LINES], [7; MOST_STATES], [7; 128]);
    let left = compare(input, Input::Term(b"a"), &mut lines, &mut classes).unwrap_err();
    let right = compare(Input::Term(b"a"), input, &mut lines, &mut classes).unwrap_err();
    let alone = evaluate(input, &[Line::True.numbers()], 0, 0, &mut work).unwrap_err();
    assert_eq!((left.side, right.side), (Some(nabrotzu::Side::Left), Some(nabrotzu::Side::Right)));
    assert_eq!((left.refusal, right.refusal), (alone, alone));
    assert!(lines.iter().all(|line| *line == [7; 3]) && classes.iter().all(|class| *class == 7));
    assert_eq!(work, [7; 128]);
    (alone.number, alone.layer as u8, alone.place)
}

#[test]
fn graphs_of_terms() {
    assert_eq!(
        graph("a.(b+c)"),
        Procedure {
            ends: vec![false, false, true, true],
            steps: vec![vec![(0, 1)], vec![(1, 2), (2, 3)], vec![], vec![]],
        }
    );
    assert_eq!(
        graph("(a+a).b"),
        Procedure {
            ends: vec![false, false, false, true],
            steps: vec![vec![(0, 1), (0, 2)], vec![(1, 3)], vec![(1, 3)], vec![]],
        }
    );
    assert_eq!(graph("a"), Procedure { ends: vec![false, true], steps: vec![vec![(0, 1)], vec![]] });
    assert_eq!(
        graph("z+A.Z.0.9").steps,
        [vec![(25, 1), (26, 2)], vec![], vec![(51, 3)], vec![(52, 4)], vec![(61, 5)], vec![]]
    );
}

/// Each derivation leads to the state of its action.
#[test]
fn derivations_lead_to_states() {
    for text in ["a", "a.(b+c)+a.b", "((a+b).c+d.(e.f+g)).(h+i.(j+k)).l", "(a.(b+c.(d+e).f)).g.(h.(i+j))"] {
        let term = terms::read(text.as_bytes()).unwrap();
        let states = terms::states(&term);
        for state in states.iter().flatten() {
            for (_, place, rest) in terms::derivations(state) {
                assert_eq!(rest, states[place], "{text}");
            }
        }
    }
}

#[test]
fn refused_terms() {
    let actions = |k: usize| vec!["a"; k].join(".");
    let brackets = |k: usize| format!("{}a{}", "(".repeat(k), ")".repeat(k));
    let wide = vec!["((((a))))"; 51].join("+"); // 509 bytes
    assert_eq!(wide.len(), 509);
    let rows: Vec<(String, Option<(u8, usize)>)> = vec![
        ("(a+b".into(), Some((12, 4))),
        ("a+".into(), Some((12, 2))),
        ("".into(), Some((12, 0))),
        ("(".into(), Some((12, 1))),
        ("a)".into(), Some((11, 1))),
        ("ab".into(), Some((11, 1))),
        ("+a".into(), Some((11, 0))),
        ("a b".into(), Some((11, 1))),
        ("()".into(), Some((11, 1))),
        ("a(b)".into(), Some((11, 1))),
        ("#".into(), Some((11, 0))),
        ("a.b\n".into(), Some((11, 3))),
        (actions(63), None),
        (actions(64), Some((13, 126))),
        (actions(65), Some((13, 126))),
        (format!("{}b", actions(63)), Some((11, 125))),
        (brackets(32), None),
        (brackets(33), Some((14, 32))),
        (format!("a{}", brackets(33)), Some((11, 1))),
        (format!("{wide}+a"), None),
        (format!("{wide}+a+"), Some((12, 512))),
        (format!("{wide}+(a)"), Some((10, 0))),
        ("?".repeat(512), Some((11, 0))),
        ("?".repeat(513), Some((10, 0))),
        ("a+a".repeat(300), Some((10, 0))),
    ];
    for (text, row) in rows {
        let expected = row.map(|(number, place)| (number, naive::TERM, Some(place as u64)));
        assert_eq!(terms::read(text.as_bytes()).err().map(told), expected, "{text}");
        match expected {
            Some(refusal) => assert_eq!(library_refusal(Input::Term(text.as_bytes())), refusal, "{text}"),
            None => {
                let mut work = [7; 64];
                assert!(evaluate(Input::Term(text.as_bytes()), &[Line::True.numbers()], 0, 0, &mut work).unwrap());
            }
        }
    }
}

fn record(kind: u16, body: &[u8]) -> Vec<u8> {
    let mut bytes = (body.len() as u16).to_le_bytes().to_vec();
    bytes.extend(kind.to_le_bytes());
    bytes.extend(body);
    bytes
}

#[test]
fn tables_of_the_documents() {
    let file = [1, 0, 1, 0, 1, 3, 0, 3, 0, 0, 0, 0];
    assert_eq!(tables::read(&file).unwrap(), Procedure { ends: vec![false], steps: vec![vec![(0, 0)]] });
    let (mut lines, mut classes) = ([[0; 3]; MOST_LINES], [0; MOST_STATES]);
    let answer = compare(Input::Table(&file), Input::Table(&file), &mut lines, &mut classes).unwrap();
    assert_eq!((answer.classes, answer.rounds, answer.same()), (1, 0, true));

    let drawn = [
        record(1, &[3]),
        record(4, b"any"),
        record(3, &[1, 63, 2]),
        record(2, &[2]),
        record(3, &[0, 5, 1]),
        record(2, &[2]),
        record(3, &[1, 63, 2]),
        record(4, &[]),
        record(3, &[1, 0, 0]),
    ]
    .concat();
    assert_eq!(
        tables::read(&drawn).unwrap(),
        Procedure { ends: vec![false, false, true], steps: vec![vec![(5, 1)], vec![(63, 2), (63, 2), (0, 0)], vec![]] }
    );
}

#[test]
fn refused_tables() {
    let head = |n| record(1, &[n]);
    let step = record(3, &[0, 0, 0]);
    let full = [head(1), step.repeat(512)].concat(); // 5 + 512 * 7 bytes
    let padding = |bytes: &[u8], total: usize| record(4, &vec![0; total - bytes.len() - 4]);
    type Row = (Vec<u8>, Option<(u8, u8, u64)>);
    let rows: Vec<Row> = vec![
        (vec![], Some((3, 2, 0))),
        (vec![1], Some((1, 1, 0))),
        (vec![1, 0, 1], Some((1, 1, 0))),
        (vec![1, 0, 1, 0], Some((2, 1, 0))),
        (head(1), None),
        (head(128), None),
        (head(0), Some((5, 2, 0))),
        (head(129), Some((5, 2, 0))),
        (record(2, &[0]), Some((3, 2, 0))),
        (record(4, &[]), Some((3, 2, 0))),
        (record(9, &[]), Some((3, 2, 0))),
        (record(257, &[1]), Some((3, 2, 0))),
        (record(1, &[1, 1]), Some((4, 2, 0))),
        (record(1, &[]), Some((4, 2, 0))),
        ([head(2), head(2)].concat(), Some((3, 2, 5))),
        ([head(2), record(1, &[])].concat(), Some((3, 2, 5))),
        ([head(2), record(0, &[0])].concat(), Some((4, 2, 5))),
        ([head(2), record(5, &[0])].concat(), Some((4, 2, 5))),
        ([head(2), record(258, &[0])].concat(), Some((4, 2, 5))),
        ([head(2), record(2, &[])].concat(), Some((4, 2, 5))),
        ([head(2), record(2, &[0, 0])].concat(), Some((4, 2, 5))),
        ([head(2), record(3, &[0, 0])].concat(), Some((4, 2, 5))),
        ([head(2), record(3, &[0, 0, 0, 0])].concat(), Some((4, 2, 5))),
        ([head(2), record(2, &[1])].concat(), None),
        ([head(2), record(2, &[2])].concat(), Some((5, 2, 5))),
        ([head(2), record(3, &[1, 63, 1])].concat(), None),
        ([head(2), record(3, &[2, 0, 0])].concat(), Some((5, 2, 5))),
        ([head(2), record(3, &[0, 64, 0])].concat(), Some((5, 2, 5))),
        ([head(2), record(3, &[0, 0, 2])].concat(), Some((5, 2, 5))),
        ([head(2), vec![0]].concat(), Some((1, 1, 5))),
        ([head(2), vec![1, 0, 2, 0]].concat(), Some((2, 1, 5))),
        ([head(2), vec![0, 1, 4, 0], vec![0; 255]].concat(), Some((2, 1, 5))),
        ([head(2), vec![0, 1, 4, 0], vec![0; 256]].concat(), None),
        (full.clone(), None),
        ([full.clone(), step.clone()].concat(), Some((6, 2, 3589))),
        ([full.clone(), record(3, &[0, 64, 0])].concat(), Some((5, 2, 3589))),
        ([full.clone(), padding(&full, 16_384)].concat(), None),
        ([full.clone(), padding(&full, 16_385)].concat(), Some((7, 2, 0))),
        ([full.clone(), step, padding(&full, 16_384)].concat(), Some((7, 2, 0))),
    ];
    for (file, row) in rows {
        let expected = row.map(|(number, layer, place)| (number, layer, Some(place)));
        assert_eq!(tables::read(&file).err().map(told), expected, "{file:?}");
        match expected {
            Some(refusal) => assert_eq!(library_refusal(Input::Table(&file)), refusal, "{file:?}"),
            None => {
                let mut work = [7; 128];
                assert!(evaluate(Input::Table(&file), &[Line::True.numbers()], 0, 0, &mut work).unwrap());
            }
        }
    }
}

#[test]
fn the_rewritten_term() {
    let (left, right) = ("a.(b+c)+a.b", "a.(b+c)");
    let naive = comparing::compare(&graph(left), &graph(right));
    // Left 0 to 5, then right 0 to 3.
    assert_eq!(naive.leaders, [0, 1, 2, 2, 4, 2, 6, 1, 2, 2]);
    assert_eq!((naive.classes, naive.rounds, naive.depth), (5, 2, Some(2)));
    let (mut lines, mut classes) = ([[0; 3]; MOST_LINES], [0; MOST_STATES]);
    let answer =
        compare(Input::Term(left.as_bytes()), Input::Term(right.as_bytes()), &mut lines, &mut classes).unwrap();
    assert_eq!((answer.classes, answer.rounds, answer.difference.unwrap().depth), (5, 2, 2));
}

#[test]
fn two_chains() {
    let file = |n: u8| {
        let mut bytes = [record(1, &[n]), record(2, &[n - 1])].concat();
        for s in 0..n - 1 {
            bytes.extend(record(3, &[s, 0, s + 1]));
        }
        bytes
    };
    let chain = tables::read(&file(128)).unwrap();
    let naive = comparing::compare(&chain, &chain);
    assert_eq!((naive.leaders.len(), naive.classes, naive.rounds, naive.depth), (256, 128, 126, None));
    let (mut lines, mut classes) = ([[0; 3]; MOST_LINES], [0; MOST_STATES]);
    let answer = compare(Input::Table(&file(128)), Input::Table(&file(128)), &mut lines, &mut classes).unwrap();
    assert_eq!((answer.classes, answer.rounds, answer.same()), (128, 126, true));
}

#[test]
fn lines_of_a_formula() {
    // (!E & <b>E) at the states of a.(b+c), and the rows.
    let source = "a.(b+c)";
    let good = [[b'E' as u16, 0, 0], [b'N' as u16, 0, 0], [b'D' as u16, 1, 0], [b'A' as u16, 1, 2]];
    let expected = [0, 0, 1, 1, 1, 1, 0, 0, 0, 1, 0, 0, 0, 1, 0, 0];
    assert_eq!(formulas::evaluate(&graph(source), &good, 3, 1, 16), Ok((true, expected.to_vec())));
    let mut work = [7; 18];
    assert_eq!(evaluate(Input::Term(source.as_bytes()), &good, 3, 1, &mut work), Ok(true));
    assert_eq!((&work[..16], &work[16..]), (&expected[..], &[7, 7][..]));

    let t = [b'T' as u16, 0, 0];
    type Row = (Vec<[u16; 3]>, u64, u64, usize, (u8, Option<u64>));
    let rows: Vec<Row> = vec![
        (vec![], 0, 0, 4, (31, None)),
        (vec![t; 1025], 0, 0, 4 * 1025, (31, None)),
        (vec![[0; 3]; 1025], 0, 0, 4 * 1025, (31, None)),
        (vec![t, [b'X' as u16, 0, 0]], 9, 9, 0, (32, Some(1))),
        (vec![t, [b't' as u16, 0, 0]], 9, 9, 0, (32, Some(1))),
        (vec![t, [b'T' as u16 + 256, 0, 0]], 9, 9, 0, (32, Some(1))),
        (vec![[b'N' as u16, 0, 0]], 0, 0, 4, (32, Some(0))),
        (vec![t, [b'N' as u16, 1, 0]], 0, 0, 8, (32, Some(1))),
        (vec![t, [b'A' as u16, 1, 0]], 0, 0, 8, (32, Some(1))),
        (vec![t, [b'A' as u16, 0, 1]], 0, 0, 8, (32, Some(1))),
        (vec![t, [b'D' as u16, 0, 1]], 0, 0, 8, (32, Some(1))),
        (vec![t, [b'D' as u16, 64, 0]], 0, 0, 8, (32, Some(1))),
        (vec![t, [b'D' as u16, 256, 0]], 0, 0, 8, (32, Some(1))),
        (vec![t, [b'D' as u16, 63, 0]], 2, 0, 8, (33, None)),
        (vec![t], 0, 4, 4, (33, None)),
        (vec![t], u64::MAX, 0, 4, (33, None)),
        (vec![t], 0, 1 << 32, 4, (33, None)),
        (vec![t], 1, 0, 0, (33, None)),
        (vec![t], 0, 0, 3, (30, None)),
        (vec![t; 1024], 1023, 3, 4 * 1024 - 1, (30, None)),
    ];
    for (lines, line, state, places, (number, place)) in rows {
        let refusal = formulas::evaluate(&graph(source), &lines, line, state, places).unwrap_err();
        assert_eq!(told(refusal), (number, naive::EVALUATION, place), "{lines:?}");
        let mut work = vec![7; places];
        let refusal = evaluate(Input::Term(source.as_bytes()), &lines, line, state, &mut work).unwrap_err();
        assert_eq!((refusal.number, refusal.layer as u8, refusal.place), (number, naive::EVALUATION, place));
        assert!(work.iter().all(|place| *place == 7));
    }
}

fn both_consoles(input: &[u8]) -> String {
    let room = 32 * (input.len() + 1);
    let (output, read) = naive::console::session(input, room);
    let mut places = vec![7; room];
    let session = console(input, &mut places);
    assert_eq!((session.read, session.written), (read, output.len()));
    assert_eq!(&places[..session.written], output);
    assert!(places[session.written..].iter().all(|place| *place == 7));
    assert_eq!(read, input.len());
    String::from_utf8(output).unwrap()
}

#[test]
fn a_session() {
    let input = "F 0 a.(b+c)\nS 0 a.b+a.c\nM dc\nS 0 (a+a).(d+b)\nR 0\nW 0\nS 1 a\nF 2 a+\n";
    let output =
        "F 0 ok\nS 0 different 2\nM ok\nS 0 same 3 1\nR 0 ok\nW 0 refused 27\nS 1 refused 22\nF 2 refused 12 at 2\n";
    assert_eq!(both_consoles(input.as_bytes()), output);
    assert_eq!(both_consoles(input.trim_end().as_bytes()), output);
    assert_eq!(both_consoles(b""), "");
}

#[test]
fn refused_lines() {
    let rows = [
        ("", "refused 40 at 0"),
        ("f 0 a", "refused 40 at 0"),
        ("F", "refused 40 at 1"),
        ("Fx", "refused 40 at 1"),
        ("F ", "refused 40 at 2"),
        ("F x", "refused 40 at 2"),
        ("F 0", "refused 40 at 3"),
        ("F 00 a", "refused 40 at 3"),
        ("F 0 ", "F 0 refused 12 at 0"),
        ("F 0  a", "F 0 refused 11 at 0"),
        ("F 0 a\r", "F 0 refused 11 at 1"),
        ("F 9 a", "F 9 refused 20"),
        ("S 8 a", "S 8 refused 20"),
        ("S 8 a.", "S 8 refused 12 at 2"),
        ("R 8", "R 8 refused 20"),
        ("W 9", "W 9 refused 20"),
        ("R 0", "R 0 refused 22"),
        ("R 0 ", "refused 40 at 3"),
        ("W 0\r", "refused 40 at 3"),
        ("R", "refused 40 at 1"),
        ("R a", "refused 40 at 2"),
        ("M", "refused 40 at 1"),
        ("M ", "refused 40 at 2"),
        ("M a", "refused 40 at 3"),
        ("M a b", "refused 40 at 3"),
        ("M a+", "refused 40 at 3"),
        ("M ab ", "refused 40 at 4"),
        ("M ab", "M ok"),
        (" F 0 a", "refused 40 at 0"),
    ];
    for (line, answer) in rows {
        assert_eq!(both_consoles(format!("{line}\n").as_bytes()), format!("{answer}\n"), "{line}");
    }
    let dense = format!("({}).({})", vec!["a"; 31].join("+"), vec!["a"; 32].join("+"));
    assert_eq!(
        both_consoles(
            format!("F 0 {dense}\nF 0 a\nF 0 {dense}\nS 0 {dense}\nS 1 {dense}\nS 0 a\nS 0 {dense}").as_bytes()
        ),
        "F 0 refused 24\nF 0 ok\nF 0 refused 21\nS 0 refused 24\nS 1 refused 22\nS 0 same 2 0\nS 0 refused 23\n"
    );
    assert_eq!(both_consoles(&[b'\n'; 32_768]), "refused 40 at 0\n".repeat(32_768));
    assert_eq!(both_consoles(&[b'\n'; 32_769]), "refused 41\n");
}
