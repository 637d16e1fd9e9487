//! The console: lines in, lines out.

use super::shelf::{Shelf, SubmitRefusal};
use super::{CONSOLE, Procedure, Refusal, action, refused, refused_at, terms};

enum Command<'a> {
    File(u8, &'a [u8]),
    Submit(u8, &'a [u8]),
    Release(u8),
    Withdraw(u8),
    Map(u8, u8),
}

/// Takes a line apart from the front.
struct Cursor<'a> {
    line: &'a [u8],
    at: usize,
}

impl<'a> Cursor<'a> {
    /// The next byte, if `fits` finds something in it; else the refusal, at the byte or at the line's end.
    fn next<T>(&mut self, fits: impl Fn(u8) -> Option<T>) -> Result<T, Refusal> {
        match self.line.get(self.at).and_then(|&byte| fits(byte)) {
            Some(found) => {
                self.at += 1;
                Ok(found)
            }
            None => Err(refused_at(40, CONSOLE, self.at)),
        }
    }

    fn space(&mut self) -> Result<(), Refusal> {
        self.next(|byte| (byte == b' ').then_some(()))
    }

    fn slot(&mut self) -> Result<u8, Refusal> {
        self.next(|byte| byte.is_ascii_digit().then(|| byte - b'0'))
    }

    fn rest(&mut self) -> &'a [u8] {
        &self.line[self.at..]
    }

    fn done(&self) -> Result<(), Refusal> {
        if self.at == self.line.len() { Ok(()) } else { Err(refused_at(40, CONSOLE, self.at)) }
    }
}

fn command(line: &[u8]) -> Result<Command<'_>, Refusal> {
    let mut cursor = Cursor { line, at: 0 };
    let letter = cursor.next(|byte| b"FSRWM".contains(&byte).then_some(byte))?;
    cursor.space()?;
    match letter {
        b'F' => {
            let slot = cursor.slot()?;
            cursor.space()?;
            Ok(Command::File(slot, cursor.rest()))
        }
        b'S' => {
            let slot = cursor.slot()?;
            cursor.space()?;
            Ok(Command::Submit(slot, cursor.rest()))
        }
        b'R' => {
            let slot = cursor.slot()?;
            cursor.done()?;
            Ok(Command::Release(slot))
        }
        b'W' => {
            let slot = cursor.slot()?;
            cursor.done()?;
            Ok(Command::Withdraw(slot))
        }
        _ => {
            let x = cursor.next(action)?;
            let y = cursor.next(action)?;
            cursor.done()?;
            Ok(Command::Map(x, y))
        }
    }
}

pub struct Console {
    shelf: Shelf,
    map: [u8; 64],
}

impl Console {
    pub fn new() -> Console {
        Console { shelf: Shelf::new(0), map: std::array::from_fn(|a| a as u8) }
    }

    fn mapped(&self, text: &[u8]) -> Result<Procedure, Refusal> {
        let mut procedure = terms::graph(&terms::read(text)?);
        for list in &mut procedure.steps {
            for step in list {
                step.0 = self.map[step.0 as usize];
            }
        }
        Ok(procedure)
    }

    /// The line of output, without its 0a.
    pub fn answer(&mut self, line: &[u8]) -> String {
        let command = match command(line) {
            Ok(command) => command,
            Err(refusal) => return refusal.to_string(),
        };
        match command {
            Command::File(slot, text) => {
                let answer = self.mapped(text).and_then(|source| self.shelf.file(slot as usize, &source));
                format!("F {slot} {}", ok_or(answer))
            }
            Command::Submit(slot, text) => {
                let answer = match self.mapped(text) {
                    Err(refusal) => refusal.to_string(),
                    Ok(source) => match self.shelf.submit(slot as usize, &source, 1021, 256) {
                        Ok(report) => format!("same {} {}", report.classes, report.rounds),
                        Err(SubmitRefusal::Different(report)) => format!("different {}", report.depth.unwrap()),
                        Err(SubmitRefusal::Row(refusal)) => refusal.to_string(),
                    },
                };
                format!("S {slot} {answer}")
            }
            Command::Release(slot) => {
                let answer = self.shelf.claim(slot as usize).map(|clearance| self.shelf.release(clearance).unwrap());
                format!("R {slot} {}", ok_or(answer))
            }
            Command::Withdraw(slot) => {
                let answer = self.shelf.claim(slot as usize).map(|clearance| self.shelf.withdraw(clearance).unwrap());
                format!("W {slot} {}", ok_or(answer))
            }
            Command::Map(x, y) => {
                self.map[x as usize] = y;
                "M ok".to_string()
            }
        }
    }
}

fn ok_or(answer: Result<(), Refusal>) -> String {
    match answer {
        Ok(()) => "ok".to_string(),
        Err(refusal) => refusal.to_string(),
    }
}

/// A new console on an input, with so many places for output: the output, and how many bytes of the input were answered.
pub fn session(input: &[u8], places: usize) -> (Vec<u8>, usize) {
    let mut output = vec![];
    if input.len() > 32_768 {
        if places < 32 {
            return (output, 0);
        }
        output.extend(refused(41, CONSOLE).to_string().bytes());
        output.push(b'\n');
        return (output, input.len());
    }
    let mut console = Console::new();
    let mut read = 0;
    while read < input.len() && places - output.len() >= 32 {
        let rest = &input[read..];
        let (line, length) = match rest.iter().position(|&byte| byte == b'\n') {
            Some(end) => (&rest[..end], end + 1),
            None => (rest, rest.len()),
        };
        output.extend(console.answer(line).bytes());
        output.push(b'\n');
        read += length;
    }
    (output, read)
}
