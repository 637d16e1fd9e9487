//! Table files.

use super::{Procedure, RECORD, Refusal, TABLE, refused_at};

pub fn read(file: &[u8]) -> Result<Procedure, Refusal> {
    if file.len() > 16_384 {
        return Err(refused_at(7, TABLE, 0));
    }
    let mut offset = 0;
    let mut steps = 0;
    let mut procedure: Option<Procedure> = None;
    while offset < file.len() {
        // The record.
        let rest = &file[offset..];
        if rest.len() < 4 {
            return Err(refused_at(1, RECORD, offset));
        }
        let length = rest[0] as usize + 256 * rest[1] as usize;
        let kind = rest[2] as usize + 256 * rest[3] as usize;
        if length > rest.len() - 4 {
            return Err(refused_at(2, RECORD, offset));
        }
        let body = &rest[4..4 + length];

        // The rows 3 to 6.
        match &mut procedure {
            None => {
                if kind != 1 {
                    return Err(refused_at(3, TABLE, offset));
                }
                if length != 1 {
                    return Err(refused_at(4, TABLE, offset));
                }
                let n = body[0] as usize;
                if !(1..=128).contains(&n) {
                    return Err(refused_at(5, TABLE, offset));
                }
                procedure = Some(Procedure { ends: vec![false; n], steps: vec![vec![]; n] });
            }
            Some(procedure) => {
                if kind == 1 {
                    return Err(refused_at(3, TABLE, offset));
                }
                let fits = match kind {
                    2 => length == 1,
                    3 => length == 3,
                    4 => true,
                    _ => false,
                };
                if !fits {
                    return Err(refused_at(4, TABLE, offset));
                }
                if kind == 2 {
                    let state = body[0] as usize;
                    if state >= procedure.count() {
                        return Err(refused_at(5, TABLE, offset));
                    }
                    procedure.ends[state] = true;
                }
                if kind == 3 {
                    let (from, action, to) = (body[0] as usize, body[1], body[2] as usize);
                    if from >= procedure.count() || action > 63 || to >= procedure.count() {
                        return Err(refused_at(5, TABLE, offset));
                    }
                    steps += 1;
                    if steps == 513 {
                        return Err(refused_at(6, TABLE, offset));
                    }
                    procedure.steps[from].push((action, to));
                }
            }
        }
        offset += 4 + length;
    }
    procedure.ok_or(refused_at(3, TABLE, offset))
}
