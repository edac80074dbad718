//! Frames: length, kind, body.

use crate::node::{Name, Record};
use crate::pair::Call;

/// A fault's number and the offset of the frame it is in.
pub type Fault = (u8, usize);

fn length_of(kind: u16) -> Option<usize> {
    Some(match kind {
        1 => 14,
        2 => 4,
        3 | 5 | 6 | 7 => 1,
        4 | 8 | 10 => 0,
        9 => 7,
        11 => 6,
        _ => return None,
    })
}

/// The call in the frame at an offset, and the offset of the next; `None` at the end of the file.
pub fn read(file: &[u8], at: usize) -> Result<Option<(Call, usize)>, Fault> {
    let rest = &file[at..];
    if rest.is_empty() {
        return Ok(None);
    }
    if rest.len() < 4 {
        return Err((20, at));
    }
    let length = usize::from(u16::from_le_bytes([rest[0], rest[1]]));
    let kind = u16::from_le_bytes([rest[2], rest[3]]);
    let Some(right) = length_of(kind) else {
        return Err((21, at));
    };
    if length != right {
        return Err((22, at));
    }
    if rest.len() < 4 + length {
        return Err((23, at));
    }
    Ok(Some((decode(kind, &rest[4..4 + length]), at + 4 + length)))
}

fn decode(kind: u16, b: &[u8]) -> Call {
    let u16_at = |i: usize| u16::from_le_bytes([b[i], b[i + 1]]);
    let u32_at = |i: usize| u32::from_le_bytes([b[i], b[i + 1], b[i + 2], b[i + 3]]);
    match kind {
        1 => Call::HandIn(Record {
            name: Name { sender: u16_at(0), serial: u32_at(4), time: u32_at(8) },
            stop: u16_at(2),
            amount: u16_at(12),
        }),
        2 => Call::Advance(u32_at(0)),
        3 => Call::Fire(b[0]),
        4 => Call::Send,
        5 => Call::Lose(b[0]),
        6 => Call::Repeat(b[0]),
        7 => Call::Deliver(b[0]),
        8 => Call::Pass,
        9 => Call::Restart { node: b[0], left: u32_at(1), tear: b[5], fill: b[6] },
        10 => Call::Show,
        _ => Call::Done(u16_at(0), u32_at(2)),
    }
}

pub fn write(call: Call, out: &mut Vec<u8>) {
    let (kind, body): (u16, Vec<u8>) = match call {
        Call::HandIn(r) => {
            let mut b = Vec::new();
            b.extend(r.name.sender.to_le_bytes());
            b.extend(r.stop.to_le_bytes());
            b.extend(r.name.serial.to_le_bytes());
            b.extend(r.name.time.to_le_bytes());
            b.extend(r.amount.to_le_bytes());
            (1, b)
        }
        Call::Advance(t) => (2, t.to_le_bytes().to_vec()),
        Call::Fire(n) => (3, vec![n]),
        Call::Send => (4, vec![]),
        Call::Lose(p) => (5, vec![p]),
        Call::Repeat(p) => (6, vec![p]),
        Call::Deliver(p) => (7, vec![p]),
        Call::Pass => (8, vec![]),
        Call::Restart { node, left, tear, fill } => {
            let mut b = vec![node];
            b.extend(left.to_le_bytes());
            b.extend([tear, fill]);
            (9, b)
        }
        Call::Show => (10, vec![]),
        Call::Done(stop, serial) => {
            let mut b = stop.to_le_bytes().to_vec();
            b.extend(serial.to_le_bytes());
            (11, b)
        }
    };
    out.extend((body.len() as u16).to_le_bytes());
    out.extend(kind.to_le_bytes());
    out.extend(body);
}
