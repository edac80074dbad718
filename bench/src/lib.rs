//! The two nodes in plain Rust, written from docs/ alone, to be compared with the proved library.

pub mod card;
pub mod computation;
pub mod frames;
pub mod node;
pub mod pair;
pub mod random;

use std::fmt::Write;

use node::STOPS;
use pair::{Call, Pair};

const MOST_BYTES: usize = 65_536;

/// What the script program prints for a file of frames.
pub fn account(file: &[u8]) -> String {
    let file = &file[..file.len().min(MOST_BYTES)];
    let mut pair = Pair::new();
    let mut text = String::new();
    let mut at = 0;
    let mut event = 0;
    loop {
        match frames::read(file, at) {
            Ok(None) => break,
            Ok(Some((call, next))) => {
                at = next;
                event += 1;
                let (answer, shown) = pair.call(call);
                let _ = write!(text, "{event} {}", answer.number());
                if let Some((stop, p)) = shown {
                    let _ = write!(text, " {stop} {} {} {}", p.serial, p.time, p.amount);
                }
                text.push('\n');
            }
            Err((number, offset)) => {
                let _ = writeln!(text, "fault {number} {offset}");
                break;
            }
        }
    }
    for node in 0..2 {
        pair.call(Call::Restart { node, left: 100, tear: 0, fill: 0 });
    }
    for stop in 0..STOPS as u16 {
        let held = pair.collector.weight(stop);
        let pending = pair.collector.amount_pending(stop);
        let landed = pair.spotter.weight(stop);
        if held + pending + landed > 0 {
            let _ = writeln!(text, "stop {stop} {held} {pending} {landed}");
        }
    }
    text
}
