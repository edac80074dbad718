//! Random lists of calls: short and worn-in, with cuts, losses, doubles and damage.

use crate::frames;
use crate::node::{Name, Record};
use crate::pair::Call;

/// A small generator (xorshift64*), so that a seed names a script for good.
pub struct Random(u64);

impl Random {
    pub fn new(seed: u64) -> Random {
        Random(seed.wrapping_mul(0x9E37_79B9_7F4A_7C15) | 1)
    }

    pub fn next(&mut self) -> u64 {
        self.0 ^= self.0 >> 12;
        self.0 ^= self.0 << 25;
        self.0 ^= self.0 >> 27;
        self.0.wrapping_mul(0x2545_F491_4F6C_DD1D)
    }

    pub fn below(&mut self, n: u64) -> u64 {
        (self.next() >> 16) % n
    }

    fn pick<T: Copy>(&mut self, of: &[T]) -> T {
        of[self.below(of.len() as u64) as usize]
    }
}

/// How a life goes: which stops and times it uses, and how long power lasts.
struct Life {
    stops: u64,
    senders: u64,
    now: u32,
    power: u64,
    /// Mostly hand ins, so that rows fill up.
    crowded: bool,
    handed: Vec<Record>,
}

impl Life {
    fn record(&mut self, r: &mut Random) -> Record {
        if !self.handed.is_empty() && r.below(4) == 0 {
            let mut old = r.pick(&self.handed);
            if r.below(3) == 0 {
                old.amount = old.amount.wrapping_add(1);
            }
            return old;
        }
        let near = [0, 1, 29, 59, 60, 61, 119, 120, 180, 239, 240, 241, 299, 300];
        let time = match r.below(12) {
            0 => self.now.saturating_sub(r.below(120) as u32),
            1 => r.pick(&[0, 59, 60, 4_000_000_000, 4_000_000_001, u32::MAX]),
            _ => self.now.saturating_add(r.pick(&near)),
        };
        let amount = match r.below(10) {
            0 => r.pick(&[0, 1, 9, 10, 25_535, 25_536, 40_000, 65_535]),
            _ => 1 + r.below(60) as u16,
        };
        let stop = if r.below(40) == 0 { 31 + r.below(3) as u16 } else { r.below(self.stops) as u16 };
        let name = Name { sender: r.below(self.senders) as u16, serial: r.below(500) as u32, time };
        let record = Record { name, stop, amount };
        self.handed.push(record);
        record
    }

    fn call(&mut self, r: &mut Random) -> Call {
        let die = if self.crowded && r.below(10) > 0 { 0 } else { r.below(100) };
        match die {
            0..40 => Call::HandIn(self.record(r)),
            40..48 => {
                let time = match r.below(12) {
                    0 => self.now,
                    1 => r.pick(&[4_000_000_000, 4_000_000_001]),
                    _ => {
                        self.now = self.now.saturating_add(r.pick(&[1, 30, 60, 60, 60, 120]));
                        self.now
                    }
                };
                Call::Advance(if time > 4_000_000_000 && r.below(50) != 0 { 4_000_000_000 } else { time })
            }
            48..58 => Call::Fire(r.pick(&[0, 0, 0, 0, 0, 1, 2])),
            58..68 => Call::Send,
            68..70 => Call::Lose(r.below(5) as u8),
            70..73 => Call::Repeat(r.below(3) as u8),
            73..86 => Call::Deliver(r.pick(&[0, 0, 0, 0, 1, 2, 15, 16])),
            86..89 => Call::Pass,
            89..93 => Call::Restart {
                node: r.pick(&[0, 0, 0, 1, 1, 1, 2]),
                left: r.below(self.power) as u32,
                tear: r.pick(&[0, 0, 1, 1, 2, 2, 3]),
                fill: r.next() as u8,
            },
            93..96 => Call::Show,
            _ => Call::Done(r.below(self.stops + 1) as u16, r.below(4) as u32),
        }
    }
}

/// A list of so many calls.
pub fn calls(seed: u64, many: usize) -> Vec<Call> {
    let mut r = Random::new(seed);
    let starts = [0, 0, 0, 60, 10_000, 3_999_990_000, 3_999_999_700];
    let mut life = Life {
        stops: r.pick(&[1, 2, 4, 8, 32]),
        senders: r.pick(&[1, 3, 40]),
        now: r.pick(&starts),
        power: r.pick(&[6, 40, 400, 100_000]),
        crowded: r.below(4) == 0,
        handed: Vec::new(),
    };
    let power = life.power as u32;
    let mut list = vec![
        Call::Restart { node: 0, left: power, tear: r.below(3) as u8, fill: r.next() as u8 },
        Call::Restart { node: 1, left: power, tear: r.below(3) as u8, fill: r.next() as u8 },
    ];
    if life.now > 0 && r.below(4) > 0 {
        list.push(Call::Advance(life.now));
    }
    while list.len() < many {
        list.push(life.call(&mut r));
    }
    list
}

/// The frames of a list of calls; one file in eight is damaged.
pub fn file(seed: u64, many: usize) -> Vec<u8> {
    let mut bytes = Vec::new();
    for call in calls(seed, many) {
        frames::write(call, &mut bytes);
    }
    let mut r = Random::new(seed ^ 0x5555);
    if r.below(8) == 0 && !bytes.is_empty() {
        let at = r.below(bytes.len() as u64) as usize;
        match r.below(3) {
            0 => bytes.truncate(at),
            1 => bytes[at] = r.next() as u8,
            _ => bytes.insert(at, r.next() as u8),
        }
    }
    bytes
}
