//! What the nodes compute: the counter at the collector, the detector at the spotter.

pub type Emission = (u32, u16);

#[derive(Clone, Copy, PartialEq, Eq, Debug)]
pub enum Verdict {
    Fine,
    Early,
    Over,
}

pub trait Computation {
    type State: Copy;
    fn load(bytes: &[u8]) -> Self::State;
    fn store(state: &Self::State, bytes: &mut [u8]);
    fn mark(state: &Self::State) -> u32;
    fn due(state: &Self::State) -> Option<u32>;
    fn verdict(state: &Self::State, w: u32, time: u32, amount: u16) -> Verdict;
    fn take(state: &mut Self::State, w: u32, time: u32, amount: u16) -> Option<Emission>;
    fn fire(state: &mut Self::State) -> Option<Emission>;
    /// What the state holds of the requests it took: open sums, or the total.
    fn weight(state: &Self::State) -> u64;
}

fn u32_at(bytes: &[u8], at: usize) -> u32 {
    u32::from_le_bytes([bytes[at], bytes[at + 1], bytes[at + 2], bytes[at + 3]])
}

#[derive(Clone, Copy)]
pub struct CounterState {
    mark: u32,
    sums: [u16; 4],
}

pub struct Counter;

impl Counter {
    fn earliest(s: &CounterState) -> Option<u32> {
        let first = s.mark / 60;
        (first..first + 4).find(|m| s.sums[(m % 4) as usize] != 0)
    }

    fn raised(s: &CounterState, w: u32) -> u32 {
        let start = 60 * (w / 60);
        let upto = Self::earliest(s).map_or(start, |m| start.min(60 * m));
        s.mark.max(upto)
    }
}

impl Computation for Counter {
    type State = CounterState;

    fn load(bytes: &[u8]) -> CounterState {
        let sum = |i: usize| u16::from_le_bytes([bytes[4 + 2 * i], bytes[5 + 2 * i]]);
        CounterState { mark: u32_at(bytes, 0), sums: [sum(0), sum(1), sum(2), sum(3)] }
    }

    fn store(s: &CounterState, bytes: &mut [u8]) {
        bytes[0..4].copy_from_slice(&s.mark.to_le_bytes());
        for (i, sum) in s.sums.iter().enumerate() {
            bytes[4 + 2 * i..6 + 2 * i].copy_from_slice(&sum.to_le_bytes());
        }
    }

    fn mark(s: &CounterState) -> u32 {
        s.mark
    }

    fn due(s: &CounterState) -> Option<u32> {
        Self::earliest(s).map(|m| 60 * (m + 1))
    }

    fn verdict(s: &CounterState, w: u32, time: u32, amount: u16) -> Verdict {
        if time >= Self::raised(s, w) + 240 {
            Verdict::Early
        } else if s.sums[(time / 60 % 4) as usize].checked_add(amount).is_none() {
            Verdict::Over
        } else {
            Verdict::Fine
        }
    }

    fn take(s: &mut CounterState, w: u32, time: u32, amount: u16) -> Option<Emission> {
        s.mark = Self::raised(s, w);
        s.sums[(time / 60 % 4) as usize] += amount;
        None
    }

    fn fire(s: &mut CounterState) -> Option<Emission> {
        let m = Self::earliest(s)?;
        let sum = std::mem::take(&mut s.sums[(m % 4) as usize]);
        s.mark = 60 * (m + 1);
        Some((s.mark, sum))
    }

    fn weight(s: &CounterState) -> u64 {
        s.sums.iter().map(|&sum| u64::from(sum)).sum()
    }
}

#[derive(Clone, Copy)]
pub struct DetectorState {
    predicted: u32,
    total: u32,
    mark: u32,
}

pub struct Detector;

impl Computation for Detector {
    type State = DetectorState;

    fn load(bytes: &[u8]) -> DetectorState {
        DetectorState { predicted: u32_at(bytes, 0), total: u32_at(bytes, 4), mark: u32_at(bytes, 8) }
    }

    fn store(s: &DetectorState, bytes: &mut [u8]) {
        bytes[0..4].copy_from_slice(&s.predicted.to_le_bytes());
        bytes[4..8].copy_from_slice(&s.total.to_le_bytes());
        bytes[8..12].copy_from_slice(&s.mark.to_le_bytes());
    }

    fn mark(s: &DetectorState) -> u32 {
        s.mark
    }

    fn due(_: &DetectorState) -> Option<u32> {
        None
    }

    fn verdict(s: &DetectorState, _w: u32, _time: u32, amount: u16) -> Verdict {
        match s.total.checked_add(u32::from(amount)) {
            Some(_) => Verdict::Fine,
            None => Verdict::Over,
        }
    }

    fn take(s: &mut DetectorState, _w: u32, time: u32, amount: u16) -> Option<Emission> {
        let sixteenths = 16 * i64::from(amount);
        let p = i64::from(s.predicted);
        let spike = amount >= 10 && sixteenths >= 2 * p;
        s.predicted = (p + (sixteenths - p) / 4) as u32;
        s.total += u32::from(amount);
        s.mark = time;
        spike.then_some((time, amount))
    }

    fn fire(_: &mut DetectorState) -> Option<Emission> {
        None
    }

    fn weight(s: &DetectorState) -> u64 {
        u64::from(s.total)
    }
}
