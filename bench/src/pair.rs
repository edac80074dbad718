//! Two nodes, the link between them, and the eleven calls.

use crate::card::{Journal, PAGE, Shadow};
use crate::computation::{Counter, Detector};
use crate::node::{Answer, Name, Node, Production, Record, STOPS};

#[derive(Clone, Copy, PartialEq, Eq, Debug)]
pub enum Message {
    Production(u16, Production),
    Acknowledgement(u16, u32),
}

#[derive(Clone, Copy, PartialEq, Eq, Debug)]
pub enum Call {
    HandIn(Record),
    Advance(u32),
    Fire(u8),
    Send,
    Lose(u8),
    Repeat(u8),
    Deliver(u8),
    Pass,
    Restart { node: u8, left: u32, tear: u8, fill: u8 },
    Show,
    Done(u16, u32),
}

const MOST_MESSAGES: usize = 16;

pub struct Pair {
    pub collector: Node<Journal, Counter>,
    pub spotter: Node<Shadow, Detector>,
    link: Vec<Message>,
}

impl Default for Pair {
    fn default() -> Self {
        Self::new()
    }
}

impl Pair {
    pub fn new() -> Pair {
        Pair { collector: Node::new(Journal::new()), spotter: Node::new(Shadow::new()), link: Vec::new() }
    }

    /// The answer, and for a show that is done what it shows.
    pub fn call(&mut self, call: Call) -> (Answer, Option<(u16, Production)>) {
        let answer = match call {
            Call::HandIn(record) => self.collector.hand_in(record),
            Call::Advance(time) => self.collector.advance(time),
            Call::Fire(0) => self.collector.fire(),
            Call::Fire(1) => self.spotter.fire(),
            Call::Fire(_) => Answer::OutOfRange,
            Call::Send => self.send(),
            Call::Lose(place) => self.lose(usize::from(place)),
            Call::Repeat(place) => self.repeat(usize::from(place)),
            Call::Deliver(place) => self.deliver(usize::from(place)),
            Call::Pass => self.pass(),
            Call::Restart { node, left, tear, fill } => self.restart(node, left, tear, fill),
            Call::Show => return self.show(),
            Call::Done(stop, serial) => {
                if usize::from(stop) >= STOPS {
                    Answer::OutOfRange
                } else {
                    self.spotter.clear(stop, serial)
                }
            }
        };
        (answer, None)
    }

    fn send(&mut self) -> Answer {
        if !self.collector.is_on() {
            return Answer::Off;
        }
        let Some(stop) = self.collector.queue_head() else {
            return Answer::Nothing;
        };
        if self.link.len() == MOST_MESSAGES {
            return Answer::LinkFull;
        }
        let Some(production) = self.collector.oldest(stop) else {
            return Answer::Nothing;
        };
        self.link.push(Message::Production(stop, production));
        self.collector.turn();
        Answer::Done
    }

    fn lose(&mut self, place: usize) -> Answer {
        if place >= self.link.len() {
            return Answer::NoMessage;
        }
        self.link.remove(place);
        Answer::Done
    }

    fn repeat(&mut self, place: usize) -> Answer {
        let Some(&message) = self.link.get(place) else {
            return Answer::NoMessage;
        };
        if self.link.len() == MOST_MESSAGES {
            return Answer::LinkFull;
        }
        self.link.push(message);
        Answer::Done
    }

    fn deliver(&mut self, place: usize) -> Answer {
        let Some(&message) = self.link.get(place) else {
            return Answer::NoMessage;
        };
        match message {
            Message::Production(stop, p) => {
                if !self.spotter.is_on() {
                    return Answer::Off;
                }
                self.link.remove(place);
                let name = Name { sender: stop, serial: p.serial, time: p.time };
                let answer = self.spotter.hand_in(Record { name, stop, amount: p.amount });
                if matches!(answer, Answer::Done | Answer::Seen) {
                    self.link.push(Message::Acknowledgement(stop, p.serial));
                }
                answer
            }
            Message::Acknowledgement(stop, serial) => {
                if !self.collector.is_on() {
                    return Answer::Off;
                }
                self.link.remove(place);
                self.collector.clear(stop, serial)
            }
        }
    }

    fn pass(&mut self) -> Answer {
        if !self.collector.is_on() || !self.spotter.is_on() {
            return Answer::Off;
        }
        let low = self.collector.low_watermark();
        self.spotter.raise_watermark(low)
    }

    fn restart(&mut self, node: u8, left: u32, tear: u8, fill: u8) -> Answer {
        if node > 1 || tear > 2 {
            return Answer::OutOfRange;
        }
        let junk = [fill; PAGE];
        match node {
            0 => self.collector.restart(left, tear, &junk),
            _ => self.spotter.restart(left, tear, &junk),
        }
    }

    fn show(&self) -> (Answer, Option<(u16, Production)>) {
        if !self.spotter.is_on() {
            return (Answer::Off, None);
        }
        match self.spotter.greatest().and_then(|stop| Some((stop, self.spotter.oldest(stop)?))) {
            Some(shown) => (Answer::Done, Some(shown)),
            None => (Answer::Nothing, None),
        }
    }
}
