//! A script before it is written down.

use crate::dice::Dice;

pub const MOST_REQUESTS: usize = 1_024;
pub const MOST_ENTRIES: usize = 8_192;

#[derive(Clone, Copy)]
pub struct Request(pub u32, pub i32, pub i32);

pub struct Draft {
    pub requests: Vec<Vec<Request>>,
    pub schedule: Vec<usize>,
}

impl Draft {
    pub fn new(workers: usize) -> Self {
        Draft { requests: vec![Vec::new(); workers], schedule: Vec::new() }
    }

    pub fn workers(&self) -> usize {
        self.requests.len()
    }

    pub fn ask(&mut self, worker: usize, code: u32, k: i32, l: i32) {
        self.requests[worker].push(Request(code, k, l));
    }

    /// Worker 0 adds all these vertices before another worker does anything.
    pub fn add_vertices_first(&mut self, keys: &[i32]) {
        for (before, key) in keys.iter().enumerate() {
            self.ask(0, 1, *key, 0);
            self.repeat(0, before + 2);
        }
    }

    /// A request for two of these keys, mostly AddE.
    pub fn ask_any(&mut self, dice: &mut Dice, worker: usize, keys: &[i32]) {
        let code = dice.pick(&[4, 4, 4, 4, 4, 4, 5, 5, 6, 1, 1, 2, 3]);
        let (k, l) = (dice.pick(keys), dice.pick(keys));
        self.ask(worker, code, k, l);
    }

    pub fn repeat(&mut self, worker: usize, times: usize) {
        self.schedule.extend(std::iter::repeat_n(worker, times));
    }

    /// Workers at random, each for a few entries.
    pub fn bursts(&mut self, dice: &mut Dice, length: usize, longest: usize) {
        let end = self.schedule.len() + length;
        while self.schedule.len() < end {
            let worker = dice.below(self.workers());
            let times = dice.between(1, longest).min(end - self.schedule.len());
            self.repeat(worker, times);
        }
    }

    /// Workers one after the other, each for the same number of entries.
    pub fn turns(&mut self, length: usize, each: usize) {
        for place in 0..length {
            self.schedule.push(place / each % self.workers());
        }
    }

    /// The lines without their ends.
    pub fn lines(&self) -> Vec<Vec<u8>> {
        let counts = self.requests.iter().map(|own| own.len());
        let first = std::iter::once(self.workers()).chain(counts);
        let mut lines = vec![joined(first.chain([self.schedule.len()]))];
        for Request(code, k, l) in self.requests.iter().flatten() {
            let line = if *code < 4 { format!("{code} {k}") } else { format!("{code} {k} {l}") };
            lines.push(line.into_bytes());
        }
        lines.push(joined(self.schedule.iter().copied()));
        lines
    }

    /// The whole script, cut to what a script may hold.
    pub fn bytes(mut self) -> Vec<u8> {
        let mut left = MOST_REQUESTS;
        for own in &mut self.requests {
            own.truncate(left);
            left -= own.len();
        }
        self.schedule.truncate(MOST_ENTRIES);
        ended(&self.lines())
    }
}

fn joined(numbers: impl Iterator<Item = usize>) -> Vec<u8> {
    let texts: Vec<String> = numbers.map(|number| number.to_string()).collect();
    texts.join(" ").into_bytes()
}

pub fn ended(lines: &[Vec<u8>]) -> Vec<u8> {
    let mut bytes = Vec::new();
    for line in lines {
        bytes.extend_from_slice(line);
        bytes.push(b'\n');
    }
    bytes
}
