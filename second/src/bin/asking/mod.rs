//! Shared by the programs that fill a catalogue: one request by a lone worker,
//! and sums of the replies.

use second::{step, take_up, Answer, Catalogue, Refusal, Table};

/// A request as it is taken up: its code and its keys.
pub type Request = (u32, i32, i32);

/// How many were answered 1, 9 or otherwise, and all steps.
#[derive(Default)]
pub struct Tally {
    done: u32,
    no_room: u32,
    other: u32,
    steps: u32,
}

impl Tally {
    pub fn count(&mut self, (reply, steps): (u8, u32)) {
        match reply {
            1 => self.done += 1,
            9 => self.no_room += 1,
            _ => self.other += 1,
        }
        self.steps += steps;
    }

    pub fn print(&self) {
        println!("{} {} {} {}", self.done, self.no_room, self.other, self.steps);
    }
}

/// Takes up a request and steps it. Returns the reply, and how many steps it took.
pub fn perform(catalogue: &mut Catalogue, (code, k, l): Request) -> Result<(u8, u32), Refusal> {
    let mut table = Table::new(1);
    take_up(catalogue, &mut table, 0, code, k, l)?;
    let mut steps = 0;
    loop {
        steps += 1;
        if let Answer::Reply(reply) = step(catalogue, &mut table, 0)? {
            return Ok((reply, steps));
        }
    }
}

/// The key of the n-th vertex; every other one is below zero.
pub fn key(n: u16) -> i32 {
    if n.is_multiple_of(2) {
        i32::from(n)
    } else {
        -i32::from(n)
    }
}

/// Makes the same request on every by-th vertex from the first on.
pub fn on_vertices(
    catalogue: &mut Catalogue,
    code: u32,
    first: u16,
    by: usize,
) -> Result<Tally, Refusal> {
    let mut tally = Tally::default();
    for n in (first..254).step_by(by) {
        tally.count(perform(catalogue, (code, key(n), 0))?);
    }
    Ok(tally)
}
