//! Scripts: reading one strictly, then playing its schedule.

use std::slice::Iter;

use crate::catalogue::Catalogue;
use crate::listing::{check_output, write_listing, ReplyLine};
use crate::numbers::{Answer, Refusal, SCRIPT, WORKERS};
use crate::step::{check_request, step, take_up};
use crate::worker::Table;

const MOST_REQUESTS: u32 = 1_024;
const MOST_ENTRIES: u32 = 8_192;

#[derive(Clone, Copy)]
struct Request {
    code: u32,
    k: i32,
    l: i32,
}

struct Script {
    /// Each worker's requests, in order.
    requests: Vec<Vec<Request>>,
    schedule: Vec<usize>,
}

/// Plays a script from a fresh catalogue; returns the number of bytes written.
pub fn run(script: &[u8], catalogue: &mut Catalogue, output: &mut [u8]) -> Result<usize, Refusal> {
    catalogue.check_room()?;
    check_output(output)?;
    let script = read(script)?;
    // Played on a separate catalogue, so that a refusal does not change the lent one.
    let mut played = Catalogue::default();
    let replies = play(&script, &mut played)?;
    let written = write_listing(&played, &replies, output)?;
    *catalogue = played;
    Ok(written)
}

fn play(script: &Script, catalogue: &mut Catalogue) -> Result<Vec<ReplyLine>, Refusal> {
    let mut table = Table::new(script.requests.len());
    let mut waiting: Vec<Iter<Request>> = script.requests.iter().map(|r| r.iter()).collect();
    let mut codes = [0; WORKERS];
    let mut replies = Vec::new();
    for (place, worker) in script.schedule.iter().copied().enumerate() {
        if table.record(worker)?.is_idle() {
            if let Some(request) = waiting[worker].next() {
                codes[worker] = request.code;
                take_up(catalogue, &mut table, worker, request.code, request.k, request.l)?;
            }
        } else if let Answer::Reply(reply) = step(catalogue, &mut table, worker)? {
            replies.push(ReplyLine { position: place + 1, worker, code: codes[worker], reply });
        }
    }
    Ok(replies)
}

/// Returns lines one by one and knows which one is being read.
struct Lines<'a> {
    rest: &'a [u8],
    number: usize,
}

impl<'a> Lines<'a> {
    /// The next line, or none if no byte 10 ends it: unfinished and missing
    /// lines are bad alike.
    fn next(&mut self) -> Option<&'a [u8]> {
        self.number += 1;
        let end = self.rest.iter().position(|byte| *byte == b'\n')?;
        let (line, rest) = self.rest.split_at(end);
        self.rest = &rest[1..];
        Some(line)
    }
}

fn read(script: &[u8]) -> Result<Script, Refusal> {
    if script.len() > SCRIPT {
        return Err(Refusal::Script(0));
    }
    let mut lines = Lines { rest: script, number: 0 };
    read_lines(&mut lines).ok_or(Refusal::Script(lines.number))
}

/// None as soon as a line is bad; the reader then stands at that line.
fn read_lines(lines: &mut Lines) -> Option<Script> {
    let (counts, length) = first_line(lines.next()?)?;
    let mut requests = Vec::new();
    for count in &counts {
        let mut own = Vec::new();
        for _ in 0..*count {
            own.push(request(lines.next()?)?);
        }
        requests.push(own);
    }
    let schedule = schedule(lines.next()?, length, counts.len())?;
    // Bytes after the schedule are one line too many, and that line is the bad
    // one.
    if !lines.rest.is_empty() {
        lines.number += 1;
        return None;
    }
    Some(Script { requests, schedule })
}

/// Each worker's request count, and the schedule's length.
fn first_line(line: &[u8]) -> Option<(Vec<u32>, u32)> {
    let mut fields = fields(line);
    let workers = natural(fields.next()?, WORKERS as u32)?;
    if workers == 0 {
        return None;
    }
    let mut counts = Vec::new();
    for _ in 0..workers {
        counts.push(natural(fields.next()?, MOST_REQUESTS)?);
    }
    let length = natural(fields.next()?, MOST_ENTRIES)?;
    if fields.next().is_some() || counts.iter().sum::<u32>() > MOST_REQUESTS {
        return None;
    }
    Some((counts, length))
}

fn request(line: &[u8]) -> Option<Request> {
    let mut fields = fields(line);
    let code = natural(fields.next()?, 6)?;
    let k = key(fields.next()?)?;
    let l = if code >= 4 { key(fields.next()?)? } else { 0 };
    if fields.next().is_some() || check_request(code, k, l).is_err() {
        return None;
    }
    Some(Request { code, k, l })
}

fn schedule(line: &[u8], length: u32, workers: usize) -> Option<Vec<usize>> {
    if length == 0 {
        return line.is_empty().then(Vec::new);
    }
    let mut entries = Vec::new();
    for field in fields(line) {
        let entry = natural(field, WORKERS as u32)? as usize;
        if entry >= workers {
            return None;
        }
        entries.push(entry);
    }
    (entries.len() == length as usize).then_some(entries)
}

/// The parts between single spaces; a space too many makes an empty part,
/// which is no number.
fn fields(line: &[u8]) -> impl Iterator<Item = &[u8]> {
    line.split(|byte| *byte == b' ')
}

/// A decimal without sign or leading zero, no greater than `most`.
fn natural(field: &[u8], most: u32) -> Option<u32> {
    if field.is_empty() || (field.len() > 1 && field[0] == b'0') {
        return None;
    }
    let mut value = 0u32;
    for byte in field {
        if !byte.is_ascii_digit() {
            return None;
        }
        value = value.checked_mul(10)?.checked_add(u32::from(byte - b'0'))?;
    }
    (value <= most).then_some(value)
}

/// A signed 32-bit decimal; zero has no sign.
fn key(field: &[u8]) -> Option<i32> {
    match field.strip_prefix(b"-") {
        None => i32::try_from(natural(field, u32::MAX)?).ok(),
        Some(digits) => {
            let value = natural(digits, u32::MAX)?;
            (value != 0).then(|| i32::try_from(-i64::from(value)).ok())?
        }
    }
}
