//! Small helpers for all tests.

use second::numbers::OUTPUT;
use second::worker::{EdgeSpot, Pair, Place, Previous, Record, TrialSpot};
use second::{listing, run, step, take_up, Answer, Catalogue, Refusal, Table};

pub const PLAIN: u32 = 0;
pub const MARKED: u32 = 1;
pub const TRANSIT: u32 = 2;
pub const ADDED: u32 = 3;

pub fn link(node: u32, tag: u32) -> u32 {
    4 * node + tag
}

/// Steps a busy worker to its reply.
pub fn finish(catalogue: &mut Catalogue, table: &mut Table, worker: usize) -> u8 {
    for _ in 0..10_000 {
        if let Answer::Reply(reply) = step(catalogue, table, worker).unwrap() {
            return reply;
        }
    }
    panic!("no reply after 10,000 steps");
}

/// Takes up a request and steps it to its reply.
pub fn ask(
    catalogue: &mut Catalogue,
    table: &mut Table,
    worker: usize,
    (code, k, l): (u32, i32, i32),
) -> u8 {
    take_up(catalogue, table, worker, code, k, l).unwrap();
    finish(catalogue, table, worker)
}

/// Takes up an AddE and steps it until its edge is in and its trial has begun.
pub fn insert(catalogue: &mut Catalogue, table: &mut Table, worker: usize, k: i32, l: i32) {
    take_up(catalogue, table, worker, 4, k, l).unwrap();
    while step(catalogue, table, worker).unwrap().met() == 0 {
        assert!(table.records[worker] != Record::idle(), "answered before its trial");
    }
}

/// A catalogue with these vertices and edges, all live.
pub fn graph(vertices: &[i32], edges: &[(i32, i32)]) -> Catalogue {
    let mut catalogue = Catalogue::default();
    let mut table = Table::new(1);
    for key in vertices {
        assert_eq!(ask(&mut catalogue, &mut table, 0, (1, *key, 0)), 1);
    }
    for (k, l) in edges {
        assert_eq!(ask(&mut catalogue, &mut table, 0, (4, *k, *l)), 1);
    }
    catalogue
}

/// A table of one worker that stands at a place.
pub fn standing(place: Place) -> Table {
    let mut table = Table::new(1);
    table.records[0] = Record::at(place);
    table
}

pub fn pair(k: i32, l: i32) -> Pair {
    Pair { k, l }
}

pub fn spot(keys: Pair, u: u8, v: u8, p: Previous, c: u16) -> EdgeSpot {
    EdgeSpot { keys, u, v, p, c }
}

/// A trial whose queue holds just its target.
pub fn trial(keys: Pair, u: u8, v: u8, own: u16) -> Table {
    let mut table = standing(Place::Trial(TrialSpot { keys, u, v, own }));
    let record = &mut table.records[0];
    record.queue[0] = v;
    record.back = 1;
    record.met[usize::from(v / 64)] = 1 << (v % 64);
    table
}

/// Asserts that a step of worker 0 is refused and that nothing has changed.
pub fn step_refused(catalogue: &Catalogue, table: &Table, refusal: Refusal) {
    let (mut memory, mut workers) = (catalogue.clone(), table.clone());
    assert_eq!(step(&mut memory, &mut workers, 0), Err(refusal));
    assert_eq!((&memory, &workers), (catalogue, table));
}

/// Asserts what a step of worker 0 answers, on copies.
pub fn step_answers(catalogue: &Catalogue, table: &Table, answer: Answer) -> (Catalogue, Table) {
    let (mut memory, mut workers) = (catalogue.clone(), table.clone());
    assert_eq!(step(&mut memory, &mut workers, 0), Ok(answer));
    (memory, workers)
}

pub fn list(catalogue: &Catalogue) -> String {
    let mut output = vec![0; OUTPUT];
    let written = listing(catalogue, &mut output).unwrap();
    String::from_utf8(output[..written].to_vec()).unwrap()
}

pub fn play(script: &str) -> Result<String, Refusal> {
    let mut output = vec![0; OUTPUT];
    let written = run(script.as_bytes(), &mut Catalogue::default(), &mut output)?;
    Ok(String::from_utf8(output[..written].to_vec()).unwrap())
}
