//! Refusals 20 to 25, their order, and that they change nothing. TORN and
//! SCRIPT have files of their own.

use crate::help::{graph, insert, step_refused};
use second::numbers::OUTPUT;
use second::{fresh, listing, run, sweep, take_up, Catalogue, Refusal, Table};

fn wrong_sizes() -> Vec<Catalogue> {
    let sound = graph(&[1, 2], &[(1, 2)]);
    let mut wrong = vec![sound; 7];
    wrong[0].vertex_keys.push(0);
    wrong[1].vertex_links.pop();
    wrong[2].first_edges.clear();
    wrong[3].edge_keys.pop();
    wrong[4].edge_targets.push(0);
    wrong[5].edge_links.truncate(256);
    wrong[6].vertex_keys = Vec::new();
    wrong
}

fn take_up_refused(
    catalogue: &Catalogue,
    table: &Table,
    worker: usize,
    code: u32,
    keys: (i32, i32),
    refusal: Refusal,
) {
    let mut workers = table.clone();
    let answer = take_up(catalogue, &mut workers, worker, code, keys.0, keys.1);
    assert_eq!(answer, Err(refusal));
    assert_eq!(&workers, table);
}

#[test]
fn numbers_of_the_refusals() {
    use Refusal::*;
    let all = [Room, Worker, Busy, Idle, Code, Key, Torn, Script(3)];
    assert_eq!(all.map(Refusal::number), [20, 21, 22, 23, 24, 25, 26, 27]);
}

#[test]
fn a_catalogue_of_another_size_comes_before_all_else() {
    for wrong in wrong_sizes() {
        let table = Table::new(9);
        take_up_refused(&wrong, &table, 99, 7, (i32::MIN, 0), Refusal::Room);
        step_refused(&wrong, &table, Refusal::Room);
        let mut memory = wrong.clone();
        assert_eq!(fresh(&mut memory), Err(Refusal::Room));
        let mut output = vec![1; OUTPUT];
        assert_eq!(run(b"bad", &mut memory, &mut output), Err(Refusal::Room));
        assert_eq!(listing(&wrong, &mut output), Err(Refusal::Room));
        let mut sound = graph(&[3], &[]);
        assert_eq!(sweep(&sound, &mut memory, &table), Err(Refusal::Room));
        assert_eq!(memory, wrong);
        assert_eq!(sweep(&wrong, &mut sound, &table), Err(Refusal::Room));
        assert_eq!((sound, output), (graph(&[3], &[]), vec![1; OUTPUT]));
    }
}

#[test]
fn an_output_too_short() {
    let sound = graph(&[1, 2], &[(1, 2)]);
    let mut catalogue = sound.clone();
    let mut output = vec![1; OUTPUT - 1];
    assert_eq!(listing(&catalogue, &mut output), Err(Refusal::Room));
    assert_eq!(run(b"1 0 0\n\n", &mut catalogue, &mut output), Err(Refusal::Room));
    assert_eq!(run(b"bad", &mut catalogue, &mut output), Err(Refusal::Room));
    assert_eq!((catalogue, output), (sound, vec![1; OUTPUT - 1]));
}

#[test]
fn a_worker_that_is_not_there() {
    let catalogue = graph(&[1], &[]);
    for (count, worker) in [(1, 1), (7, 7), (8, 8), (3, usize::MAX), (0, 0), (9, 0), (9, 8)] {
        let table = Table::new(count);
        take_up_refused(&catalogue, &table, worker, 7, (i32::MIN, 0), Refusal::Worker);
    }
    let mut table = Table::new(2);
    insert(&mut catalogue.clone(), &mut table, 1, 1, 1);
    table.count = 0;
    let mut second = graph(&[9], &[]);
    assert_eq!(sweep(&catalogue, &mut second, &table), Err(Refusal::Worker));
    assert_eq!(second, graph(&[9], &[]));
}

#[test]
fn busy_workers() {
    let mut catalogue = graph(&[1, 2], &[]);
    let mut table = Table::new(2);
    take_up(&catalogue, &mut table, 1, 1, 3, 0).unwrap();
    take_up_refused(&catalogue, &table, 1, 7, (i32::MIN, 0), Refusal::Busy);
    let before = catalogue.clone();
    let mut second = graph(&[9], &[]);
    catalogue.vertex_links[0] = u32::MAX;
    for first in [&before, &catalogue] {
        assert_eq!(sweep(first, &mut second, &table), Err(Refusal::Busy));
    }
    assert_eq!(second, graph(&[9], &[]));
    // A record past the count belongs to no worker.
    table.count = 1;
    assert_eq!(sweep(&before, &mut second, &table), Ok(()));
    assert_eq!(second, before);
}

#[test]
fn an_idle_worker_makes_no_step() {
    let mut catalogue = graph(&[1], &[]);
    step_refused(&catalogue, &Table::new(1), Refusal::Idle);
    catalogue.vertex_links[0] = u32::MAX;
    step_refused(&catalogue, &Table::new(1), Refusal::Idle);
    let mut table = Table::new(1);
    table.records[0].front = 9;
    step_refused(&catalogue, &table, Refusal::Idle);
}

#[test]
fn codes_out_of_range() {
    let mut catalogue = graph(&[1], &[]);
    for code in [0, 7, 8, u32::MAX] {
        take_up_refused(&catalogue, &Table::new(1), 0, code, (1, 1), Refusal::Code);
        take_up_refused(&catalogue, &Table::new(1), 0, code, (i32::MAX, 1), Refusal::Code);
    }
    catalogue.vertex_links[0] = u32::MAX;
    take_up_refused(&catalogue, &Table::new(1), 0, 0, (1, 1), Refusal::Code);
}

#[test]
fn reserved_keys_where_they_are_used() {
    let mut catalogue = graph(&[1], &[]);
    for code in 4..=6 {
        take_up_refused(&catalogue, &Table::new(1), 0, code, (1, i32::MAX), Refusal::Key);
        take_up_refused(&catalogue, &Table::new(1), 0, code, (i32::MIN, 1), Refusal::Key);
    }
    for code in 1..=3 {
        let mut with_l = Table::new(1);
        let mut without = Table::new(1);
        take_up(&catalogue, &mut with_l, 0, code, 1, i32::MIN).unwrap();
        take_up(&catalogue, &mut without, 0, code, 1, 0).unwrap();
        assert_eq!(with_l, without);
    }
    catalogue.vertex_links[0] = u32::MAX;
    take_up_refused(&catalogue, &Table::new(1), 0, 1, (i32::MAX, 0), Refusal::Key);
}

#[test]
fn taking_up_reads_the_heads_link_and_nothing_else() {
    let mut catalogue = graph(&[1], &[]);
    catalogue.vertex_links[2] = u32::MAX;
    catalogue.vertices_out = u32::MAX;
    for code in 1..=6 {
        assert!(take_up(&catalogue, &mut Table::new(1), 0, code, 1, 1).is_ok());
    }
    for head in [4 * 256, 4 + 2, 4 + 3] {
        catalogue.vertex_links[0] = head;
        for code in 1..=6 {
            take_up_refused(&catalogue, &Table::new(1), 0, code, (1, 1), Refusal::Torn);
        }
    }
}

#[test]
fn fresh_wipes_whatever_was_there() {
    let mut catalogue = graph(&[1, 2, 3], &[(1, 2), (2, 3)]);
    catalogue.edge_targets[2000] = 5;
    fresh(&mut catalogue).unwrap();
    let nonzero = |list: &[u32]| list.iter().filter(|n| **n != 0).count();
    assert_eq!((catalogue.vertex_keys[0], catalogue.vertex_links[0]), (i32::MIN, 4));
    assert_eq!(catalogue.vertex_keys.iter().filter(|k| **k != 0).count(), 1);
    assert_eq!(nonzero(&catalogue.vertex_links), 1);
    assert_eq!(nonzero(&catalogue.first_edges), 0);
    assert_eq!(nonzero(&catalogue.edge_targets), 0);
    assert_eq!(nonzero(&catalogue.edge_links), 0);
    assert!(catalogue.edge_keys.iter().all(|k| *k == 0));
    assert_eq!((catalogue.vertices_out, catalogue.edges_out), (0, 0));
}
