//! The examples P1 to P10.

use crate::help::{ask, finish, graph, insert, play};
use second::numbers::OUTPUT;
use second::{run, step, sweep, take_up, Answer, Catalogue, Refusal, Table};

const P1: &str = "1 4 22\n1 5\n1 7\n4 5 7\n4 7 5\n\
                  0 0 0 0 0 0 0 0 0 0 0 0 0 0 0 0 0 0 0 0 0 0\n";
const P1_RESULT: &str = "4 2 1\n2 0 1 1\n5 0 1 1\n13 0 4 1\n22 0 4 6\n5\n7\n5 7\n";

#[test]
fn p1_byte_for_byte() {
    let mut output = vec![0xAA; OUTPUT + 3];
    let mut catalogue = Catalogue::default();
    let written = run(P1.as_bytes(), &mut catalogue, &mut output).unwrap();
    assert_eq!(&output[..written], P1_RESULT.as_bytes());
    assert!(output[written..].iter().all(|byte| *byte == 0xAA));
}

#[test]
fn p1_does_not_depend_on_what_the_catalogue_held() {
    let mut used = graph(&[1, 2, 3], &[(3, 1)]);
    used.edges_out = 77_777;
    let mut clean = Catalogue::default();
    let mut output = vec![0; OUTPUT];
    let written = run(P1.as_bytes(), &mut used, &mut output).unwrap();
    assert_eq!(&output[..written], P1_RESULT.as_bytes());
    run(P1.as_bytes(), &mut clean, &mut output).unwrap();
    assert_eq!(used, clean);
}

#[test]
fn p1_met_counts_of_the_refused_loop() {
    let mut catalogue = graph(&[5, 7], &[(5, 7)]);
    let mut table = Table::new(1);
    take_up(&catalogue, &mut table, 0, 4, 7, 5).unwrap();
    let mut met = Vec::new();
    loop {
        match step(&mut catalogue, &mut table, 0).unwrap() {
            Answer::GoingOn { met: count } => met.push(count),
            Answer::Reply(reply) => {
                assert_eq!(reply, 6);
                break;
            }
        }
    }
    assert_eq!(met, [0, 0, 0, 1, 1, 2, 2]);
    assert_eq!(table, Table::new(1));
}

#[test]
fn p2_reserved_keys_are_refused() {
    for key in [i32::MIN, i32::MAX] {
        for (code, k, l) in [(1, key, 0), (2, key, 0), (3, key, 0), (4, key, 0), (6, 0, key)] {
            let mut table = Table::new(1);
            let answer = take_up(&Catalogue::default(), &mut table, 0, code, k, l);
            assert_eq!(answer, Err(Refusal::Key));
            assert_eq!(table, Table::new(1));
        }
    }
}

#[test]
fn p3_their_neighbours_are_taken() {
    let (mut catalogue, mut table) = (Catalogue::default(), Table::new(1));
    for key in [-2_147_483_647, 2_147_483_646] {
        let answer = take_up(&catalogue, &mut table, 0, 1, key, 0);
        assert_eq!(answer, Ok(Answer::GoingOn { met: 0 }));
        assert_eq!(finish(&mut catalogue, &mut table, 0), 1);
    }
    let answer = ask(&mut catalogue, &mut table, 0, (4, 2_147_483_646, -2_147_483_647));
    assert_eq!(answer, 1);
}

#[test]
fn p4_a_series_is_not_derived_from_itself() {
    let mut catalogue = graph(&[5], &[]);
    assert_eq!(ask(&mut catalogue, &mut Table::new(1), 0, (4, 5, 5)), 6);
}

#[test]
fn p5_both_halves_turn_about() {
    let mut catalogue = graph(&[1, 2], &[]);
    let mut table = Table::new(2);
    insert(&mut catalogue, &mut table, 0, 1, 2);
    insert(&mut catalogue, &mut table, 1, 2, 1);
    let mut replies = [0, 0];
    while replies.contains(&0) {
        for (worker, slot) in replies.iter_mut().enumerate() {
            if *slot == 0 {
                if let Answer::Reply(reply) = step(&mut catalogue, &mut table, worker).unwrap() {
                    *slot = reply;
                }
            }
        }
    }
    assert_eq!(replies, [6, 6]);
}

#[test]
fn p6_one_half_run_out_first() {
    for first in [0, 1] {
        let mut catalogue = graph(&[1, 2], &[]);
        let mut table = Table::new(2);
        insert(&mut catalogue, &mut table, 0, 1, 2);
        insert(&mut catalogue, &mut table, 1, 2, 1);
        assert_eq!(finish(&mut catalogue, &mut table, first), 6);
        assert_eq!(finish(&mut catalogue, &mut table, 1 - first), 1);
    }
}

/// The reply to another worker while the edge from 1 to 2 is on trial, then the adder's.
fn during_trial(request: (u32, i32, i32)) -> (u8, u8) {
    let mut catalogue = graph(&[1, 2], &[]);
    let mut table = Table::new(2);
    insert(&mut catalogue, &mut table, 0, 1, 2);
    let other = ask(&mut catalogue, &mut table, 1, request);
    (other, finish(&mut catalogue, &mut table, 0))
}

#[test]
fn p7_an_edge_on_trial_is_not_removed() {
    assert_eq!(during_trial((5, 1, 2)), (5, 1));
}

#[test]
fn p8_the_target_goes_during_a_trial() {
    assert_eq!(during_trial((2, 2, 0)), (1, 3));
    assert_eq!(during_trial((2, 1, 0)), (1, 3));
}

#[test]
fn p9_an_edge_on_trial_is_not_seen() {
    assert_eq!(during_trial((6, 1, 2)), (8, 1));
}

#[test]
fn an_edge_on_trial_is_not_added_again() {
    assert_eq!(during_trial((4, 1, 2)), (7, 1));
}

#[test]
fn p10_worker_counts_zero_and_nine() {
    for count in [0, 9] {
        let mut catalogue = Catalogue::default();
        let mut table = Table::new(count);
        let refused = Err(Refusal::Worker);
        assert_eq!(take_up(&catalogue, &mut table, 0, 1, 5, 0), refused);
        assert_eq!(step(&mut catalogue, &mut table, 0), refused);
        let second = &mut Catalogue::default();
        assert_eq!(sweep(&catalogue, second, &table), Err(Refusal::Worker));
    }
    assert_eq!(play("0 0\n\n"), Err(Refusal::Script(1)));
    assert_eq!(play("9 0 0 0 0 0 0 0 0 0 0\n\n"), Err(Refusal::Script(1)));
}

#[test]
fn a_lone_trial_takes_as_many_steps_as_stated() {
    let edges = [(1, 2), (1, 3), (2, 4), (3, 4), (4, 5)];
    let mut catalogue = graph(&[0, 1, 2, 3, 4, 5], &edges);
    let mut table = Table::new(1);
    // A marked edge in a visited list counts as a look as well.
    assert_eq!(ask(&mut catalogue, &mut table, 0, (5, 1, 3)), 1);
    insert(&mut catalogue, &mut table, 0, 0, 1);
    let mut steps = 1;
    while step(&mut catalogue, &mut table, 0).unwrap() != Answer::Reply(1) {
        steps += 1;
    }
    let (vertices, edge_nodes) = (4, 4);
    assert_eq!(steps, 2 * vertices + edge_nodes + 1);
}
