//! Memory, records and scripts full of garbage: every call still answers, and
//! refusals still change nothing.

use crate::help::{list, pair, spot};
use second::numbers::OUTPUT;
use second::worker::{EdgeCall, Place, Previous, Record, TrialSpot, VertexSpot};
use second::{listing, run, step, sweep, take_up, Answer, Catalogue, Refusal, Table};

/// Splitmix64, so that every run sees the same garbage.
struct Dice(u64);

impl Dice {
    fn next(&mut self) -> u64 {
        self.0 = self.0.wrapping_add(0x9E37_79B9_7F4A_7C15);
        let mut z = self.0;
        z = (z ^ (z >> 30)).wrapping_mul(0xBF58_476D_1CE4_E5B9);
        z = (z ^ (z >> 27)).wrapping_mul(0x94D0_49BB_1331_11EB);
        z ^ (z >> 31)
    }

    /// Mostly small, now and then any number at all.
    fn number(&mut self, usual: u64) -> u32 {
        let any = self.next();
        match any % 16 {
            0 => (any >> 32) as u32,
            _ => ((any >> 32) % usual) as u32,
        }
    }

    fn key(&mut self) -> i32 {
        match self.next() % 40 {
            0 => i32::MAX,
            1 => i32::MIN,
            n => n as i32 % 6,
        }
    }
}

fn memory(dice: &mut Dice) -> Catalogue {
    let mut catalogue = Catalogue::default();
    catalogue.vertex_keys[1..12].fill_with(|| dice.key());
    catalogue.vertex_links[..12].fill_with(|| dice.number(48) & !2);
    catalogue.first_edges[..12].fill_with(|| dice.number(48) & !3);
    catalogue.edge_keys[..12].fill_with(|| dice.key());
    catalogue.edge_targets[..12].fill_with(|| dice.number(12));
    catalogue.edge_links[..12].fill_with(|| dice.number(48) | 1);
    catalogue.vertices_out = dice.number(256);
    catalogue.edges_out = dice.number(2050);
    catalogue
}

fn record(dice: &mut Dice) -> Record {
    let keys = pair(dice.key(), dice.key());
    let (u, v, x) = (dice.number(12) as u8, dice.number(12) as u8, dice.number(12) as u8);
    let (own, c) = (dice.number(12) as u16, dice.number(12) as u16);
    let p = if own % 3 == 0 { Previous::First } else { Previous::Edge(own) };
    let vertices = VertexSpot { key: keys.k, p: u, c: v };
    let trial = TrialSpot { keys, u, v, own };
    let mut record = Record::at(match dice.next() % 11 {
        0 => Place::AddV(vertices),
        1 => Place::RemV(vertices),
        2 => Place::ConV { key: keys.k, c: u },
        3 => Place::FindSource { call: EdgeCall::Add, keys, c: u },
        4 => Place::FindTarget { call: EdgeCall::Remove, keys, u, c: v },
        5 | 6 => Place::AddE(spot(keys, u, v, p, c)),
        7 => Place::RemE(spot(keys, u, v, p, c)),
        8 => Place::ConE { keys, u, v, c },
        9 => Place::Trial(trial),
        _ => Place::TrialOpen { trial, x, c },
    });
    record.queue[..12].fill_with(|| dice.number(12) as u8);
    record.met[0] = dice.next();
    record.front = dice.number(5) as u16;
    record.back = 4 + dice.number(5) as u16;
    record
}

/// How many numbers of two lists differ.
fn differing(one: &[u32], other: &[u32]) -> usize {
    one.iter().zip(other).filter(|(a, b)| a != b).count()
}

#[test]
fn steps_on_garbage() {
    let mut dice = Dice(1);
    let mut seen = [0; 3];
    for _ in 0..8_000 {
        let before = memory(&mut dice);
        let mut table = Table::new(1);
        table.records[0] = record(&mut dice);
        let (mut after, mut workers) = (before.clone(), table.clone());
        match step(&mut after, &mut workers, 0) {
            Err(refusal) => {
                seen[0] += 1;
                assert_eq!(refusal, Refusal::Torn);
                assert_eq!((&after, &workers), (&before, &table));
                continue;
            }
            Ok(Answer::Reply(reply)) => {
                seen[1] += 1;
                assert!((1..=9).contains(&reply));
                assert_eq!(workers, Table::new(1));
            }
            Ok(Answer::GoingOn { met }) => {
                seen[2] += 1;
                assert_eq!(met, workers.records[0].met_count());
            }
        }
        let new = (after.vertices_out - before.vertices_out) + (after.edges_out - before.edges_out);
        let links = differing(&after.vertex_links, &before.vertex_links)
            + differing(&after.edge_links, &before.edge_links);
        let firsts = differing(&after.first_edges, &before.first_edges);
        assert!(new <= 1 && links + firsts <= 1 + 2 * new as usize);
    }
    assert!(seen.iter().all(|count| *count > 500), "{seen:?}");
}

#[test]
fn surveys_and_takings_up_on_garbage() {
    let mut dice = Dice(2);
    let mut sound = 0;
    for _ in 0..4_000 {
        let catalogue = memory(&mut dice);
        let (mut output, mut second) = (vec![3; OUTPUT], Catalogue::default());
        let listed = listing(&catalogue, &mut output);
        let swept = sweep(&catalogue, &mut second, &Table::new(1));
        match listed {
            Ok(_) => sound += 1,
            Err(refusal) => assert_eq!((refusal, output), (Refusal::Torn, vec![3; OUTPUT])),
        }
        match swept {
            Ok(()) => assert_eq!(
                list(&second).split_once('\n').map(|(_, body)| body.to_string()),
                list(&catalogue).split_once('\n').map(|(_, body)| body.to_string())
            ),
            Err(refusal) => {
                assert_eq!((refusal, second), (Refusal::Torn, Catalogue::default()));
            }
        }
        let mut table = Table::new(1);
        let taken = take_up(&catalogue, &mut table, 0, 1 + dice.number(6) % 6, 1, 2);
        assert_eq!(taken.is_err(), table == Table::new(1));
    }
    assert!(sound > 50, "{sound}");
}

#[test]
fn scripts_with_garbage_in_them() {
    let good = b"2 2 1 9\n1 5\n1 7\n4 5 -7\n0 1 0 0 0 0 1 1 1\n";
    let mut dice = Dice(3);
    let mut refused = 0;
    for _ in 0..5_000 {
        let mut script = good.to_vec();
        for _ in 0..1 + dice.next() % 3 {
            let place = dice.next() as usize % script.len();
            match dice.next() % 3 {
                0 => script[place] = b"0123456789 -\n\r+x\0"[dice.next() as usize % 17],
                1 => script.insert(place, b"019 -\n"[dice.next() as usize % 6]),
                _ => {
                    script.remove(place);
                }
            }
        }
        let lines = script.split(|byte| *byte == b'\n').count();
        let (mut catalogue, mut output) = (memory(&mut dice), vec![3; OUTPUT]);
        let before = catalogue.clone();
        match run(&script, &mut catalogue, &mut output) {
            Ok(written) => assert_eq!(output[written - 1], b'\n'),
            Err(Refusal::Script(line)) => {
                refused += 1;
                assert!((1..=lines).contains(&line));
                assert_eq!((catalogue, output), (before, vec![3; OUTPUT]));
            }
            Err(other) => panic!("{other:?}"),
        }
    }
    assert!((1_000..5_000).contains(&refused), "{refused}");
}
