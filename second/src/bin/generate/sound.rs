//! The kinds of good scripts.

use crate::dice::Dice;
use crate::draft::{Draft, MOST_ENTRIES, MOST_REQUESTS};

pub const SOUND: [fn(&mut Dice) -> Draft; 10] =
    [contended, turns, single, large, vertex_pool, edge_pool, extremes, empty, chains, dense];

/// A few workers on very few keys: trials overlap, loops are tried.
fn contended(dice: &mut Dice) -> Draft {
    let mut draft = Draft::new(dice.between(2, 8));
    let keys: Vec<i32> = (0..dice.between(2, 5) as i32).map(|n| 3 * n - 4).collect();
    draft.add_vertices_first(&keys);
    for worker in 0..draft.workers() {
        for _ in 0..dice.between(3, 40) {
            draft.ask_any(dice, worker, &keys);
        }
    }
    let (length, longest) = (dice.between(150, 2_000), dice.pick(&[1, 2, 5, 12]));
    draft.bursts(dice, length, longest);
    draft
}

/// Each worker adds one part of a ring, over and over, in turn.
fn turns(dice: &mut Dice) -> Draft {
    let mut draft = Draft::new(dice.between(2, 8));
    let workers = draft.workers();
    let keys: Vec<i32> = (0..dice.between(2, workers) as i32).collect();
    draft.add_vertices_first(&keys);
    for worker in 0..workers {
        let (k, l) = (worker % keys.len(), (worker + 1) % keys.len());
        for _ in 0..dice.between(2, 12) {
            draft.ask(worker, 4, keys[k], keys[l]);
            let code = dice.pick(&[5, 5, 5, 6, 3, 2]);
            draft.ask(worker, code, keys[k], keys[l]);
            if code == 2 {
                draft.ask(worker, 1, keys[k], 0);
            }
        }
    }
    let (length, each) = (dice.between(100, 1_500), dice.pick(&[1, 1, 1, 2, 3]));
    draft.turns(length, each);
    draft
}

fn single(dice: &mut Dice) -> Draft {
    let mut draft = Draft::new(1);
    let keys: Vec<i32> = (0..dice.between(3, 20) as i32).map(|n| 7 * n - 50).collect();
    draft.add_vertices_first(&keys);
    for _ in 0..dice.between(50, 300) {
        draft.ask_any(dice, 0, &keys);
    }
    draft.repeat(0, dice.between(2_000, 6_000));
    draft
}

/// As many requests and schedule entries as a script can have, or nearly.
fn large(dice: &mut Dice) -> Draft {
    let mut draft = Draft::new(dice.between(1, 8));
    let keys: Vec<i32> = (0..dice.between(4, 24) as i32).map(|n| 1_000 - 90 * n).collect();
    draft.add_vertices_first(&keys);
    let requests = MOST_REQUESTS - keys.len() - dice.pick(&[0, 0, 1, 20]);
    for n in 0..requests {
        let worker = n % draft.workers();
        draft.ask_any(dice, worker, &keys);
    }
    let length = MOST_ENTRIES - draft.schedule.len() - dice.pick(&[0, 0, 1, 100]);
    let longest = dice.pick(&[1, 3, 20]);
    draft.bursts(dice, length, longest);
    draft
}

/// More vertices than there are nodes, added from the greatest key down so that
/// each is quickly in its place.
fn vertex_pool(dice: &mut Dice) -> Draft {
    let mut draft = Draft::new(dice.between(1, 4));
    let (workers, wanted) = (draft.workers(), dice.between(250, 300) as i32);
    for key in (0..wanted).rev() {
        draft.ask(key as usize % workers, 1, key, 0);
    }
    for _ in 0..dice.between(20, 150) {
        let (worker, near) = (dice.below(workers), wanted - 254 + dice.below(12) as i32);
        draft.ask(worker, dice.pick(&[1, 1, 2, 2, 3, 4]), near, near + dice.below(4) as i32);
    }
    if dice.chance(50) {
        draft.turns(dice.between(1_500, MOST_ENTRIES), 2);
    } else {
        let length = dice.between(1_500, MOST_ENTRIES);
        draft.bursts(dice, length, 4);
    }
    draft
}

/// As many edge nodes handed out as a script has steps for: edges come and go,
/// or are never added.
fn edge_pool(dice: &mut Dice) -> Draft {
    let mut draft = Draft::new(dice.between(1, 3));
    draft.add_vertices_first(&[1, 2]);
    let workers = draft.workers();
    let loops_only = dice.chance(50);
    for n in 0..MOST_REQUESTS - 2 {
        let l = if loops_only || n % 5 == 4 { 1 } else { 2 };
        let code = if loops_only || n % 2 == 0 { 4 } else { 5 };
        draft.ask(n % workers, code, 1, l);
    }
    let each = dice.pick(&[1, 5, 9]);
    draft.turns(MOST_ENTRIES - draft.schedule.len(), each);
    draft
}

/// Keys at both ends of their range and around zero.
fn extremes(dice: &mut Dice) -> Draft {
    let ends = [i32::MIN + 1, i32::MIN + 2, -2, -1, 0, 1, 2, i32::MAX - 2, i32::MAX - 1];
    let middle = [i32::MIN / 2, i32::MAX / 2, -1_000_000_000, 999_999_999, 10, -10];
    let mut keys: Vec<i32> = ends.iter().chain(&middle).copied().collect();
    dice.shuffle(&mut keys);
    keys.truncate(dice.between(3, 15));
    let mut draft = Draft::new(dice.between(1, 6));
    draft.add_vertices_first(&keys);
    for n in 0..dice.between(20, 150) {
        let worker = n % draft.workers();
        draft.ask_any(dice, worker, &keys);
    }
    let (length, longest) = (dice.between(200, 3_000), dice.pick(&[1, 4, 30]));
    draft.bursts(dice, length, longest);
    draft
}

/// Scripts with next to nothing in them.
fn empty(dice: &mut Dice) -> Draft {
    let mut draft = Draft::new(dice.between(1, 8));
    if dice.chance(60) {
        for _ in 0..dice.between(1, 6) {
            let worker = dice.below(draft.workers());
            draft.ask_any(dice, worker, &[0, 1]);
        }
    }
    let length = dice.pick(&[0, 0, 1, 2, 9, 60]);
    draft.bursts(dice, length, 2);
    draft
}

/// A long chain, closed into a loop in many places, with links taken out and
/// put back, and vertices too.
fn chains(dice: &mut Dice) -> Draft {
    let mut draft = Draft::new(dice.between(1, 4));
    let mut keys: Vec<i32> = (0..dice.between(5, 20) as i32).map(|n| 10 * n).collect();
    draft.add_vertices_first(&keys);
    if dice.chance(50) {
        dice.shuffle(&mut keys);
    }
    let workers = draft.workers();
    for (n, ends) in keys.windows(2).enumerate() {
        draft.ask(n % workers, 4, ends[0], ends[1]);
    }
    for n in 0..dice.between(10, 100) {
        let here = dice.below(keys.len() - 1);
        let (k, l) = (keys[here], keys[here + 1]);
        let back = keys[dice.below(here + 1)];
        match dice.below(6) {
            0 => draft.ask(n % workers, 5, k, l),
            1 => draft.ask(n % workers, 2, k, 0),
            2 => draft.ask(n % workers, 1, k, 0),
            3 => draft.ask(n % workers, 4, l, back),
            _ => draft.ask(n % workers, 4, k, l),
        }
    }
    let (length, longest) = (dice.between(1_000, 6_000), dice.pick(&[1, 3, 60]));
    draft.bursts(dice, length, longest);
    draft
}

/// Nearly every edge that fits without a loop, then removals and re-additions.
fn dense(dice: &mut Dice) -> Draft {
    let mut draft = Draft::new(dice.between(1, 5));
    let keys: Vec<i32> = (0..dice.between(4, 14) as i32).collect();
    draft.add_vertices_first(&keys);
    let mut pairs = Vec::new();
    for k in &keys {
        pairs.extend(keys.iter().filter(|l| *l > k).map(|l| (*k, *l)));
    }
    dice.shuffle(&mut pairs);
    let workers = draft.workers();
    for (n, (k, l)) in pairs.iter().enumerate() {
        draft.ask(n % workers, 4, *k, *l);
    }
    for n in 0..dice.between(20, 120) {
        let (k, l) = dice.pick(&pairs);
        match dice.below(5) {
            0 => draft.ask(n % workers, 4, l, k),
            1 => draft.ask(n % workers, 2, k, 0),
            2 => draft.ask(n % workers, 1, k, 0),
            code => draft.ask(n % workers, code as u32 + 1, k, l),
        }
    }
    let (length, longest) = (dice.between(3_000, MOST_ENTRIES), dice.pick(&[2, 7, 50]));
    draft.bursts(dice, length, longest);
    draft
}
