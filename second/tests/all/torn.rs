//! TORN in steps: each kind, and that only what a step reads counts.

use crate::help::{
    ask, graph, link, pair, spot, standing, step_answers, step_refused, trial, ADDED, MARKED,
    PLAIN, TRANSIT,
};
use second::worker::{EdgeCall, Place, Previous, TrialSpot, VertexSpot};
use second::{Answer, Catalogue, Refusal, Table};

const ON: Answer = Answer::GoingOn { met: 0 };

fn torn(catalogue: &Catalogue, table: &Table) {
    step_refused(catalogue, table, Refusal::Torn);
}

fn vertex_spot(key: i32, p: u8, c: u8) -> VertexSpot {
    VertexSpot { key, p, c }
}

/// Vertices 2, 3, 4 with keys 10, 20, 30; edges 1 to 20 and 2 to 30 in 10's list.
fn sound() -> Catalogue {
    graph(&[10, 20, 30], &[(10, 20), (10, 30)])
}

/// The sound catalogue with some damage.
fn with(change: impl Fn(&mut Catalogue)) -> Catalogue {
    let mut catalogue = sound();
    change(&mut catalogue);
    catalogue
}

#[test]
fn reserved_keys_come_first_in_every_step() {
    let gone = with(|c| c.vertex_links[2] |= MARKED);
    for key in [i32::MIN, i32::MAX] {
        for keys in [pair(key, 20), pair(10, key)] {
            let at = spot(keys, 2, 3, Previous::First, 1);
            let own = TrialSpot { keys, u: 2, v: 3, own: 1 };
            for place in [
                Place::AddV(vertex_spot(key, 0, 2)),
                Place::RemV(vertex_spot(key, 0, 2)),
                Place::ConV { key, c: 2 },
                Place::FindSource { call: EdgeCall::Add, keys, c: 4 },
                Place::FindTarget { call: EdgeCall::Contains, keys, u: 2, c: 4 },
                Place::AddE(at),
                Place::RemE(at),
                Place::ConE { keys, u: 2, v: 3, c: 0 },
                Place::Trial(own),
                Place::TrialOpen { trial: own, x: 3, c: 0 },
            ] {
                torn(&sound(), &standing(place));
                torn(&gone, &standing(place));
            }
        }
    }
}

#[test]
fn vertex_looks_with_p_the_tail() {
    torn(&sound(), &standing(Place::AddV(vertex_spot(25, 1, 2))));
    torn(&sound(), &standing(Place::RemV(vertex_spot(25, 1, 0))));
}

#[test]
fn vertex_looks_read_links_whole() {
    for bad in [link(256, PLAIN), link(3, TRANSIT), link(3, ADDED), link(1 << 29, MARKED)] {
        let at_p = Place::AddV(vertex_spot(25, 2, 3));
        torn(&with(|c| c.vertex_links[2] = bad), &standing(at_p));
        let at_c = Place::RemV(vertex_spot(20, 2, 3));
        torn(&with(|c| c.vertex_links[3] = bad), &standing(at_c));
        // A restart reads the head.
        let lost = Place::AddV(vertex_spot(25, 3, 2));
        torn(&with(|c| c.vertex_links[0] = bad), &standing(lost));
        let lower = Place::ConV { key: 25, c: 3 };
        torn(&with(|c| c.vertex_links[3] = bad), &standing(lower));
        let equal = Place::ConV { key: 20, c: 3 };
        torn(&with(|c| c.vertex_links[3] = bad), &standing(equal));
    }
}

#[test]
fn vertex_looks_leave_the_rest_unread() {
    let bad = u32::MAX;
    // A restart does not look at c, a higher key not at c's link.
    let lost = standing(Place::AddV(vertex_spot(25, 3, 2)));
    step_answers(&with(|c| c.vertex_links[2] = bad), &lost, ON);
    let higher = standing(Place::ConV { key: 15, c: 3 });
    step_answers(&with(|c| c.vertex_links[3] = bad), &higher, Answer::Reply(2));
    // The tail's key and link are not read.
    let at_tail = standing(Place::AddV(vertex_spot(40, 4, 1)));
    let garbage = with(|c| {
        c.vertex_links[1] = bad;
        c.vertex_keys[1] = 40;
    });
    step_answers(&garbage, &at_tail, Answer::Reply(1));
    step_answers(&garbage, &standing(Place::ConV { key: 40, c: 1 }), Answer::Reply(2));
}

#[test]
fn handed_out_counts_beyond_their_pools() {
    let new_vertex = standing(Place::AddV(vertex_spot(25, 3, 4)));
    torn(&with(|c| c.vertices_out = 255), &new_vertex);
    torn(&with(|c| c.vertices_out = u32::MAX), &new_vertex);
    step_answers(&with(|c| c.vertices_out = 254), &new_vertex, Answer::Reply(9));
    let present = standing(Place::AddV(vertex_spot(30, 3, 4)));
    step_answers(&with(|c| c.vertices_out = 255), &present, Answer::Reply(2));
    let new_edge = standing(Place::AddE(spot(pair(20, 30), 3, 4, Previous::First, 0)));
    torn(&with(|c| c.edges_out = 2048), &new_edge);
    torn(&with(|c| c.edges_out = u32::MAX), &new_edge);
    step_answers(&with(|c| c.edges_out = 2047), &new_edge, Answer::Reply(9));
    let present = standing(Place::AddE(spot(pair(10, 20), 2, 3, Previous::First, 1)));
    step_answers(&with(|c| c.edges_out = 2048), &present, Answer::Reply(4));
}

#[test]
fn the_last_node_of_each_pool_is_handed_out() {
    let new_vertex = standing(Place::AddV(vertex_spot(25, 3, 4)));
    let last = with(|c| c.vertices_out = 253);
    let (after, _) = step_answers(&last, &new_vertex, Answer::Reply(1));
    assert_eq!((after.vertex_links[3], after.vertex_keys[255]), (link(255, PLAIN), 25));
    let new_edge = standing(Place::AddE(spot(pair(20, 30), 3, 4, Previous::First, 0)));
    let last = with(|c| c.edges_out = 2046);
    let (after, table) = step_answers(&last, &new_edge, Answer::GoingOn { met: 1 });
    assert_eq!((after.first_edges[3], after.edge_links[2047]), (link(2047, PLAIN), TRANSIT));
    assert_eq!(table, trial(pair(20, 30), 3, 4, 2047));
}

#[test]
fn finding_the_ends_reads_head_and_first_edge() {
    let find_u = standing(Place::FindSource { call: EdgeCall::Remove, keys: pair(10, 20), c: 2 });
    torn(&with(|c| c.vertex_links[0] = link(256, PLAIN)), &find_u);
    let keys = pair(10, 20);
    for call in [EdgeCall::Add, EdgeCall::Remove, EdgeCall::Contains] {
        let find_v = standing(Place::FindTarget { call, keys, u: 2, c: 3 });
        for bad in [link(1, MARKED), link(1, TRANSIT), link(1, ADDED), link(2048, PLAIN)] {
            torn(&with(|c| c.first_edges[2] = bad), &find_v);
        }
        let on_the_way = standing(Place::FindTarget { call, keys, u: 2, c: 2 });
        step_answers(&with(|c| c.first_edges[2] = u32::MAX), &on_the_way, ON);
    }
}

#[test]
fn edge_looks_see_u_before_v_and_both_before_p() {
    let keys = pair(10, 20);
    let bad_p = standing(Place::RemE(spot(keys, 2, 3, Previous::Edge(0), 9999)));
    torn(&sound(), &bad_p);
    let u_marked = with(|c| {
        c.vertex_links[2] |= MARKED;
        c.vertex_links[3] = u32::MAX;
        c.first_edges[2] = u32::MAX;
    });
    step_answers(&u_marked, &bad_p, Answer::Reply(3));
    step_answers(&with(|c| c.vertex_links[3] |= MARKED), &bad_p, Answer::Reply(3));
    torn(&with(|c| c.vertex_links[2] = link(3, ADDED)), &bad_p);
    let v_bad = standing(Place::RemE(spot(keys, 2, 3, Previous::First, 1)));
    torn(&with(|c| c.vertex_links[3] = link(4, TRANSIT)), &v_bad);
}

#[test]
fn edge_looks_read_p_whole() {
    let keys = pair(10, 30);
    for bad in [link(2, PLAIN), link(2048, ADDED), u32::MAX] {
        let on_edge = standing(Place::AddE(spot(keys, 2, 4, Previous::Edge(1), 2)));
        torn(&with(|c| c.edge_links[1] = bad), &on_edge);
    }
    for bad in [link(1, ADDED), link(2048, PLAIN)] {
        let on_first = standing(Place::AddE(spot(keys, 2, 4, Previous::First, 1)));
        torn(&with(|c| c.first_edges[2] = bad), &on_first);
        let lost = standing(Place::AddE(spot(keys, 2, 4, Previous::Edge(1), 1)));
        torn(&with(|c| c.first_edges[2] = bad), &lost);
    }
    for number in [2048, u16::MAX] {
        torn(&sound(), &standing(Place::RemE(spot(keys, 2, 4, Previous::Edge(number), 2))));
        torn(&sound(), &standing(Place::RemE(spot(keys, 2, 4, Previous::First, number))));
        // A marked p restarts before c is looked at.
        let marked = with(|c| c.edge_links[1] = link(2, MARKED));
        let at = standing(Place::RemE(spot(keys, 2, 4, Previous::Edge(1), number)));
        let (_, after) = step_answers(&marked, &at, ON);
        assert_eq!(after, standing(Place::RemE(spot(keys, 2, 4, Previous::First, 1))));
    }
}

#[test]
fn edge_looks_read_c_and_its_target() {
    let at = standing(Place::AddE(spot(pair(10, 30), 2, 4, Previous::First, 1)));
    torn(&with(|c| c.edge_links[1] = link(2, PLAIN)), &at);
    torn(&with(|c| c.edge_links[1] = link(2048, MARKED)), &at);
    torn(&with(|c| c.edge_targets[1] = 256), &at);
    torn(&with(|c| c.vertex_links[3] = link(4, TRANSIT)), &at);
    // On trial or marked, the target is not read.
    for tag in [TRANSIT, MARKED] {
        let unread = with(|c| {
            c.edge_links[1] = link(2, tag);
            c.edge_targets[1] = 256;
        });
        step_answers(&unread, &at, ON);
    }
    let to_tail = with(|c| {
        c.edge_targets[1] = 1;
        c.vertex_links[1] = u32::MAX;
    });
    step_answers(&to_tail, &at, ON);
}

#[test]
fn contained_edges_are_read_from_left_to_right() {
    let at = standing(Place::ConE { keys: pair(10, 20), u: 2, v: 3, c: 1 });
    step_answers(&sound(), &at, Answer::Reply(1));
    torn(&with(|c| c.edge_links[1] = link(2, PLAIN)), &at);
    torn(&with(|c| c.edge_targets[1] = 256), &at);
    torn(&with(|c| c.vertex_links[2] = link(3, ADDED)), &at);
    torn(&with(|c| c.vertex_links[3] = link(256, PLAIN)), &at);
    let no = Answer::Reply(8);
    let higher = with(|c| (c.edge_keys[1], c.edge_links[1]) = (21, 0));
    step_answers(&higher, &at, no);
    let transit = with(|c| (c.edge_targets[1], c.edge_links[1]) = (256, link(2, TRANSIT)));
    step_answers(&transit, &at, no);
    let other = with(|c| (c.edge_targets[1], c.vertex_links[2]) = (4, u32::MAX));
    step_answers(&other, &at, no);
    let u_marked = with(|c| (c.vertex_links[2], c.vertex_links[3]) = (link(3, MARKED), u32::MAX));
    step_answers(&u_marked, &at, no);
    let outside = Place::ConE { keys: pair(10, 20), u: 2, v: 3, c: 2048 };
    torn(&sound(), &standing(outside));
}

#[test]
fn queue_ends_come_first_in_a_trial() {
    for (front, back) in [(1, 0), (2, 1), (0, 257), (257, 257), (u16::MAX, u16::MAX), (300, 4)] {
        let mut table = trial(pair(10, 20), 2, 3, 1);
        (table.records[0].front, table.records[0].back) = (front, back);
        torn(&sound(), &table);
        torn(&with(|c| c.vertex_links[2] |= MARKED), &table);
    }
    let mut table = trial(pair(10, 20), 2, 3, 1);
    (table.records[0].front, table.records[0].back) = (256, 256);
    step_answers(&sound(), &table, Answer::Reply(1));
}

#[test]
fn own_edges_that_are_none() {
    for own in [0, 2048, u16::MAX] {
        let mut table = trial(pair(10, 20), 2, 3, own);
        // Opening a vertex does not need the own edge; each end of a trial does.
        step_answers(&sound(), &table, Answer::GoingOn { met: 1 });
        torn(&with(|c| c.vertex_links[2] |= MARKED), &table);
        torn(&with(|c| c.vertex_links[3] |= MARKED), &table);
        table.records[0].queue[0] = 2;
        torn(&sound(), &table);
        table.records[0].front = 1;
        torn(&sound(), &table);
    }
    let mut table = trial(pair(10, 20), 2, 3, 1);
    table.records[0].front = 1;
    torn(&with(|c| c.edge_links[1] = link(2, PLAIN)), &table);
    torn(&with(|c| c.edge_links[1] = link(2048, TRANSIT)), &table);
}

#[test]
fn a_trial_reads_the_open_vertex_then_c_then_its_target() {
    let keys = pair(30, 10);
    let base = trial(keys, 4, 2, 9);
    let at = |x, c| {
        let mut table = base.clone();
        let trial = TrialSpot { keys, u: 4, v: 2, own: 9 };
        table.records[0].place = Place::TrialOpen { trial, x, c };
        table
    };
    let going = |met| Answer::GoingOn { met };
    step_answers(&sound(), &at(2, 1), going(2));
    torn(&sound(), &at(2, 2048));
    torn(&with(|c| c.edge_links[1] = link(2, PLAIN)), &at(2, 1));
    torn(&with(|c| c.edge_targets[1] = 300), &at(2, 1));
    torn(&with(|c| c.vertex_links[3] = link(4, ADDED)), &at(2, 1));
    torn(&with(|c| c.vertex_links[3] = link(4, ADDED)), &at(3, 0));
    let marked = with(|c| (c.edge_links[1], c.edge_targets[1]) = (link(2, MARKED), 300));
    step_answers(&marked, &at(2, 1), going(1));
    let closed = with(|c| c.vertex_links[3] |= MARKED);
    let (_, after) = step_answers(&closed, &at(3, 2048), going(1));
    assert_eq!(after, base);
    let no_first = with(|c| c.first_edges[2] = link(1, MARKED));
    torn(&no_first, &base);
}

#[test]
fn a_257th_vertex_is_not_queued() {
    let keys = pair(30, 10);
    let mut table = trial(keys, 4, 2, 9);
    let place = TrialSpot { keys, u: 4, v: 2, own: 9 };
    table.records[0].place = Place::TrialOpen { trial: place, x: 2, c: 1 };
    table.records[0].back = 256;
    torn(&sound(), &table);
    // Met already, it would not be queued.
    table.records[0].met[0] |= 1 << 3;
    step_answers(&sound(), &table, Answer::GoingOn { met: 2 });
    table.records[0].met[0] &= !(1 << 3);
    table.records[0].back = 255;
    let (_, after) = step_answers(&sound(), &table, Answer::GoingOn { met: 2 });
    assert_eq!((after.records[0].back, after.records[0].queue[255]), (256, 3));
}

#[test]
fn unused_fields_are_cleared_and_not_counted() {
    let mut table = standing(Place::ConV { key: 30, c: 2 });
    table.records[0].met = [u64::MAX; 4];
    (table.records[0].front, table.records[0].back) = (9, 3);
    let (_, after) = step_answers(&sound(), &table, ON);
    assert_eq!(after, standing(Place::ConV { key: 30, c: 3 }));
}

#[test]
fn a_full_met_set_is_counted_whole() {
    let mut table = trial(pair(10, 20), 2, 3, 1);
    table.records[0].met = [u64::MAX; 4];
    step_answers(&sound(), &table, Answer::GoingOn { met: 256 });
}

#[test]
fn looks_mark_before_they_unlink() {
    let mut catalogue = sound();
    assert_eq!(ask(&mut catalogue, &mut Table::new(1), 0, (2, 20, 0)), 1);
    let at = standing(Place::RemE(spot(pair(10, 30), 2, 4, Previous::First, 1)));
    let (marked, same) = step_answers(&catalogue, &at, ON);
    assert_eq!((marked.edge_links[1], &same), (link(2, MARKED), &at));
    let (unlinked, moved) = step_answers(&marked, &same, ON);
    assert_eq!(unlinked.first_edges[2], link(2, PLAIN));
    assert_eq!(moved, standing(Place::RemE(spot(pair(10, 30), 2, 4, Previous::First, 2))));
    let (removed, idle) = step_answers(&unlinked, &moved, Answer::Reply(1));
    assert_eq!((removed.edge_links[2], idle), (link(0, MARKED), Table::new(1)));
}

#[test]
fn a_redirected_edge_keeps_its_tag() {
    let keys = pair(10, 30);
    for tag in [TRANSIT, ADDED] {
        let catalogue = with(|c| {
            c.edge_links[1] = link(2, tag);
            c.edge_links[2] = link(0, MARKED);
        });
        let at = standing(Place::AddE(spot(keys, 2, 4, Previous::Edge(1), 2)));
        let (after, table) = step_answers(&catalogue, &at, ON);
        assert_eq!(after.edge_links[1], link(0, tag));
        let (after, _) = step_answers(&after, &table, Answer::GoingOn { met: 1 });
        assert_eq!(after.edge_links[1], link(3, tag));
        assert_eq!(after.edge_links[3], link(0, TRANSIT));
    }
}
