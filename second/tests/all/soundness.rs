//! What makes a whole catalogue unsound for listing and sweep, and what does not.

use crate::help::{ask, graph, link, list, ADDED, MARKED, PLAIN, TRANSIT};
use second::numbers::OUTPUT;
use second::{listing, sweep, Catalogue, Refusal, Table};

fn both(catalogue: &Catalogue) -> (Result<(), Refusal>, Result<(), Refusal>) {
    let before = catalogue.clone();
    let mut output = vec![7; OUTPUT];
    let listed = listing(catalogue, &mut output).map(|_| ());
    if listed.is_err() {
        assert!(output.iter().all(|byte| *byte == 7));
    }
    let mut second = graph(&[9], &[]);
    let swept = sweep(catalogue, &mut second, &Table::new(1));
    if swept.is_err() {
        assert_eq!(second, graph(&[9], &[]));
    }
    assert_eq!(catalogue, &before);
    (listed, swept)
}

/// Vertices 2, 3, 4 with keys 10, 20, 30, of which 20 is marked but still
/// linked. Edges 1 (to 30), 2 (to 20) in 10's list, edge 3 (to 30) in 20's.
fn sound() -> Catalogue {
    let mut catalogue = graph(&[10, 20, 30], &[(10, 30), (10, 20), (20, 30)]);
    assert_eq!(ask(&mut catalogue, &mut Table::new(1), 0, (2, 20, 0)), 1);
    catalogue
}

fn torn(change: impl Fn(&mut Catalogue)) {
    let mut catalogue = sound();
    change(&mut catalogue);
    assert_eq!(both(&catalogue), (Err(Refusal::Torn), Err(Refusal::Torn)));
}

fn still_sound(change: impl Fn(&mut Catalogue)) {
    let mut catalogue = sound();
    change(&mut catalogue);
    assert_eq!(both(&catalogue), (Ok(()), Ok(())));
    assert_eq!(list(&catalogue), list(&sound()));
}

#[test]
fn numbers_outside_their_pools() {
    torn(|c| c.vertex_links[0] = link(256, PLAIN));
    torn(|c| c.vertex_links[3] = link(256, MARKED));
    torn(|c| c.vertex_links[4] = u32::MAX - 3);
    torn(|c| c.first_edges[2] = link(2048, PLAIN));
    torn(|c| c.edge_links[1] = link(2048, ADDED));
    torn(|c| c.edge_targets[1] = 256);
    torn(|c| c.edge_targets[2] = u32::MAX);
}

#[test]
fn tags_that_do_not_belong() {
    torn(|c| c.vertex_links[0] += MARKED);
    torn(|c| c.vertex_links[2] += TRANSIT);
    torn(|c| c.vertex_links[4] += ADDED);
    torn(|c| c.first_edges[4] += MARKED);
    torn(|c| c.edge_links[2] = link(1, PLAIN));
}

#[test]
fn lists_that_do_not_rise() {
    torn(|c| c.vertex_keys[3] = 10);
    torn(|c| c.vertex_keys[0] = 10);
    torn(|c| c.vertex_keys[4] = i32::MAX);
    torn(|c| c.vertex_links[4] = link(2, PLAIN));
    torn(|c| c.vertex_links[2] = link(2, PLAIN));
    torn(|c| c.vertex_links[4] = link(0, PLAIN));
    torn(|c| c.edge_links[1] = link(2, ADDED));
    torn(|c| c.edge_links[1] = link(1, ADDED));
    torn(|c| {
        // A marked target may have any key, yet no edge key may equal the tail's.
        c.vertex_keys[9] = i32::MAX;
        c.vertex_links[9] = link(0, MARKED);
        c.edge_keys[1] = i32::MAX;
        c.edge_targets[1] = 9;
    });
}

#[test]
fn targets_that_are_wrong() {
    torn(|c| c.edge_targets[1] = 2);
    torn(|c| c.edge_keys[2] = 21);
    torn(|c| c.edge_targets[1] = 1);
    torn(|c| c.edge_targets[1] = 0);
    // Live by its tag, with the right key, but not on the walk.
    torn(|c| {
        c.vertex_keys[9] = 30;
        c.vertex_links[9] = link(1, PLAIN);
        c.edge_targets[1] = 9;
    });
    torn(|c| {
        c.vertex_keys[9] = 20;
        c.vertex_links[9] = link(256, MARKED);
        c.edge_targets[2] = 9;
    });
    // The same holds for marked edges.
    torn(|c| {
        c.edge_links[2] = link(1, MARKED);
        c.edge_targets[2] = 4;
    });
}

#[test]
fn a_marked_target_need_not_be_on_the_walk() {
    still_sound(|c| {
        c.vertex_keys[9] = 20;
        c.vertex_links[9] = link(0, MARKED);
        c.edge_targets[2] = 9;
    });
}

#[test]
fn what_is_never_read_may_be_garbage() {
    still_sound(|c| {
        c.vertex_keys[1] = -5;
        c.vertex_links[1] = u32::MAX;
        c.first_edges[1] = u32::MAX;
        c.first_edges[0] = u32::MAX;
        c.first_edges[3] = u32::MAX;
        c.edge_links[3] = 0;
        c.edge_targets[3] = 999;
        (c.edge_keys[0], c.edge_targets[0], c.edge_links[0]) = (4, 999, u32::MAX);
        c.vertex_links[77] = u32::MAX;
        c.edge_links[777] = u32::MAX;
        (c.vertices_out, c.edges_out) = (u32::MAX, u32::MAX);
    });
}

#[test]
fn the_heads_key_need_only_be_lower() {
    still_sound(|c| c.vertex_keys[0] = 9);
}

#[test]
fn nodes_beyond_the_handed_out_ones_count_as_well() {
    let mut catalogue = sound();
    catalogue.vertex_keys[255] = 40;
    catalogue.vertex_links[255] = link(1, PLAIN);
    catalogue.vertex_links[4] = link(255, PLAIN);
    assert_eq!(list(&catalogue), "0 3 2\n10\n30\n40\n10 30\n");
}

/// Vertices that all share one list of edges to the last `targets` of them.
fn shared_lists(sources: u32, targets: u32) -> Catalogue {
    let mut catalogue = Catalogue::default();
    catalogue.vertex_links[0] = link(2, PLAIN);
    for n in 2..2 + sources + targets {
        catalogue.vertex_keys[n as usize] = n as i32;
        let next = if n + 1 == 2 + sources + targets { 1 } else { n + 1 };
        catalogue.vertex_links[n as usize] = link(next, PLAIN);
    }
    for n in 0..sources as usize {
        catalogue.first_edges[2 + n] = link(1, PLAIN);
    }
    for n in 1..=targets {
        catalogue.edge_keys[n as usize] = (1 + sources + n) as i32;
        catalogue.edge_targets[n as usize] = 1 + sources + n;
        let next = if n == targets { 0 } else { n + 1 };
        catalogue.edge_links[n as usize] = link(next, ADDED);
    }
    catalogue
}

#[test]
fn more_live_edges_than_nodes() {
    let torn = (Err(Refusal::Torn), Err(Refusal::Torn));
    // 23 * 89 = 2,047 is still allowed, 32 * 64 = 2,048 is not.
    assert_eq!(both(&shared_lists(23, 89)), (Ok(()), Ok(())));
    assert_eq!(both(&shared_lists(32, 64)), torn);
    let mut swept = Catalogue::default();
    sweep(&shared_lists(23, 89), &mut swept, &Table::new(1)).unwrap();
    assert_eq!(swept.edges_out, 2047);
    assert_eq!(list(&swept), list(&shared_lists(23, 89)));
}
