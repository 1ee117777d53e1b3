//! What a sweep writes, and that it agrees with the listing.

use crate::help::{ask, graph, insert, link, list, ADDED, PLAIN};
use second::{step, sweep, Answer, Catalogue, Refusal, Table};

fn body(text: &str) -> String {
    text.split_once('\n').map(|(_, body)| body.to_string()).unwrap()
}

/// A catalogue with all sorts of remains in it.
fn used() -> Catalogue {
    let edges = [(-9, 4), (4, 7), (7, 8), (-9, 8), (0, 7), (0, 8), (3, 0)];
    let mut catalogue = graph(&[7, -9, 3, 0, 8, 4], &edges);
    let mut table = Table::new(1);
    let requests = [(5, 0, 8), (2, 3, 0), (4, 8, -9), (2, 7, 0), (1, 7, 0), (4, 7, 0)];
    let replies = requests.map(|request| ask(&mut catalogue, &mut table, 0, request));
    assert_eq!(replies, [1, 1, 6, 1, 1, 1]);
    catalogue
}

#[test]
fn the_body_of_the_listing_outlives_a_sweep() {
    let first = used();
    let mut second = graph(&[100, 200], &[(100, 200)]);
    sweep(&first, &mut second, &Table::new(3)).unwrap();
    assert_eq!(first, used());
    assert_eq!(body(&list(&first)), body(&list(&second)));
    assert_eq!(body(&list(&second)), "-9\n0\n4\n7\n8\n-9 4\n-9 8\n7 0\n");
    // Two edges to the removed 7 were in live lists, and only in the first.
    assert_eq!(list(&first).lines().next(), Some("0 5 5"));
    assert_eq!(list(&second).lines().next(), Some("0 5 3"));
}

#[test]
fn the_swept_memory_number_by_number() {
    let mut second = used();
    sweep(&used(), &mut second, &Table::new(1)).unwrap();
    let mut expected = Catalogue::default();
    expected.vertex_links[0] = link(2, PLAIN);
    expected.vertex_keys[2..7].copy_from_slice(&[-9, 0, 4, 7, 8]);
    for vertex in 2..6 {
        expected.vertex_links[vertex] = link(vertex as u32 + 1, PLAIN);
    }
    expected.vertex_links[6] = link(1, PLAIN);
    expected.first_edges[2] = link(1, PLAIN);
    expected.first_edges[5] = link(3, PLAIN);
    expected.edge_keys[1..4].copy_from_slice(&[4, 8, 0]);
    expected.edge_targets[1..4].copy_from_slice(&[4, 6, 3]);
    expected.edge_links[1..4].copy_from_slice(&[link(2, ADDED), link(0, ADDED), link(0, ADDED)]);
    (expected.vertices_out, expected.edges_out) = (5, 3);
    assert_eq!(second, expected);
}

#[test]
fn sweeping_twice_changes_nothing_more() {
    let (mut second, mut third) = (Catalogue::default(), Catalogue::default());
    sweep(&used(), &mut second, &Table::new(1)).unwrap();
    sweep(&second, &mut third, &Table::new(1)).unwrap();
    assert_eq!(second, third);
    sweep(&Catalogue::default(), &mut third, &Table::new(1)).unwrap();
    assert_eq!(third, Catalogue::default());
}

#[test]
fn an_edge_on_trial_can_be_listed_but_not_swept() {
    let mut catalogue = graph(&[1, 2, 3], &[(1, 3)]);
    let mut table = Table::new(1);
    insert(&mut catalogue, &mut table, 0, 1, 2);
    assert_eq!(list(&catalogue), "0 3 1\n1\n2\n3\n1 3\n");
    let mut second = graph(&[9], &[]);
    let answer = sweep(&catalogue, &mut second, &Table::new(1));
    assert_eq!((answer, second), (Err(Refusal::Torn), graph(&[9], &[])));
}

#[test]
fn listing_in_every_moment_of_two_crossing_requests() {
    let mut catalogue = graph(&[1, 2, 3], &[(1, 2), (2, 3)]);
    let mut table = Table::new(2);
    insert(&mut catalogue, &mut table, 0, 3, 1);
    second::take_up(&catalogue, &mut table, 1, 2, 2, 0).unwrap();
    let mut listings = vec![list(&catalogue)];
    for worker in [1, 0, 1, 0, 0, 0, 0] {
        let answer = step(&mut catalogue, &mut table, worker).unwrap();
        listings.push(list(&catalogue));
        if answer == Answer::Reply(1) && worker == 0 {
            break;
        }
    }
    let before = "0 3 2\n1\n2\n3\n1 2\n2 3\n";
    let between = "0 2 1\n1\n3\n";
    let after = "0 2 2\n1\n3\n3 1\n";
    assert_eq!(listings, [before, before, before, between, between, between, after]);
}
