//! Both pools run dry, and a sweep fills them again.

use crate::help::{ask, graph};
use second::{sweep, Catalogue, Table};

#[test]
fn vertices_run_out_and_come_back() {
    let (mut catalogue, mut table) = (Catalogue::default(), Table::new(1));
    for key in 0..254 {
        assert_eq!(ask(&mut catalogue, &mut table, 0, (1, key, 0)), 1);
    }
    assert_eq!(ask(&mut catalogue, &mut table, 0, (1, 254, 0)), 9);
    assert_eq!(ask(&mut catalogue, &mut table, 0, (1, 100, 0)), 2);
    assert_eq!(ask(&mut catalogue, &mut table, 0, (2, 100, 0)), 1);
    assert_eq!(ask(&mut catalogue, &mut table, 0, (1, 254, 0)), 9);
    let mut second = Catalogue::default();
    sweep(&catalogue, &mut second, &table).unwrap();
    assert_eq!(second.vertices_out, 253);
    assert_eq!(ask(&mut second, &mut table, 0, (1, 254, 0)), 1);
    assert_eq!(ask(&mut second, &mut table, 0, (1, 100, 0)), 9);
}

#[test]
fn edges_run_out_and_come_back() {
    let keys: Vec<i32> = (0..65).collect();
    let mut catalogue = graph(&keys, &[]);
    let mut table = Table::new(1);
    let pairs = keys.iter().flat_map(|k| (k + 1..65).map(move |l| (*k, l)));
    let pairs: Vec<(i32, i32)> = pairs.collect();
    for (k, l) in &pairs[..2047] {
        assert_eq!(ask(&mut catalogue, &mut table, 0, (4, *k, *l)), 1);
    }
    let (k, l) = pairs[2047];
    assert_eq!(ask(&mut catalogue, &mut table, 0, (4, k, l)), 9);
    assert_eq!(ask(&mut catalogue, &mut table, 0, (4, 3, 9)), 4);
    assert_eq!(ask(&mut catalogue, &mut table, 0, (5, 3, 9)), 1);
    assert_eq!(ask(&mut catalogue, &mut table, 0, (4, k, l)), 9);
    let mut second = Catalogue::default();
    sweep(&catalogue, &mut second, &table).unwrap();
    assert_eq!(second.edges_out, 2046);
    assert_eq!(ask(&mut second, &mut table, 0, (4, k, l)), 1);
    assert_eq!(ask(&mut second, &mut table, 0, (4, 3, 9)), 9);
}
