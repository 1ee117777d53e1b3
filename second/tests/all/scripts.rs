//! Refusal 27 with its line, and what valid scripts may look like.

use crate::help::{graph, play};
use second::numbers::{OUTPUT, SCRIPT};
use second::{run, Catalogue, Refusal};

fn refused_at(script: &[u8], line: usize) {
    let before = graph(&[1, 2], &[(1, 2)]);
    let mut catalogue = before.clone();
    let mut output = vec![7; OUTPUT];
    let shown = String::from_utf8_lossy(script).into_owned();
    let answer = run(script, &mut catalogue, &mut output);
    assert_eq!(answer, Err(Refusal::Script(line)), "{shown:?}");
    assert_eq!(catalogue, before);
    assert!(output.iter().all(|byte| *byte == 7));
}

#[test]
fn smallest_scripts() {
    assert_eq!(play("1 0 0\n\n").unwrap(), "0 0 0\n");
    assert_eq!(play("8 0 0 0 0 0 0 0 0 0\n\n").unwrap(), "0 0 0\n");
    assert_eq!(play("1 0 2\n0 0\n").unwrap(), "0 0 0\n");
    assert_eq!(play("2 0 1 2\n1 -1\n1 1\n").unwrap(), "1 1 0\n2 1 1 1\n-1\n");
    assert_eq!(play("1 1 1\n1 0\n0\n").unwrap(), "0 0 0\n");
}

#[test]
fn bad_first_lines() {
    let bad: [&[u8]; 24] = [
        b"",
        b"\n",
        b"1\n",
        b"1 0\n",
        b"1 0 0",
        b"1 0 0 \n\n",
        b" 1 0 0\n\n",
        b"1  0 0\n\n",
        b"01 0 0\n\n",
        b"1 00 0\n\n",
        b"1 0 00\n\n",
        b"+1 0 0\n\n",
        b"-1 0 0\n\n",
        b"1 -0 0\n\n",
        b"1 0 0 0\n\n",
        b"2 0 0\n\n",
        b"0 0\n\n",
        b"1 1025 0\n\n",
        b"1 0 8193\n\n",
        b"1 0 4294967296\n\n",
        b"1 0 0\r\n\n",
        b"1 0 0\0\n\n",
        b"x\n",
        b"2 1024 1 0\n\n",
    ];
    for script in bad {
        refused_at(script, 1);
    }
}

#[test]
fn bad_request_lines() {
    let bad = [
        "",
        "1",
        "0 5",
        "7 5",
        "1 5 5",
        "4 5",
        "4 5 6 7",
        "1 05",
        "1 -0",
        "1 00",
        "1 -05",
        "1 +5",
        "1  5",
        "1 5 ",
        " 1 5",
        "-1 5",
        "01 5",
        "1 2147483647",
        "1 -2147483648",
        "1 2147483648",
        "1 -2147483649",
        "1 4294967297",
        "1 99999999999999999999999999999",
        "4 1 2147483647",
        "1 --5",
        "1 -",
        "1 5\r",
        "1 5\t",
        "1 0x5",
        "4294967297 5",
    ];
    for line in bad {
        refused_at(format!("1 2 3\n1 1\n{line}\n0 0 0\n").as_bytes(), 3);
    }
    refused_at(b"1 2 3\n1 1\n1 2", 3);
    refused_at(b"1 2 3\n1 1\n", 3);
}

#[test]
fn keys_at_the_ends_are_good() {
    let script = "1 2 5\n1 -2147483647\n1 2147483646\n0 0 0 0 0\n";
    let result = "2 2 0\n2 0 1 1\n5 0 1 1\n-2147483647\n2147483646\n";
    assert_eq!(play(script).unwrap(), result);
}

#[test]
fn bad_schedules() {
    let bad = ["", "0", "0 0 0", "0 1", "0 0 ", " 0 0", "0  0", "0 -0", "00 0", "0 8", "0 x"];
    for line in bad {
        refused_at(format!("1 1 2\n1 1\n{line}\n").as_bytes(), 3);
    }
    refused_at(b"1 1 2\n1 1\n0 0", 3);
    refused_at(b"1 1 2\n1 1\n", 3);
    refused_at(b"1 0 0\n", 2);
    refused_at(b"1 0 0\n0\n", 2);
}

#[test]
fn bytes_after_the_end() {
    refused_at(b"1 1 2\n1 1\n0 0\n\n", 4);
    refused_at(b"1 1 2\n1 1\n0 0\nx", 4);
    refused_at(b"1 0 0\n\n\n", 3);
}

#[test]
fn the_first_bad_line_counts() {
    refused_at(b"1 2 3\n1 x\n7 1\n0 0\n", 2);
    refused_at(b"1 2 3\n1 1\n7 1\n0 0\n", 3);
    refused_at(b"1 2 3\n1 1\n1 1\n0 0\nx", 4);
}

#[test]
fn the_limit_in_bytes() {
    let mut script = b"1 0 0\n\n".to_vec();
    script.resize(SCRIPT, b'0');
    refused_at(&script, 3);
    script.push(b'0');
    refused_at(&script, 0);
    refused_at(&vec![b'\n'; SCRIPT + 1], 0);
    refused_at(&vec![b'\n'; SCRIPT], 1);
}

#[test]
fn the_limits_in_requests_and_entries() {
    let mut script = String::from("2 1000 24 8192\n");
    script.push_str(&"3 0\n".repeat(1024));
    script.push_str(&"1 ".repeat(8191));
    script.push_str("1\n");
    let result = play(&script).unwrap();
    assert_eq!(result.lines().next(), Some("24 0 0"));
    assert_eq!(result.lines().last(), Some("48 1 3 2"));
}

#[test]
fn edges_to_a_removed_vertex_are_counted_but_not_listed() {
    let requests = "1 4 17\n1 1\n1 2\n4 1 2\n2 2\n";
    let result = play(&format!("{requests}{}0\n", "0 ".repeat(16))).unwrap();
    assert_eq!(result, "4 1 1\n2 0 1 1\n5 0 1 1\n13 0 4 1\n16 0 2 1\n1\n");
}

#[test]
fn a_refused_script_leaves_garbage_alone() {
    let mut catalogue = Catalogue::default();
    catalogue.vertex_links[0] = u32::MAX;
    let before = catalogue.clone();
    let mut output = vec![0; OUTPUT];
    assert_eq!(run(b"?\n", &mut catalogue, &mut output), Err(Refusal::Script(1)));
    assert_eq!(catalogue, before);
}
