//! Every sample of the document, starred or not.

use independent::{Reply, check, read, rewrite};
use std::io::Write;
use std::process::{Command, Stdio};

/// The lines of graph A.
const A: [&str; 6] = [
    "01 00000004 00000000 00000004 00000001 01",
    "01 00000006 00000008 00000006 00000002 02",
    "02 00 01 00000000 00000008",
    "03 00 00 01 0002",
    "03 00 01 01 0003",
    "04 00 01 00000002 00000004 00000003",
];

/// The bytes of lines in hex.
fn file(lines: &[&str]) -> Vec<u8> {
    let digits: String = lines.concat().split_whitespace().collect();
    let pair = |at: usize| u8::from_str_radix(&digits[at..at + 2], 16).unwrap();
    (0..digits.len()).step_by(2).map(pair).collect()
}

/// Graph A with one line changed.
fn a_with(line: usize, text: &'static str) -> Vec<&'static str> {
    let mut lines = A.to_vec();
    lines[line] = text;
    lines
}

/// The file is accepted with these response times, and places of the report after them stay.
fn accepted(lines: &[&str], times: &[u32]) {
    let mut report = [77; 34];
    let reply = check(&file(lines), &mut report);
    let place = times.len() as u64;
    let expected = Reply {
        number: 0,
        place,
        job: 0,
    };
    assert_eq!(reply, expected);
    assert_eq!(report[..times.len()], *times);
    assert!(report[times.len()..].iter().all(|&place| place == 77));
}

/// The file is refused so, and the report stays.
fn refused(lines: &[&str], number: u32, place: u64, job: u64) {
    let mut report = [77; 34];
    let reply = check(&file(lines), &mut report);
    assert_eq!(reply, Reply { number, place, job }, "{lines:?}");
    assert_eq!(report, [77; 34]);
}

#[test]
fn nothing_and_single_bytes() {
    refused(&[], 6, 0, 0);
    refused(&["01"], 2, 0, 0);
    refused(&["09"], 1, 0, 0);
}

#[test]
fn graph_a() {
    assert_eq!(file(&A).len(), 74);
    accepted(&A, &[1, 3]);
}

#[test]
fn graph_a_with_phase_3() {
    refused(&a_with(5, "04 00 01 00000002 00000003 00000003"), 10, 0, 0);
}

#[test]
fn graph_a_with_size_7() {
    refused(&a_with(2, "02 00 01 00000000 00000007"), 17, 0, 3);
}

#[test]
fn graph_a_without_relation_and_offset_7() {
    let lines = a_with(1, "01 00000006 00000007 00000006 00000002 02");
    refused(&lines[..5], 16, 0, 0);
}

#[test]
fn graph_a_with_4_tokens_consumed() {
    refused(&a_with(4, "03 00 01 01 0004"), 14, 0, 0);
}

#[test]
fn graph_a_with_deadlines_2_and_3() {
    let two = a_with(1, "01 00000006 00000008 00000002 00000002 02");
    refused(&two, 11, 1, 0);
    let three = a_with(1, "01 00000006 00000008 00000003 00000002 02");
    accepted(&three, &[1, 3]);
}

#[test]
fn graph_a_with_production_prefix_0() {
    let mut lines = A.to_vec();
    lines.insert(3, "03 00 00 00 0000");
    refused(&lines, 16, 0, 0);
    lines[2] = "02 00 01 00000002 00000008";
    accepted(&lines, &[1, 3]);
}

#[test]
fn one_task_with_a_channel_to_itself() {
    let with = |channel: &'static str| {
        [
            "01 00000005 00000000 00000005 00000001 01",
            channel,
            "03 00 00 01 0001",
            "03 00 01 01 0001",
        ]
    };
    refused(&with("02 00 00 00000000 00000002"), 16, 0, 0);
    accepted(&with("02 00 00 00000001 00000002"), &[1]);
    refused(&with("02 00 00 00000001 00000001"), 17, 0, 0);
}

#[test]
fn two_tasks_that_fill_the_processor() {
    let lines = [
        "01 00000002 00000000 00000002 00000001 01",
        "01 00000004 00000000 00000004 00000002 02",
    ];
    accepted(&lines, &[1, 4]);
}

#[test]
fn graph_a_with_both_priorities_1() {
    let lines = a_with(1, "01 00000006 00000008 00000006 00000002 01");
    refused(&lines, 8, 1, 0);
}

#[test]
fn a_window_too_long() {
    let lines = [
        "01 000F422F 00000000 000F422F 00000001 01",
        "01 000F4240 00000000 000F4240 00000001 02",
        "02 00 01 00000000 00000008",
        "03 00 00 01 0000",
        "03 00 01 01 0000",
    ];
    refused(&lines, 15, 0, 0);
}

/// What the program prints for an input.
fn printed(input: &[u8]) -> String {
    let mut program = Command::new(env!("CARGO_BIN_EXE_independentcheck"))
        .stdin(Stdio::piped())
        .stdout(Stdio::piped())
        .spawn()
        .unwrap();
    program.stdin.take().unwrap().write_all(input).unwrap();
    let output = program.wait_with_output().unwrap();
    String::from_utf8(output.stdout).unwrap()
}

#[test]
fn the_program() {
    assert_eq!(printed(&file(&A)), "0 2 0\n0 1\n1 3\n");
    assert_eq!(printed(&[]), "6 0 0\n");
    let size_7 = a_with(2, "02 00 01 00000000 00000007");
    assert_eq!(printed(&file(&size_7)), "17 0 3\n");
}

/// The longest file that the reader takes has 39,104 bytes; it is written back byte for byte.
#[test]
fn the_longest_file() {
    let mut bytes = Vec::new();
    for _ in 0..32 {
        bytes.extend(file(&A[..1]));
    }
    for _ in 0..64 {
        bytes.extend(file(&A[2..3]));
    }
    for list in 0..256 {
        for entry in 0..16 * (1 + list % 2) {
            let triple = [list / 4, list / 2 % 2, list % 2].map(|n: u16| n as u8);
            bytes.push(3);
            bytes.extend(triple);
            bytes.extend((list * 100 + entry).to_be_bytes());
        }
    }
    for _ in 0..64 {
        bytes.extend(file(&A[5..]));
    }
    assert_eq!(bytes.len(), 39_104);
    assert_eq!(read(&bytes).unwrap().tasks.len(), 32);
    let mut out = vec![9; 40_000];
    let accepted = Reply {
        number: 0,
        place: 32,
        job: 0,
    };
    assert_eq!(rewrite(&bytes, &mut out), accepted);
    assert_eq!(out[..39_104], bytes);
    assert!(out[39_104..].iter().all(|&byte| byte == 9));
}
