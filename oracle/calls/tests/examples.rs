//! The protocol page's examples.

use std::io::Write;
use std::process::{Command, Stdio};

/// Requests, each with its answer below it.
const EXAMPLES: &str = include_str!("../examples");

#[test]
fn examples_are_answered() {
    let lines: Vec<&str> = EXAMPLES.lines().collect();
    let (pairs, odd) = lines.as_chunks::<2>();
    assert!(odd.is_empty(), "without an answer: {odd:?}");
    let requests: String = pairs.iter().map(|[request, _]| format!("{request}\n")).collect();
    let answers = ask(&requests);
    for ([request, wanted], answer) in pairs.iter().zip(answers.lines()) {
        assert_eq!(answer, *wanted, "{request}");
    }
    assert_eq!(answers.lines().count(), pairs.len());
}

#[test]
fn what_is_no_request() {
    let lines = [
        "",
        "kind",
        "kind 65536",
        "kind 0x",
        "kind +1",
        "kind 1 2",
        "split 0 1",
        "split 0A 1",
        "lex  0 read_id",
        "lex - 0 read",
        "lex - -1 read_id",
        "lex - 0 read_bytes",
        "lex - 0 position 1",
        "source slice - ensure 1",
        "source slice - : ensure",
        "source slice - : refill 1",
        "source slice - : window",
        "source slice - : refill ;",
        "source stream 1 - x : refill",
        "source state - 0 0 0 - 0 - : refill",
        "fast 00 -",
        "write 9 rgb 1 2",
        "write 9 u32 4294967296",
        "write 9 quoted",
        "write 9 quoted *",
        "write 9 quoted *-1",
        "write 9 quoted *4294967297",
        "write 9 quoted 0 61",
        "write 9 quoted 0 1 61 62",
        "write 9 quoted 0 -1 61",
        "write 9 f32 *4",
        "normal 9 *18446744073709551616",
        "shorten 9 *",
        "shorten *9 -",
        "shortest 9 -",
        "shortest 9 quoted 0 1",
        "rescue",
        "rescue 9",
        "rescue -",
        "rescue -1 -",
        "rescue 9 *",
        "rescue 9 0",
        "rescue 9 - -",
        "find - 0",
        "find - 0 65536",
        "find *1 0 1",
        "dump *1",
        "at 1",
        "at lex - 0 read_id",
        "at -1 lex - 0 read_id",
        "at 18446744073709551616 lex - 0 read_id",
        "at 1 at 1 lex - 0 read_id",
        "at 1 dump -",
        "at 1 toc 1 -",
        "at 1 rescue 9 -",
        "at 1 lex - 0",
        "at 1 find - 0",
        "lex *1 0 read_id",
        "toc",
        "toc 1",
        "toc -1 -",
        "toc +1 -",
        "toc 134217729 -",
        "toc 1 *",
        "toc 1 - -",
        "toc_search 2-16",
        "toc_search 2 1",
        "toc_search 2-16,16 1",
        "toc_search 2-16, 1",
        "toc_search 2-3-4 1",
        "toc_search 2-+3 1",
        "toc_search 2-4294967296 1",
        "toc_search _ 1",
        "toc_search - -1",
        "toc_search - 18446744073709551616",
        "toc_write 2-3",
        "toc_write 9 2-3 4",
        "toc_read 1",
        "toc_read 1 *5",
    ];
    let answers = ask(&lines.map(|line| format!("{line}\n")).concat());
    assert_eq!(answers, "bad request\n".repeat(lines.len()));
}

fn ask(requests: &str) -> String {
    let mut calls = Command::new(env!("CARGO_BIN_EXE_calls"))
        .stdin(Stdio::piped())
        .stdout(Stdio::piped())
        .spawn()
        .expect("calls starts");
    calls.stdin.take().expect("a pipe").write_all(requests.as_bytes()).expect("calls reads");
    let output = calls.wait_with_output().expect("calls ends");
    assert!(output.status.success(), "calls: {}", output.status);
    String::from_utf8(output.stdout).expect("text")
}
