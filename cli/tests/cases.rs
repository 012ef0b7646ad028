//! The script of `crates/cases` and its output against generator and model.

#[path = "../examples/cases/interpreter.rs"]
mod interpreter;
#[path = "../examples/cases/record.rs"]
mod record;
#[path = "../examples/cases/script/mod.rs"]
mod script;

use std::collections::BTreeSet;

const STDIN: &[u8] = include_bytes!("../../crates/cases/stdin");
const STDOUT: &str = include_str!("../../crates/cases/stdout");

#[test]
fn script_is_the_generated_one() {
    assert!(STDIN == script::script());
}

#[test]
fn output_is_that_of_the_model() {
    let output = interpreter::run(STDIN);
    for (expected, line) in STDOUT.lines().zip(output.lines()) {
        assert_eq!(line, expected);
    }
    assert_eq!(output.len(), STDOUT.len());
}

/// The refusals of one call that these lines show, 0 for none.
fn refusals(output: &str, name: &str) -> Vec<u32> {
    let lines = output
        .lines()
        .map(|line| line.split(' ').collect::<Vec<_>>());
    let numbers: BTreeSet<u32> = lines
        .filter(|words| words[0] == name)
        .filter_map(|words| words[1].parse().ok())
        .collect();
    numbers.into_iter().collect()
}

#[test]
fn every_refusal_is_met() {
    let refusals = |name| refusals(STDOUT, name);
    assert_eq!(refusals("open"), [0, 2, 3, 4, 5, 6]);
    assert_eq!(refusals("append"), [0, 2, 3, 6, 7, 8, 9, 10, 11]);
    assert_eq!(refusals("close"), [0, 2, 3, 6, 10]);
    assert_eq!(refusals("restart"), [0, 2, 3, 6, 10, 11, 27]);
    let of_audit: Vec<u32> = [0].into_iter().chain(2..=5).chain(12..=23).collect();
    assert_eq!(refusals("audit"), of_audit);
    assert_eq!(refusals("lookup"), [&of_audit[..], &[24]].concat());
    assert_eq!(refusals("plan"), [0, 25]);
}

/// The rows of stores with a set of their own, which stand last.
#[test]
fn every_refusal_that_follows_the_set_is_met() {
    let start = STDOUT.find("\nkind 6: ").expect("a first label");
    let refusals = |name| refusals(&STDOUT[start..], name);
    assert_eq!(refusals("open"), [0, 2, 3, 4, 5]);
    assert_eq!(refusals("append"), [0, 2, 3, 6, 8, 9, 10]);
    assert_eq!(refusals("close"), [0, 2, 3, 6, 10]);
    assert_eq!(refusals("restart"), [0, 10, 27]);
    let of_audit: Vec<u32> = [0].into_iter().chain(2..=5).chain(12..=23).collect();
    assert_eq!(refusals("audit"), of_audit);
    assert_eq!(refusals("lookup"), [0, 2, 12, 13, 24]);
}
