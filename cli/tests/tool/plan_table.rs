//! The table of `pahyndoi plan ratchet` beside the proved answer.

use pahyndoi::least_ratchet;

use crate::plan::words;
use crate::random::Random;

/// A row of the table: whether it is marked, the ratchet, the chunks, and how
/// many of the card's are left or how many are too many.
#[derive(Debug, PartialEq)]
struct Row {
    marked: bool,
    ratchet: u32,
    chunks: u64,
    rest: Rest,
}

#[derive(Debug, PartialEq)]
enum Rest {
    Left(u64),
    TooMany(u64),
}

fn rows(text: &str) -> Vec<Row> {
    let (_, table) = text.split_once("      N     chunks\n").expect("a table");
    table.lines().map(row).collect()
}

fn row(line: &str) -> Row {
    let plain = line.replace(',', "");
    let words: Vec<&str> = plain
        .trim_start_matches([' ', '>'])
        .split_whitespace()
        .collect();
    let number = |index: usize| words[index].parse().expect("a number");
    Row {
        marked: line.starts_with("  > "),
        ratchet: number(0) as u32,
        chunks: number(1),
        rest: match words[3..] {
            ["left"] => Rest::Left(number(2)),
            ["too", "many"] => Rest::TooMany(number(2)),
            _ => panic!("{line}"),
        },
    }
}

/// The chunks taken: one is begun with every N-th entry.
fn taken(counts: &[u32], ratchet: u32) -> u64 {
    let begun = |count: &u32| (0..*count).step_by(ratchet as usize).count();
    counts.iter().map(begun).sum::<usize>() as u64
}

fn row_of(counts: &[u32], chunks: u32, ratchet: u32, answer: Option<u32>) -> Row {
    let (taken, chunks) = (taken(counts, ratchet), u64::from(chunks));
    Row {
        marked: answer == Some(ratchet),
        ratchet,
        chunks: taken,
        rest: match chunks.checked_sub(taken) {
            Some(left) => Rest::Left(left),
            None => Rest::TooMany(taken - chunks),
        },
    }
}

/// Many counts or few, large or small, and often a chunk count at which the
/// answer changes.
fn random_plan(random: &mut Random) -> (Vec<u32>, u32) {
    let length = random.up_to(64);
    let counts: Vec<u32> = match random.up_to(2) {
        0 => random.bytes(length).into_iter().map(u32::from).collect(),
        1 => (0..length).map(|_| random.up_to(5000) as u32).collect(),
        _ => (0..length).map(|_| random.up_to(65_536) as u32).collect(),
    };
    let edge = taken(&counts, 1 + random.up_to(255) as u32);
    let chunks = match random.up_to(2) {
        0 => edge,
        1 => edge.saturating_sub(1),
        _ => random.up_to(1024) as u64,
    };
    (counts, chunks.clamp(1, 1024) as u32)
}

/// The row before the answer does not last, the answer's does, and each row's
/// numbers are right.
#[test]
fn table_agrees_with_the_answer() {
    let mut random = Random::new();
    let (mut found, mut none) = (0, 0);
    for _ in 0..600 {
        let (counts, chunks) = random_plan(&mut random);
        let answer = least_ratchet(&counts, chunks).expect("a plan");
        let rows = rows(&words(chunks, &counts, answer.is_none().into()));
        let middle = answer.unwrap_or(256);
        let shown = middle.saturating_sub(3).max(1)..=(middle + 3).min(256);
        let expected: Vec<Row> = shown
            .map(|ratchet| row_of(&counts, chunks, ratchet, answer))
            .collect();
        assert_eq!(rows, expected, "{counts:?}");
        for row in rows {
            let lasts = answer.is_some_and(|answer| row.ratchet >= answer);
            assert_eq!(matches!(row.rest, Rest::Left(_)), lasts, "{counts:?}");
        }
        match answer {
            Some(_) => found += 1,
            None => none += 1,
        }
    }
    assert!(found > 100 && none > 100, "{found} found, {none} none");
}
