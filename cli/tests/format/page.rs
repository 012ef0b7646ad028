//! The page as text: its sections, blocks of bytes and tables.

use std::collections::BTreeMap;

const PAGE: &str = include_str!("../../../docs/FORMAT.md");

/// The text of the section with this number.
pub fn section(number: u32) -> &'static str {
    let heading = format!("\n## {number}. ");
    let (_, text) = PAGE.split_once(&heading).expect("a section");
    text.split("\n## ").next().expect("its text")
}

/// The blocks of bytes in a section, by their labels.
pub fn blocks(section: &str) -> BTreeMap<String, Vec<u8>> {
    let mut blocks = BTreeMap::new();
    for block in section.split("```").skip(1).step_by(2) {
        let (label, bytes) = block_of(block);
        let other = blocks.insert(label.to_string(), bytes);
        assert_eq!(other, None, "two blocks are labelled {label}");
    }
    blocks
}

/// A block begins with its label and the number of its bytes. Each line behind
/// has a place, the bytes there and perhaps a note, two spaces between them.
fn block_of(block: &str) -> (&str, Vec<u8>) {
    let mut lines = block.lines();
    assert_eq!(lines.next(), Some("text"));
    let title = lines.next().expect("a label");
    let (label, size) = title.rsplit_once(", ").expect("a size");
    let mut bytes = Vec::new();
    for line in lines {
        let mut columns = line.split("  ").filter(|column| !column.is_empty());
        let place = columns.next().expect("a place").trim();
        assert_eq!(place, bytes.len().to_string(), "{label}: {line}");
        bytes.extend(bytes_of(columns.next().expect("bytes")));
    }
    let size = size.replace(',', "");
    assert_eq!(size, format!("{} bytes", bytes.len()), "{label}");
    (label, bytes)
}

/// Bytes in hexadecimal, or one of them and how often it stands there.
fn bytes_of(text: &str) -> Vec<u8> {
    let byte = |digits: &str| match digits.len() {
        2 => u8::from_str_radix(digits, 16).expect("two hexadecimal digits"),
        _ => panic!("{digits} is not a byte"),
    };
    match text.split_once(" × ") {
        Some((digits, times)) => vec![byte(digits); times.parse().expect("a number")],
        None => text.split(' ').map(byte).collect(),
    }
}

/// The cells of the table in a section that has this heading, row by row.
pub fn table(section: &'static str, heading: &str) -> Vec<Vec<&'static str>> {
    let mut lines = section.lines().skip_while(|line| *line != heading);
    assert!(lines.next().is_some(), "no table has the heading {heading}");
    lines
        .skip(1)
        .take_while(|line| line.starts_with('|'))
        .map(|line| line.trim_matches('|').split('|').map(str::trim).collect())
        .collect()
}
