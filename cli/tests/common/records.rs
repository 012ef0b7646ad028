//! Reads test vector files: lines `name = value`, an empty line between
//! records, comments from `#`, and section headings in brackets.

use std::collections::HashMap;

pub type Record<'text> = HashMap<&'text str, &'text str>;

/// The file's records that have a value of this name.
pub fn records<'text>(text: &'text str, name: &str) -> Vec<Record<'text>> {
    let mut records = vec![Record::new()];
    for line in text.lines().map(str::trim) {
        if line.is_empty() {
            records.push(Record::new());
        } else if !line.starts_with(['#', '[']) {
            let (name, value) = line.split_once(" = ").expect("name = value");
            let record = records.last_mut().expect("a record is open");
            assert!(record.insert(name, value).is_none(), "{name} given twice");
        }
    }
    records.retain(|record| record.contains_key(name));
    records
}

/// The hexadecimal value of this name.
pub fn bytes(record: &Record, name: &str) -> Vec<u8> {
    let digits = record[name].as_bytes();
    assert!(digits.len() % 2 == 0, "{name} has an odd digit");
    digits.chunks_exact(2).map(byte).collect()
}

fn byte(digits: &[u8]) -> u8 {
    let value = |digit: u8| char::from(digit).to_digit(16).expect("a digit");
    (value(digits[0]) * 16 + value(digits[1])) as u8
}

/// `Msg`, of `Len` bits: an empty message is written as one byte.
pub fn message(record: &Record) -> Vec<u8> {
    let bits: usize = record["Len"].parse().expect("Len is a number");
    assert!(bits % 8 == 0, "Len is whole bytes");
    let mut message = bytes(record, "Msg");
    assert!(
        bits == 0 || message.len() == bits / 8,
        "Len is Msg's length"
    );
    message.truncate(bits / 8);
    message
}
