//! The items of a seal file, as a table and for machines.

use std::io::Write;

use super::super::Status;
use super::super::failure::Failure;
use super::super::item::{Content, Damage, Item, items};
use super::super::json::{Value, comma};
use super::super::set::Set;
use super::super::text::{counted, hexadecimal, wrapped};

const TAG_SHOWN: usize = 4;
const HEADING: &str = "   item  kind    phase      offset      length       chunk     ratchet  tag";

/// Reads the items by this set; without one, by that of kind 1.
pub fn table(seal_file: &[u8], set: Option<Set>, out: &mut dyn Write) -> Result<Status, Failure> {
    let mut count = 0;
    writeln!(out, "{HEADING}")?;
    for item in items(set.unwrap_or(Set::COMMON), seal_file) {
        match item {
            Ok(item) => writeln!(out, "{}", row(&item))?,
            Err(damage) => {
                let text = damage_words(damage, set);
                out.write_all(wrapped("", &text).as_bytes())?;
                return Ok(Status::Refused);
            }
        }
        count += 1;
    }
    writeln!(
        out,
        "{} in {}.",
        counted(count, "item"),
        counted(seal_file.len(), "byte")
    )?;
    Ok(Status::Done)
}

/// One object, written item by item: there may be millions of them.
pub fn json(seal_file: &[u8], set: Option<Set>, out: &mut dyn Write) -> Result<Status, Failure> {
    let read_by = set.unwrap_or(Set::COMMON);
    let (mut status, mut detail) = (Status::Done, Value::Null);
    write!(
        out,
        "{{\"content\":\"seal\",\"set\":{},\"items\":[",
        read_by.json()
    )?;
    for item in items(read_by, seal_file) {
        match item {
            Ok(item) => write!(out, "{}{}", comma(item.number), item_json(&item))?,
            Err(damage) => {
                status = Status::Refused;
                detail = Value::Text(damage_words(damage, set));
            }
        }
    }
    writeln!(out, "],\"detail\":{detail}}}")?;
    Ok(status)
}

/// The area is null but of an entry, the number but of a restart.
fn item_json(item: &Item) -> Value {
    let area = item.area().map_or(Value::Null, |area| area.json());
    Value::Object(vec![
        ("item", Value::Number(item.number as u64)),
        ("kind", Value::text(item.content.kind())),
        ("place", Value::Number(item.place.start as u64)),
        ("chunk", Value::Number(item.chunk.into())),
        ("ratchet", Value::Number(item.ratchet.into())),
        ("area", area),
        ("number", Value::number(item.restart())),
        ("tag", Value::Text(hexadecimal(&item.tag))),
    ])
}

/// Tags of another length look like damage.
fn damage_words(damage: Damage, set: Option<Set>) -> String {
    let Set { tag_length, .. } = Set::COMMON;
    match set {
        Some(_) => format!("Damaged from {damage}."),
        None => format!(
            "Without --store, tags are read as of {tag_length} bytes. Damaged from {damage}."
        ),
    }
}

/// A restart has its number where the others have offset and length.
fn row(item: &Item) -> String {
    let [phase, middle] = match item.content {
        Content::Entry(area) => [
            area.phase.to_string(),
            format!("{:>10}  {:>10}", area.offset, area.length),
        ],
        Content::Filler => ["-".into(), format!("{:>10}  {:>10}", "-", "-")],
        Content::Restart(number) => ["-".into(), format!("{:>22}", format!("number {number}"))],
    };
    format!(
        "{:>7}  {:<7} {phase:>5}  {middle}  {:>10}  {:>10}  {}",
        item.number,
        item.content.kind(),
        item.chunk,
        item.ratchet,
        hexadecimal(&item.tag[..TAG_SHOWN])
    )
}

#[cfg(test)]
mod tests {
    use super::super::super::item::Area;
    use super::*;

    #[test]
    fn widest_rows_fit_80_columns() {
        let area = Area {
            phase: 255,
            offset: u32::MAX,
            length: u32::MAX,
        };
        let contents = [
            Content::Entry(area),
            Content::Filler,
            Content::Restart(u32::MAX),
        ];
        for content in contents {
            let item = Item {
                number: 1_636_801,
                place: 0..50,
                content,
                chunk: u32::MAX,
                ratchet: u32::MAX,
                tag: vec![0xff; 32],
            };
            assert_eq!(row(&item).len(), 80);
        }
    }
}
