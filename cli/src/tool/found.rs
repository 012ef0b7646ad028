//! The item that sealed a byte, in words and for machines.

use super::detail::item_sentence;
use super::excerpt::Excerpt;
use super::item::{Area, Item};
use super::json::Value;
use super::text::{grouped, hexadecimal, wrapped};

const DATA_HEADING: &str =
    "Its data, each row behind its offset in the log; ^ marks the byte asked for:";

pub struct Found<'a> {
    pub item: &'a Item,
    pub area: Area,
    /// All that the item sealed.
    pub data: &'a [u8],
    /// The offset asked for.
    pub offset: u32,
}

impl Found<'_> {
    /// In lines of at most 80 columns.
    pub fn words(&self) -> String {
        let answer = format!(
            "Item {} sealed the byte at offset {} of phase {}.",
            self.item.number,
            grouped(self.offset.into()),
            self.area.phase
        );
        let excerpt = Excerpt {
            bytes: self.data,
            offset: self.area.offset as usize,
            marked: self.index(),
        };
        [
            wrapped("", &answer),
            wrapped("  ", &item_sentence(self.item)),
            format!("\n{DATA_HEADING}\n"),
            format!("\n{}", excerpt.text()),
            format!("\n{}", excerpt.hexadecimal()),
        ]
        .concat()
    }

    /// Text that is not UTF-8 is null.
    fn data_json(&self) -> Value {
        let text = std::str::from_utf8(self.data).ok();
        Value::Object(vec![
            ("text", text.map_or(Value::Null, Value::text)),
            ("hexadecimal", Value::Text(hexadecimal(self.data))),
            ("index", Value::Number(self.index() as u64)),
        ])
    }

    /// Which of the data the byte asked for is, counted from 0.
    fn index(&self) -> usize {
        (self.offset - self.area.offset) as usize
    }
}

/// The item's place in the seal file, chunk number, ratchet offset, area and
/// data, null where none is found.
pub fn members(found: Option<&Found>) -> [(&'static str, Value); 5] {
    let item = found.map(|found| found.item);
    let place = item.map(|item| item.place.start as u64);
    [
        ("place", Value::number(place)),
        ("chunk", Value::number(item.map(|item| item.chunk))),
        ("ratchet", Value::number(item.map(|item| item.ratchet))),
        ("area", found.map_or(Value::Null, |found| found.area.json())),
        ("data", found.map_or(Value::Null, Found::data_json)),
    ]
}
