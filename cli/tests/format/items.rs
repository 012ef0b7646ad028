//! Section 3: the items have the kinds, the sizes and the ratchet offsets that the
//! header defines, so that firmware finds the last one of a seal file.

use crate::page;

const ITEMS: u32 = 3;
const FIELDS: &str = "| byte | width | field | range |";
const HEADER: &str = include_str!("../../../include/pahyndoi.h");

/// The tags of kind 1.
const TAG_LENGTH: u32 = 32;

/// The number that the header defines by this name.
fn defined(name: &str) -> u32 {
    let define = format!("#define PAHYNDOI_{name} ");
    let mut lines = HEADER.lines().filter_map(|line| line.strip_prefix(&define));
    let number = lines.next().expect(name);
    number.parse().expect("a number")
}

/// The byte at which a field of the item begins, and its range.
fn field(item: &str, name: &str) -> (u32, &'static str) {
    let title = format!("**{item}**, ");
    let (_, text) = page::section(ITEMS).split_once(&title).expect("an item");
    let rows = page::table(text, FIELDS);
    let row = rows
        .into_iter()
        .find(|row| row[2] == name)
        .expect("a field");
    (row[0].parse().expect("a number"), row[3])
}

#[test]
fn items_are_those_of_the_header() {
    for (item, name) in [
        ("Entry", "ENTRY"),
        ("Filler", "FILLER"),
        ("Restart item", "RESTART"),
    ] {
        let (place, kind) = field(item, "kind");
        assert_eq!(
            (place, kind),
            (0, &*defined(&format!("{name}_KIND")).to_string())
        );
        let (place, _) = field(item, "ratchet offset");
        assert_eq!(place, defined(&format!("{name}_OFFSET_PLACE")));
        assert_eq!(field(item, "chunk number").0, place - 4);
        let (head, _) = field(item, "tag");
        assert_eq!(head + TAG_LENGTH, defined(&format!("{name}_SIZE")));
        let of_every_set = format!("PAHYNDOI_{name}_SIZE_OF(tag_length) ({head}u + (tag_length))");
        assert!(HEADER.contains(&of_every_set), "{of_every_set}");
    }
}

/// An entry has two offsets: that of its data in the log has a name of its own.
#[test]
fn log_offset_is_not_the_ratchet_offset() {
    let (place, _) = field("Entry", "log offset");
    assert_eq!(place, defined("ENTRY_LOG_OFFSET_PLACE"));
    assert_ne!(place, defined("ENTRY_OFFSET_PLACE"));
}
