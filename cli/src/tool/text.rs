//! Text for a terminal of 80 columns.

use std::ffi::OsStr;
use std::os::unix::ffi::OsStrExt;

/// The columns of a terminal.
pub const COLUMNS: usize = 80;

/// The text in lines of at most 80 columns, each behind this indent.
pub fn wrapped(indent: &str, text: &str) -> String {
    let mut lines = String::new();
    let mut line = String::new();
    for word in text.split_whitespace() {
        let needed = indent.len() + line.chars().count() + 1 + word.chars().count();
        if !line.is_empty() && needed > COLUMNS {
            push_line(&mut lines, indent, &line);
            line.clear();
        }
        if !line.is_empty() {
            line.push(' ');
        }
        line.push_str(word);
    }
    push_line(&mut lines, indent, &line);
    lines
}

fn push_line(lines: &mut String, indent: &str, line: &str) {
    lines.push_str(indent);
    lines.push_str(line);
    lines.push('\n');
}

/// A number with a comma before every third digit from the end.
pub fn grouped(number: u64) -> String {
    let digits = number.to_string();
    let first = (digits.len() - 1) % 3 + 1;
    let (head, tail) = digits.split_at(first);
    let mut text = head.to_string();
    for (index, digit) in tail.char_indices() {
        if index % 3 == 0 {
            text.push(',');
        }
        text.push(digit);
    }
    text
}

/// The number and the noun, with an s unless there is one.
pub fn counted(number: usize, noun: &str) -> String {
    let ending = if number == 1 { "" } else { "s" };
    format!("{} {noun}{ending}", grouped(number as u64))
}

/// A name from outside, written as no other is: a byte that is no UTF-8 as
/// `\xff`, a backslash as two.
pub fn exact(name: impl AsRef<OsStr>) -> String {
    let mut text = String::new();
    for part in name.as_ref().as_bytes().utf8_chunks() {
        text += &part.valid().replace('\\', r"\\");
        text.extend(part.invalid().iter().map(|byte| format!("\\x{byte:02x}")));
    }
    text
}

/// The same for people, with control characters written out too: a name may be
/// made to clear a screen or to forge a line.
pub fn shown(name: impl AsRef<OsStr>) -> String {
    let mut text = String::new();
    for character in exact(name).chars() {
        match character.is_control() {
            true => text.extend(character.escape_default()),
            false => text.push(character),
        }
    }
    text
}

pub fn hexadecimal(bytes: &[u8]) -> String {
    bytes.iter().map(|byte| format!("{byte:02x}")).collect()
}

#[cfg(test)]
mod tests {
    use super::*;

    #[test]
    fn wraps_at_80_columns() {
        let text = "word ".repeat(40);
        for line in wrapped("   ", &text).lines() {
            assert!(line.starts_with("   word") && line.len() <= COLUMNS);
        }
    }

    #[test]
    fn line_of_80_columns_is_one() {
        let text = format!("{} {}", "a".repeat(40), "b".repeat(39));
        assert_eq!(wrapped("", &text), format!("{text}\n"));
        assert_eq!(wrapped(" ", &text).lines().count(), 2);
    }

    #[test]
    fn groups_digits() {
        let numbers = [0, 999, 1000, 65_536, 67_108_864];
        let texts = numbers.map(grouped);
        assert_eq!(texts, ["0", "999", "1,000", "65,536", "67,108,864"]);
    }

    #[test]
    fn tells_bytes_apart() {
        let name = OsStr::from_bytes(b"\xff\\xff\xe2\x82 \xe2\x82\xac\t");
        assert_eq!(exact(name), "\\xff\\\\xff\\xe2\\x82 \u{20ac}\t");
        assert_eq!(shown(name), "\\xff\\\\xff\\xe2\\x82 \u{20ac}\\t");
    }

    #[test]
    fn shows_all_but_control_characters() {
        let name = "a  b/\u{e9}\t\u{9b}\u{7f}\r";
        assert_eq!(shown(name), "a  b/\u{e9}\\t\\u{9b}\\u{7f}\\r");
    }

    #[test]
    fn counts_nouns() {
        assert_eq!(counted(1, "item"), "1 item");
        assert_eq!(counted(0, "item"), "0 items");
    }
}
