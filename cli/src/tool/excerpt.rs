//! Bytes of a log in rows, as text and in hexadecimal, one of them marked.

use std::ops::Range;

/// The columns of a row of text.
const TEXT_COLUMNS: usize = 64;
/// The bytes of a row in hexadecimal.
const BYTES_IN_A_ROW: usize = 16;

pub struct Excerpt<'a> {
    pub bytes: &'a [u8],
    /// Where the first of them stands in the log.
    pub offset: usize,
    /// The index of the marked one.
    pub marked: usize,
}

/// How a row is written.
struct Form {
    byte: fn(u8) -> String,
    between: &'static str,
    /// Before the first byte and after the last.
    edge: &'static str,
}

const TEXT: Form = Form {
    byte: escaped,
    between: "",
    edge: "|",
};

const HEXADECIMAL: Form = Form {
    byte: |byte| format!("{byte:02x}"),
    between: " ",
    edge: "",
};

impl Excerpt<'_> {
    /// Rows of text, each behind the offset of its first byte.
    pub fn text(&self) -> String {
        let rows = lines(self.bytes).into_iter();
        rows.map(|row| self.row(&TEXT, row)).collect()
    }

    /// Rows of 16 bytes, each behind the offset of its first byte.
    pub fn hexadecimal(&self) -> String {
        let length = self.bytes.len();
        let starts = (0..length).step_by(BYTES_IN_A_ROW);
        starts
            .map(|start| start..length.min(start + BYTES_IN_A_ROW))
            .map(|row| self.row(&HEXADECIMAL, row))
            .collect()
    }

    /// The row, and below it the mark if the marked byte is in it.
    fn row(&self, form: &Form, row: Range<usize>) -> String {
        let bytes = self.bytes[row.clone()].iter();
        let cells: Vec<String> = bytes.map(|byte| (form.byte)(*byte)).collect();
        let (offset, columns) = (self.offset + row.start, self.offset_columns());
        let head = format!("  {offset:>columns$}  {}", form.edge);
        let mut text = format!("{head}{}{}\n", cells.join(form.between), form.edge);
        if row.contains(&self.marked) {
            let (before, from) = cells.split_at(self.marked - row.start);
            let widths = before.iter().map(|cell| cell.len() + form.between.len());
            let column = head.len() + widths.sum::<usize>();
            text += &format!("{:column$}{}\n", "", "^".repeat(from[0].len()));
        }
        text
    }

    /// Four, or more where the last offset needs them.
    fn offset_columns(&self) -> usize {
        let end = self.offset + self.bytes.len();
        end.saturating_sub(1).to_string().len().max(4)
    }
}

/// The rows of a text: a row ends with its line, or before the byte that has
/// no room in it.
fn lines(bytes: &[u8]) -> Vec<Range<usize>> {
    let mut rows: Vec<Range<usize>> = Vec::new();
    let mut columns = 0;
    for (index, byte) in bytes.iter().enumerate() {
        columns += escaped(*byte).len();
        let line_goes_on = index > 0 && bytes[index - 1] != b'\n';
        match rows.last_mut() {
            Some(row) if line_goes_on && columns <= TEXT_COLUMNS => row.end += 1,
            _ => {
                rows.push(index..index + 1);
                columns = escaped(*byte).len();
            }
        }
    }
    rows
}

/// Printable ASCII as it is, but a backslash as two; any other byte behind a
/// backslash. It may be made to clear a screen or to forge a line.
fn escaped(byte: u8) -> String {
    match byte {
        b'\'' | b'"' => char::from(byte).to_string(),
        _ => byte.escape_ascii().to_string(),
    }
}

#[cfg(test)]
mod tests {
    use super::*;

    fn excerpt(bytes: &[u8], offset: usize, marked: usize) -> Excerpt<'_> {
        Excerpt {
            bytes,
            offset,
            marked,
        }
    }

    #[test]
    fn short_text_is_a_row() {
        let excerpt = excerpt(b"07:00  82\n", 140, 8);
        let expected = "   140  |07:00  82\\n|\n                 ^\n";
        assert_eq!(excerpt.text(), expected);
        let expected =
            "   140  30 37 3a 30 30 20 20 38 32 0a\n                                ^^\n";
        assert_eq!(excerpt.hexadecimal(), expected);
    }

    #[test]
    fn bytes_are_told_apart() {
        let texts: Vec<String> = (0..=255).map(escaped).collect();
        for (index, text) in texts.iter().enumerate() {
            assert!(text.bytes().all(|byte| (b' '..=b'~').contains(&byte)));
            assert_eq!(text.len() > 1, text.starts_with('\\'));
            assert!(!texts[..index].contains(text));
        }
        let some = [b'\\', b'|', b'"', b'\'', 0, b'\t', 0x7f, 0xe9].map(escaped);
        let expected = [r"\\", "|", "\"", "'", r"\x00", r"\t", r"\x7f", r"\xe9"];
        assert_eq!(some, expected);
    }

    #[test]
    fn whole_escape_is_marked() {
        let text = excerpt(b"a\xffb", 0, 1).text();
        assert_eq!(text, "     0  |a\\xffb|\n          ^^^^\n");
    }

    /// Where the rows of the text end; each begins at the end of the one before.
    fn ends(bytes: &[u8]) -> Vec<usize> {
        let rows = lines(bytes);
        let starts = rows.iter().map(|row| row.start);
        let ends: Vec<usize> = rows.iter().map(|row| row.end).collect();
        assert!(starts.eq([0].iter().chain(&ends).take(ends.len()).copied()));
        ends
    }

    #[test]
    fn rows_end_with_their_lines() {
        assert_eq!(ends(b"\nab\n\nc"), [1, 4, 5, 6]);
        assert_eq!(ends(b"ab\n"), [3]);
        assert_eq!(ends(b""), []);
    }

    #[test]
    fn rows_have_64_columns() {
        assert_eq!(ends(&[b'a'; 64]), [64]);
        assert_eq!(ends(&[b'a'; 65]), [64, 65]);
        assert_eq!(ends(&[0; 33]), [16, 32, 33]);
        let escape_without_room = [&[b'a'; 61][..], &[0]].concat();
        assert_eq!(ends(&escape_without_room), [61, 62]);
    }

    /// Rows before byte 10,000 stand as far to the right as those behind it.
    #[test]
    fn offsets_of_five_digits_keep_their_columns() {
        let text = excerpt(&[b'a'; 20], 9990, 16).hexadecimal();
        let rows: Vec<&str> = text.lines().collect();
        assert!(rows[0].starts_with("   9990  61 61"), "{text}");
        assert!(rows[1].starts_with("  10006  61 61"), "{text}");
        assert_eq!(rows[2], "         ^^");
        assert!(
            excerpt(&[b'a'; 10], 9990, 0)
                .text()
                .starts_with("  9990  |")
        );
        let text = excerpt(&[b'a'; 64], 65_472, 63).text();
        assert!(text.lines().all(|line| line.len() <= 80), "{text}");
    }

    /// First and last byte of each row: one mark, below the row that has it.
    #[test]
    fn mark_is_below_its_byte() {
        let bytes: Vec<u8> = (0..40).map(|index| b'A' + index).collect();
        for marked in [0, 15, 16, 31, 32, 39] {
            let text = excerpt(&bytes, 8152, marked).hexadecimal();
            let rows: Vec<&str> = text.lines().collect();
            let mark = rows.iter().position(|row| row.contains('^')).unwrap();
            assert_eq!((rows.len(), mark), (4, marked / 16 + 1));
            let column = rows[mark].find("^^").unwrap();
            let byte = &rows[mark - 1][column..column + 2];
            assert_eq!(byte, format!("{:02x}", bytes[marked]));
        }
    }
}
