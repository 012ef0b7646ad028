//! The picture of what items cover, for a terminal of 80 columns.

use std::cmp::Ordering;
use std::fmt::Write;
use std::ops::Range;

use super::coverage::{Byte, Coverage, Log, Placed};
use super::item::Damage;
use super::reading::Reading;
use super::text::{COLUMNS, counted, grouped, wrapped};

/// The cells of a bar. A full log has 128 bytes for each, with the set of kind 1.
const CELLS: usize = 64;
const ITEMS_LISTED: usize = 12;
/// The columns of a listed item, where its numbers do not need more.
const ITEM_COLUMNS: usize = 25;
const GAPS_LISTED: usize = 6;
const NUMBERS_LISTED: usize = 8;

const LEGEND: &str = "\
Coverage of the logs. The covered bytes of a phase run from 0 on, and an item
that begins where they end covers its own; fillers and restarts have none. Each
cell of a bar stands for equally many bytes, give or take one: a-z the item at
its first byte (after z comes a), < if it begins below the covered end, > if
beyond, . no item, - an item on a part of the cell, * bytes that items share,
! the refused item.
";

/// Draws all logs, and tells what could not be drawn.
pub fn draw(reading: &Reading, refused: Option<u32>) -> String {
    let coverage = Coverage::of(reading.set, &reading.lengths, &reading.items);
    let mut text = LEGEND.to_string();
    if coverage.logs.is_empty() {
        text += "Nothing can be drawn: no log has a length.\n";
    }
    for log in &coverage.logs {
        text.push('\n');
        text += &draw_log(log, refused);
    }
    text.push('\n');
    text += &remarks(&coverage, reading.damage);
    text
}

/// A heading, the bar, the gaps, the items that begin elsewhere than at the
/// covered end, and the first items of one log.
pub fn draw_log(log: &Log, refused: Option<u32>) -> String {
    let refused = refused.map(|number| number as usize);
    let mut text = heading(log);
    if !log.bytes.is_empty() {
        text += &format!("  |{}|\n", bar(log, refused));
    }
    text += &gap_rows(&log.gaps());
    text += &side_rows(log, "below", Ordering::Less);
    text += &side_rows(log, "beyond", Ordering::Greater);
    text += &item_rows(&log.areas, refused);
    text
}

fn heading(log: &Log) -> String {
    format!(
        "Phase {}: {}, {} of {} covered\n",
        log.phase,
        counted(log.areas.len(), "item"),
        grouped(log.covered as u64),
        counted(log.bytes.len(), "byte"),
    )
}

fn bar(log: &Log, refused: Option<usize>) -> String {
    let length = log.bytes.len();
    let cells = CELLS.min(length);
    let cell = |index| index * length / cells..(index + 1) * length / cells;
    (0..cells)
        .map(|index| mark(log, cell(index), refused))
        .collect()
}

/// The mark of a cell of one byte or more.
fn mark(log: &Log, cell: Range<usize>, refused: Option<usize>) -> char {
    let bytes = &log.bytes[cell];
    let refused_byte = |byte: &Byte| match byte {
        Byte::One(index) => Some(log.areas[*index].item) == refused,
        _ => false,
    };
    let free = bytes.iter().filter(|byte| **byte == Byte::Free).count();
    match bytes[0] {
        _ if bytes.contains(&Byte::Shared) => '*',
        _ if bytes.iter().any(refused_byte) => '!',
        _ if free == bytes.len() => '.',
        Byte::One(index) if free == 0 => sign(index, &log.areas[index]),
        _ => '-',
    }
}

/// The letters run through the areas in order and start again after z.
fn sign(index: usize, area: &Placed) -> char {
    match area.begins {
        Ordering::Less => '<',
        Ordering::Equal => char::from(b'a' + (index % 26) as u8),
        Ordering::Greater => '>',
    }
}

fn gap_rows(gaps: &[Range<usize>]) -> String {
    let mut text = String::new();
    for gap in gaps.iter().take(GAPS_LISTED) {
        let length = counted(gap.len(), "byte");
        writeln!(text, "  gap: no item covers {} ({length})", span(gap)).expect("a string");
    }
    if gaps.len() > GAPS_LISTED {
        text += &format!("  and {}\n", counted(gaps.len() - GAPS_LISTED, "more gap"));
    }
    text
}

/// The items that begin on this side of the covered end, if there are any.
fn side_rows(log: &Log, side: &str, begins: Ordering) -> String {
    let items = log.beginning(begins);
    let words = format!("begin {side} the covered end: {}", numbered(&items));
    match items.is_empty() {
        true => String::new(),
        false => wrapped("  ", &words),
    }
}

fn span(bytes: &Range<usize>) -> String {
    format!("{}-{}", bytes.start, bytes.end - 1)
}

/// The first items, and the refused one wherever it is.
fn item_rows(areas: &[Placed], refused: Option<usize>) -> String {
    let is_refused = |area: &Placed| Some(area.item) == refused;
    let listed: Vec<String> = areas
        .iter()
        .enumerate()
        .filter(|(index, area)| *index < ITEMS_LISTED || is_refused(area))
        .map(|(index, area)| {
            let mark = match is_refused(area) {
                true => '!',
                false => sign(index, area),
            };
            format!("{mark} item {}: {}", area.item, span(&area.bytes))
        })
        .collect();
    let mut text = in_columns(&listed);
    if areas.len() > listed.len() {
        text += &format!(
            "  and {}\n",
            counted(areas.len() - listed.len(), "more item")
        );
    }
    text
}

/// As many side by side behind two spaces as 80 columns take.
fn in_columns(cells: &[String]) -> String {
    let widths = cells.iter().map(String::len);
    let width = widths.fold(ITEM_COLUMNS, usize::max);
    let in_a_row = (COLUMNS - 1) / (width + 1);
    let mut text = String::new();
    for row in cells.chunks(in_a_row) {
        let row: Vec<String> = row.iter().map(|cell| format!("{cell:<width$}")).collect();
        text += &format!("  {}\n", row.join(" ").trim_end());
    }
    text
}

/// The fillers, the restarts, the entries that are in no log, and the damage.
fn remarks(coverage: &Coverage, damage: Option<Damage>) -> String {
    let mut text = format!("Besides these: {}.\n", counted(coverage.fillers, "filler"));
    if !coverage.restarts.is_empty() {
        text += &wrapped("", &format!("Restarts: {}.", numbered(&coverage.restarts)));
    }
    if !coverage.outside.is_empty() {
        text += &wrapped("", &outside_sentence(&coverage.outside));
    }
    if let Some(damage) = damage {
        text += &wrapped("", &format!("Damaged from {damage}."));
    }
    text
}

fn outside_sentence(outside: &[usize]) -> String {
    format!(
        "Not drawn, with areas that lie in no log: {}.",
        numbered(outside)
    )
}

/// How many items these are, and the first numbers.
fn numbered(items: &[usize]) -> String {
    let listed = items.iter().take(NUMBERS_LISTED).map(usize::to_string);
    let listed: Vec<String> = listed.collect();
    let more = match items.len() > NUMBERS_LISTED {
        true => ", ...",
        false => "",
    };
    format!(
        "{} ({}{more})",
        counted(items.len(), "item"),
        listed.join(", ")
    )
}

#[cfg(test)]
mod tests {
    use super::super::coverage::tests::coverage;
    use super::super::reading::tests::{
        lengths, reading, reading_with, seal_file, seal_file_with, store,
    };
    use super::super::set::Set;
    use super::*;

    fn log_picture(length: u32, areas: &[(u8, u32, u32)], refused: Option<u32>) -> String {
        draw_log(&coverage(&[length], areas).logs[0], refused)
    }

    #[test]
    fn short_log_has_a_cell_for_each_byte() {
        let picture = log_picture(10, &[(1, 0, 4), (1, 4, 6)], None);
        let expected = "\
Phase 1: 2 items, 10 of 10 bytes covered
  |aaaabbbbbb|
  a item 0: 0-3             b item 1: 4-9
";
        assert_eq!(picture, expected);
    }

    #[test]
    fn gap_is_drawn_and_named() {
        let picture = log_picture(12, &[(1, 0, 4), (1, 9, 3)], None);
        let expected = "\
Phase 1: 2 items, 4 of 12 bytes covered
  |aaaa.....>>>|
  gap: no item covers 4-8 (5 bytes)
  begin beyond the covered end: 1 item (1)
  a item 0: 0-3             > item 1: 9-11
";
        assert_eq!(picture, expected);
    }

    /// The items behind it go on where the covered bytes end.
    #[test]
    fn item_below_the_covered_end_is_drawn_and_named() {
        let areas = [(1, 0, 4), (1, 4, 4), (1, 6, 4), (1, 8, 1), (1, 9, 3)];
        let picture = log_picture(12, &areas, None);
        let expected = "\
Phase 1: 5 items, 12 of 12 bytes covered
  |aaaabb****ee|
  begin below the covered end: 1 item (2)
  a item 0: 0-3             b item 1: 4-7             < item 2: 6-9
  d item 3: 8-8             e item 4: 9-11
";
        assert_eq!(picture, expected);
        let picture = log_picture(12, &areas[..3], None);
        assert!(picture.contains("  |aaaabb**<<..|\n"), "{picture}");
    }

    /// What comes later does not make an item cover its bytes.
    #[test]
    fn items_in_another_order_are_drawn() {
        let picture = log_picture(9, &[(1, 3, 3), (1, 0, 3), (1, 6, 3)], None);
        let expected = "\
Phase 1: 3 items, 3 of 9 bytes covered
  |bbb>>>>>>|
  begin beyond the covered end: 2 items (0, 2)
  > item 0: 3-5             b item 1: 0-2             > item 2: 6-8
";
        assert_eq!(picture, expected);
    }

    /// With the mark of the refused item, and named with the side it is on.
    #[test]
    fn refused_item_below_or_beyond_the_covered_end() {
        let picture = log_picture(8, &[(1, 0, 4), (1, 3, 3)], Some(1));
        assert!(picture.contains("  |aaa*!!..|\n"), "{picture}");
        let below = "  begin below the covered end: 1 item (1)\n";
        assert!(picture.contains(below), "{picture}");
        assert!(picture.contains("! item 1: 3-5"), "{picture}");
        let picture = log_picture(8, &[(1, 0, 4), (1, 5, 3)], Some(1));
        assert!(picture.contains("  |aaaa.!!!|\n"), "{picture}");
        let beyond = "  begin beyond the covered end: 1 item (1)\n";
        assert!(picture.contains(beyond), "{picture}");
        assert!(picture.contains("! item 1: 5-7"), "{picture}");
    }

    #[test]
    fn gap_of_one_byte_shows_in_a_full_log() {
        let mut areas: Vec<_> = (0..16).map(|index| (1, index * 512, 512)).collect();
        areas[5].2 = 511;
        let picture = log_picture(8192, &areas, None);
        let bar = format!("aaaabbbbccccddddeeeefff-{}", ">".repeat(40));
        assert!(picture.contains(&format!("|{bar}|")), "{picture}");
        assert!(picture.contains("gap: no item covers 3071-3071 (1 byte)"));
        assert!(picture.contains(": 10 items (6, 7, 8, 9, 10, 11, 12, 13, ...)"));
    }

    #[test]
    fn shared_and_refused_bytes_are_marked() {
        let areas = [(1, 0, 4), (1, 3, 3), (1, 4, 4)];
        let picture = log_picture(8, &areas, Some(2));
        assert!(picture.contains("|aaa***!!|"), "{picture}");
        assert!(picture.contains("! item 2: 4-7"));
    }

    /// With two bytes to a cell, the second one alone.
    #[test]
    fn one_byte_marks_its_cell() {
        let areas = [(1, 0, 4), (1, 3, 3), (1, 9, 1)];
        let picture = log_picture(128, &areas, Some(2));
        assert!(picture.contains("|a*<.!..."), "{picture}");
    }

    #[test]
    fn six_gaps_are_listed() {
        for (gaps, more) in [
            (6, None),
            (7, Some("  and 1 more gap")),
            (8, Some("  and 2 more gaps")),
        ] {
            let areas: Vec<_> = (0..gaps).map(|index| (1, 2 * index, 1)).collect();
            let picture = log_picture(2 * gaps, &areas, None);
            assert_eq!(picture.matches("gap: ").count(), 6, "{picture}");
            assert_eq!(picture.lines().find(|line| line.contains("more gap")), more);
        }
    }

    #[test]
    fn eight_numbers_are_listed() {
        let eight = numbered(&[0, 1, 2, 3, 4, 5, 6, 7]);
        assert_eq!(eight, "8 items (0, 1, 2, 3, 4, 5, 6, 7)");
        let nine = numbered(&[0, 1, 2, 3, 4, 5, 6, 7, 8]);
        assert_eq!(nine, "9 items (0, 1, 2, 3, 4, 5, 6, 7, ...)");
    }

    #[test]
    fn refused_item_is_listed_wherever_it_is() {
        let areas: Vec<_> = (0..40).map(|index| (1, index, 1)).collect();
        let picture = log_picture(40, &areas, Some(33));
        assert!(picture.contains("! item 33: 33-33"), "{picture}");
        assert!(picture.contains("and 27 more items"), "{picture}");
    }

    #[test]
    fn empty_log_has_no_bar() {
        let picture = log_picture(0, &[], None);
        let expected = "Phase 1: 0 items, 0 of 0 bytes covered\n";
        assert_eq!(picture, expected);
    }

    #[test]
    fn everything_fits_80_columns() {
        let entry = |index: u32| ((index % 9) as u8, index * 37 % 8192, index % 600);
        let areas: Vec<_> = (0..20_000).map(entry).collect();
        let mut seal = seal_file(&areas);
        seal.push(9);
        let picture = draw(&reading(&lengths(&[8192; 8]), &seal), Some(19_999));
        assert!(picture.lines().all(|line| line.len() <= 80), "{picture}");
        assert!(picture.contains("Not drawn"), "{picture}");
        assert!(picture.contains("begin below"), "{picture}");
        assert!(picture.contains("begin beyond"), "{picture}");
        assert!(picture.contains("Damaged from item 20000"), "{picture}");
    }

    /// The longest cells of kind 1 stand three in a row, longer ones two.
    #[test]
    fn items_stand_in_as_many_columns_as_fit() {
        for (item, bytes, rows) in [
            (1_636_800, 8191..8192, 4),
            (262_143, 61_440..65_536, 6),
            (2_684_353, 61_440..65_536, 6),
        ] {
            let begins = Ordering::Equal;
            let area = Placed {
                item,
                bytes,
                begins,
            };
            let text = item_rows(&vec![area; ITEMS_LISTED], None);
            assert_eq!(text.lines().count(), rows, "{text}");
            assert!(text.lines().all(|line| line.len() <= COLUMNS), "{text}");
        }
    }

    /// A full log of the longest entries, and one that is cut to its capacity.
    #[test]
    fn bars_follow_the_set() {
        let set = Set {
            tag_length: 16,
            data_limit: 4096,
            log_capacity: 65_536,
        };
        let areas: Vec<_> = (0..16).map(|index| (1, index * 4096, 4096)).collect();
        let picture = picture_with(set, &[65_536, 65_537], &areas);
        let bar = "aaaabbbbccccddddeeeeffffgggghhhhiiiijjjjkkkkllllmmmmnnnnoooopppp";
        assert!(picture.contains(&format!("|{bar}|")), "{picture}");
        let full = "Phase 1: 16 items, 65,536 of 65,536 bytes covered";
        assert!(picture.contains(full), "{picture}");
        let cut = "Phase 2: 0 items, 0 of 65,536 bytes covered";
        assert!(picture.contains(cut), "{picture}");
        assert!(
            picture.lines().all(|line| line.len() <= COLUMNS),
            "{picture}"
        );
    }

    /// The data limit is the set's, be it below that of kind 1 or above.
    #[test]
    fn areas_beyond_the_data_limit_are_not_drawn() {
        for data_limit in [1, 512, 4096] {
            let set = Set {
                data_limit,
                ..Set::COMMON
            };
            let areas = [(1, 0, data_limit), (1, data_limit, data_limit + 1)];
            let picture = picture_with(set, &[8192], &areas);
            let outside = "with areas that lie in no log: 1 item (1).\n";
            assert!(picture.ends_with(outside), "{picture}");
        }
    }

    fn picture_with(set: Set, numbers: &[u32], areas: &[(u8, u32, u32)]) -> String {
        let (lengths, seal) = (lengths(numbers), seal_file_with(set, areas));
        draw(&reading_with(&store(set), &lengths, &seal), None)
    }

    #[test]
    fn no_lengths_give_no_bars() {
        let picture = draw(&reading(&[1, 2], &seal_file(&[(1, 0, 1)])), None);
        assert!(picture.contains("Nothing can be drawn"), "{picture}");
    }
}
