//! Entries with right tags, and what an audit answers.

use pahyndoi::model::Set;

use crate::areas::Area;

pub struct Row {
    pub name: &'static str,
    pub lengths: Vec<u32>,
    pub areas: Vec<Option<Area>>,
    /// The refusal and the number.
    pub answer: (u32, u32),
}

fn row(name: &'static str, lengths: &[u32], areas: &[Area], answer: (u32, u32)) -> Row {
    Row {
        name,
        lengths: lengths.to_vec(),
        areas: areas.iter().copied().map(Some).collect(),
        answer,
    }
}

/// The same with fillers among the entries, as none.
fn row_with_fillers(
    name: &'static str,
    lengths: &[u32],
    areas: &[Option<Area>],
    answer: (u32, u32),
) -> Row {
    Row {
        areas: areas.to_vec(),
        ..row(name, lengths, &[], answer)
    }
}

/// Those for a store with this set.
pub fn rows(set: Set) -> Vec<Row> {
    let length = set.data_limit.min(5);
    [
        range_rows(set),
        end_rows(set),
        full_rows(set),
        first_rows(set),
        second_rows(length),
        third_rows(length),
        phase_rows(length),
        filler_rows(length),
        order_rows(),
    ]
    .into_iter()
    .flatten()
    .collect()
}

fn range_rows(set: Set) -> Vec<Row> {
    let limit = set.data_limit;
    let longer = (limit + 88).min(set.log_capacity);
    let one = |name, area, answer| row(name, &[longer], &[area], answer);
    vec![
        row("whole log", &[limit], &[(1, 0, limit)], (0, 1)),
        row("a byte beyond", &[limit - 1], &[(1, 0, limit)], (18, 0)),
        one("data one byte too long", (1, 0, limit + 1), (18, 0)),
        one("no data", (1, 0, 0), (18, 0)),
        one("phase 0", (0, 0, 1), (18, 0)),
        one("phase 2 of 1", (2, 0, 1), (18, 0)),
        one("end at 2 to the 32", (1, u32::MAX, 1), (18, 0)),
        one("end beyond 2 to the 32", (1, u32::MAX, 2), (18, 0)),
        one("length wraps", (1, 5, u32::MAX), (18, 0)),
        one("high bit of the offset", (1, 1 << 31, 1), (18, 0)),
    ]
}

/// At the end of the log, and at the place where the next one begins.
fn end_rows(set: Set) -> Vec<Row> {
    let (limit, end) = (set.data_limit, set.log_capacity);
    // A longer log than its place allows is refused before that.
    let left = if limit < end { (23, 0) } else { (5, 0) };
    let last = if limit < end { (20, 0) } else { (23, 0) };
    let both = |name, area, answer| row(name, &[end, end], &[area], answer);
    vec![
        row("a byte left", &[limit + 1], &[(1, 0, limit)], left),
        row("log too long", &[end + 1], &[(1, 0, limit)], (5, 0)),
        row("second too long", &[0, end + 1], &[(2, 0, limit)], (5, 0)),
        both("last byte", (1, end - 1, 1), (20, 0)),
        both("last bytes", (1, end - limit, limit), last),
        both("one byte behind", (1, end, 1), (18, 0)),
        both("into the next log", (1, end - limit + 1, limit), (18, 0)),
        both("behind the last log", (2, end, 1), (18, 0)),
    ]
}

/// The most entries that fill a log here.
const FILLING: u32 = 20;

/// A log filled by as few entries as can, where these are not too many, and a
/// byte at its end once more, and behind it.
fn full_rows(set: Set) -> Vec<Row> {
    let (limit, end) = (set.data_limit, set.log_capacity);
    let count = end.div_ceil(limit);
    if count > FILLING {
        return Vec::new();
    }
    let begins = (0..count).map(|number| number * limit);
    let full: Vec<Area> = begins
        .map(|begin| (1, begin, limit.min(end - begin)))
        .collect();
    let with = |area| [&full[..], &[area]].concat();
    vec![
        row("full log", &[end], &full, (0, count)),
        row("on its end", &[end], &with((1, end - 1, 1)), (19, count)),
        row("behind its end", &[end], &with((1, end, 1)), (18, count)),
    ]
}

/// Nothing is covered yet.
fn first_rows(set: Set) -> Vec<Row> {
    let limit = set.data_limit;
    let length = (limit + 1).min(set.log_capacity);
    vec![
        row("first at 1", &[2], &[(1, 1, 1)], (20, 0)),
        row("first at 2", &[3], &[(1, 2, 1)], (20, 0)),
        row(
            "first at 1, to the end",
            &[length],
            &[(1, 1, length - 1)],
            (20, 0),
        ),
        row("first at 0", &[1], &[(1, 0, 1)], (0, 1)),
    ]
}

/// Bytes are covered up to `n`.
fn second_rows(n: u32) -> Vec<Row> {
    let second = |name, offset, answer| {
        let areas = [(1, 0, n), (1, offset, n), (1, 2 * n, n)];
        row(name, &[3 * n], &areas, answer)
    };
    vec![
        second("at the end", n, (0, 3)),
        second("one below the end", n - 1, (19, 1)),
        second("one beyond the end", n + 1, (20, 1)),
        second("at 0 again", 0, (19, 1)),
        second("as the third", 2 * n, (20, 1)),
        second("behind the third", 3 * n, (18, 1)),
    ]
}

/// Bytes are covered up to twice `n`.
fn third_rows(n: u32) -> Vec<Row> {
    let third = |name, offset, length, answer| {
        let areas = [(1, 0, n), (1, n, n), (1, offset, length)];
        row(name, &[3 * n], &areas, answer)
    };
    vec![
        third("one below twice", 2 * n - 1, n, (19, 2)),
        third("one below, to the end", 2 * n - 1, 1, (19, 2)),
        third(
            "one beyond twice",
            2 * n + 1,
            n - 1,
            if n > 1 { (20, 2) } else { (18, 2) },
        ),
        third("as the one before", n, n, (19, 2)),
        third("as the first", 0, n, (19, 2)),
        third("within the first", n / 2, 1, (19, 2)),
        third("within the one before", n + n / 2, 1, (19, 2)),
        third(
            "a byte short",
            2 * n,
            n - 1,
            if n > 1 { (23, 0) } else { (18, 2) },
        ),
    ]
}

/// Each phase has an end of its own.
fn phase_rows(n: u32) -> Vec<Row> {
    let last = |name, offset, answer| {
        let areas = [(1, 0, n), (2, 0, n), (1, n, n), (2, offset, n)];
        row(name, &[2 * n, 2 * n + 1], &areas, answer)
    };
    let third = |name, lengths: [u32; 3], area, answer| {
        row(name, &lengths, &[(1, 0, n), (3, 0, n), area], answer)
    };
    vec![
        row("in turns", &[n, n], &[(1, 0, n), (2, 0, n)], (0, 2)),
        last("in turns, a byte left", n, (23, 0)),
        last("one below in turns", n - 1, (19, 3)),
        last("one beyond in turns", n + 1, (20, 3)),
        last("at 0 in turns", 0, (19, 3)),
        third("the first in the second", [n, n, n], (2, 0, n), (0, 3)),
        third(
            "the second in the second",
            [n, 2 * n, n],
            (2, n, n),
            (20, 2),
        ),
        third(
            "beyond the third",
            [n, n, 2 * n + 1],
            (3, n + 1, n),
            (20, 2),
        ),
        third("below the third", [n, n, 2 * n], (3, n - 1, n), (19, 2)),
    ]
}

/// A filler has no area.
fn filler_rows(n: u32) -> Vec<Row> {
    let third = |name, offset, answer| {
        let areas = [Some((1, 0, n)), None, Some((1, offset, n))];
        row_with_fillers(name, &[2 * n + 1], &areas, answer)
    };
    let behind = |name, lengths: [u32; 1], offset, answer| {
        row_with_fillers(name, &lengths, &[None, Some((1, offset, n))], answer)
    };
    vec![
        behind("behind a filler", [n], 0, (0, 2)),
        behind("behind a filler at 1", [n + 1], 1, (20, 1)),
        third("a filler between", n, (23, 0)),
        third("one below, a filler between", n - 1, (19, 2)),
        third("one beyond, a filler between", n + 1, (20, 2)),
    ]
}

/// Single bytes of 17 that together are all of the log, in other orders than
/// the rising one.
fn order_rows() -> Vec<Row> {
    let rising: Vec<Area> = (0..17).map(|offset| (1, offset, 1)).collect();
    let ordered = |change: fn(&mut [Area])| {
        let mut areas = rising.clone();
        change(&mut areas);
        areas
    };
    let one = |name, change, answer| row(name, &[17], &ordered(change), answer);
    let first_last = ordered(|areas| areas.rotate_left(1));
    let of_phase_2 = first_last.iter().map(|area| (2, area.1, area.2));
    let second = [&rising[..], &of_phase_2.collect::<Vec<Area>>()].concat();
    vec![
        one("rising", |_| (), (0, 17)),
        one("the first last", |areas| areas.rotate_left(1), (20, 0)),
        one("the last first", |areas| areas.rotate_right(1), (20, 0)),
        one("falling", |areas| areas.reverse(), (20, 0)),
        one("the first two exchanged", |areas| areas.swap(0, 1), (20, 0)),
        one("two exchanged", |areas| areas.swap(8, 9), (20, 8)),
        one(
            "two far apart exchanged",
            |areas| areas.swap(5, 14),
            (20, 5),
        ),
        one(
            "the last two exchanged",
            |areas| areas.swap(15, 16),
            (20, 15),
        ),
        row("the first last in phase 2", &[17, 17], &second, (20, 17)),
    ]
}
