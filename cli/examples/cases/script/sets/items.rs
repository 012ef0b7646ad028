//! Refusals 15 and 18 to 21 of the audit.

use pahyndoi::model::Set;

use super::audits::four_items;
use super::{SETS, one_key, set};
use crate::script::audits::Case;
use crate::script::{Script, Shape};

pub(super) fn groups(script: &mut Script) {
    ends_inside(script);
    data_lengths(script);
    areas(script);
    covered_ends(script);
    tags(script);
    tags_of_other_lengths(script);
}

/// Where the four items of `four_items` end.
fn ends(set: Set) -> [usize; 4] {
    let (entry, filler) = (set.entry_length(), set.filler_length());
    [entry, 2 * entry, 2 * entry + filler, 2 * (entry + filler)]
}

fn ends_inside(script: &mut Script) {
    for set in SETS {
        script.label_set(set, "15: each item one byte short; whole: 22");
        let case = four_items(script, set);
        for (number, end) in (0..).zip(ends(set)) {
            let cut = |length| case.but(|case| case.seal_file.truncate(length));
            script.expect((15, number), &cut(end - 1));
            let answer = if number == 3 { (0, 4) } else { (22, 0) };
            script.expect(answer, &cut(end));
        }
    }
}

fn data_lengths(script: &mut Script) {
    for set in SETS {
        script.label_set(set, "18: data of none, one above; the limit");
        let unused = Case::unused_of(script, one_key(set));
        let most = set.data_limit;
        for length in [0, most + 1] {
            let case = unused.with_items(&[set.log_capacity], &[Some((1, 0, length))]);
            script.expect((18, 0), &case);
        }
        let case = unused.with_items(&[most], &[Some((1, 0, most))]);
        script.expect((0, 1), &case);
    }
}

/// The log has as many bytes as it may.
fn areas(script: &mut Script) {
    for set in SETS {
        script.label_set(set, "18: the area ends beyond; at the capacity");
        let unused = Case::unused_of(script, one_key(set));
        let (most, capacity) = (set.data_limit, set.log_capacity);
        let begin = capacity - most;
        let at_the_end = if begin == 0 { (0, 1) } else { (20, 0) };
        for (offset, length, answer) in [
            (begin + 1, most, (18, 0)),
            (capacity, 1, (18, 0)),
            (begin, most, at_the_end),
        ] {
            let case = unused.with_items(&[capacity], &[Some((1, offset, length))]);
            script.expect(answer, &case);
        }
    }
}

/// A byte behind the longest data, where the log has room for it.
fn covered_ends(script: &mut Script) {
    for set in SETS {
        script.label_set(set, "19, 20: around the covered end");
        let unused = Case::unused_of(script, Shape::own(set, 1, 1, 2, 100));
        let most = set.data_limit;
        let length = (most + 2).min(set.log_capacity);
        for (offset, answer) in [(most - 1, (19, 1)), (most, (23, 0)), (most + 1, (20, 1))] {
            let items = [Some((1, 0, most)), Some((1, offset, 1))];
            let answer = if offset < length { answer } else { (18, 1) };
            script.expect(answer, &unused.with_items(&[length], &items));
        }
    }
}

fn tags(script: &mut Script) {
    for set in SETS {
        script.label_set(set, "21: last bytes of tags, first, of the data");
        let case = four_items(script, set);
        for (number, end) in (0..).zip(ends(set)) {
            let other = case.but(|case| case.seal_file[end - 1] ^= 1);
            script.expect((21, number), &other);
        }
        let first = case.but(|case| case.seal_file[18] ^= 128);
        script.expect((21, 0), &first);
        let last = (set.log_capacity + set.data_limit - 1) as usize;
        let data = case.but(|case| case.log_memory[last] ^= 1);
        script.expect((21, 0), &data);
        script.expect((0, 4), &case);
    }
}

/// The stores are alike but for the tag length.
fn tags_of_other_lengths(script: &mut Script) {
    script.label("kind 6: tags of 17 bytes where 16 are due, of 16 where 17");
    let [short, long] = [16, 17].map(|length| four_items(script, set(length, 8, 512)));
    let longer = short.but(|case| case.seal_file = long.seal_file.clone());
    script.expect((15, 1), &longer);
    let shorter = long.but(|case| case.seal_file = short.seal_file.clone());
    script.expect((21, 0), &shorter);
    script.expect((0, 4), &long);
    script.expect((0, 4), &short);
}
