//! Each refusal of the audit at its two sides.

use super::*;

/// What an audit reads, owned.
#[derive(Clone)]
pub(super) struct Case {
    pub(super) device_store: Vec<u8>,
    pub(super) auditor_store: Vec<u8>,
    pub(super) log_memory: Vec<u8>,
    pub(super) log_lengths: Vec<u32>,
    pub(super) seal_file: Vec<u8>,
}

impl Case {
    /// Items sealed with the first keys of a store: entries by phase, offset
    /// and data length, fillers by none. All chunks they begin are burned.
    pub(super) fn of(
        unused: Vec<u8>,
        log_lengths: &[u32],
        items: &[Option<(u8, u32, u32)>],
    ) -> Case {
        let header = Header::parse(&unused).expect("a store");
        let mut case = Case {
            device_store: unused.clone(),
            auditor_store: unused,
            log_memory: (0..header.log_memory_length())
                .map(|index| (index % 251) as u8)
                .collect(),
            log_lengths: log_lengths.to_vec(),
            seal_file: Vec::new(),
        };
        for (number, item) in items.iter().enumerate() {
            case.push(position(number as u32, header.ratchet), *item);
        }
        let burned = items.len().div_ceil(header.ratchet as usize);
        case.device_store[header.length()..][..32 * burned].fill(0);
        case
    }

    /// Adds an item with a right tag.
    pub(super) fn push(&mut self, position: Position, entry: Option<(u8, u32, u32)>) {
        let header = Header::parse(&self.auditor_store).expect("a store");
        let chunk = chunk(&self.auditor_store, position.chunk);
        let key = key_at(plain_hmac, chunk, position.offset, &header);
        let (head, data) = match entry {
            None => (Head::Filler { position }, &[][..]),
            Some((phase, offset, length)) => (
                Head::Entry {
                    phase,
                    offset,
                    length,
                    position,
                },
                self.data(&header, phase, offset, length),
            ),
        };
        let item = head.seal(&header, plain_hmac, &key, data);
        self.seal_file.extend(item.to_bytes());
    }

    /// The data in an area; none where it leaves the memory.
    fn data(&self, header: &Header, phase: u8, offset: u32, length: u32) -> &[u8] {
        let start = header.log_start(phase.max(1)) as u64 + u64::from(offset);
        let end = start + u64::from(length);
        let area = start as usize..end as usize;
        self.log_memory.get(area).unwrap_or_default()
    }

    pub(super) fn presented(&self) -> Presented<'_> {
        Presented {
            device_store: &self.device_store,
            auditor_store: &self.auditor_store,
            log_memory: &self.log_memory,
            log_lengths: &self.log_lengths,
            seal_file: &self.seal_file,
        }
    }

    /// The refusal and the number.
    pub(super) fn audit(&self) -> (u32, u32) {
        let answer = audit(plain_hmac, &self.presented());
        (answer.refusal, answer.number)
    }

    pub(super) fn changed(&self, change: impl Fn(&mut Case)) -> (u32, u32) {
        let mut case = self.clone();
        change(&mut case);
        case.audit()
    }
}

/// Two phases, three chunks, N = 2; four items, two chunks burned.
pub(super) fn four_items() -> Case {
    let items = [Some((1, 0, 5)), Some((2, 0, 3)), Some((1, 5, 2)), None];
    Case::of(store(2, 3, 2), &[7, 3], &items)
}

#[test]
fn accepted() {
    assert_eq!(four_items().audit(), (0, 4));
    assert_eq!(Case::of(store(1, 1, 1), &[0], &[]).audit(), (0, 0));
}

#[test]
fn refusals_2_to_5() {
    let case = four_items();
    assert_eq!(case.changed(|case| case.device_store[0] = 2), (2, 0));
    assert_eq!(case.changed(|case| case.device_store.push(1)), (2, 0));
    assert_eq!(case.changed(|case| case.log_memory.push(1)), (3, 0));
    assert_eq!(case.changed(|case| case.device_store[18] = 1), (4, 0));
    assert_eq!(case.changed(|case| case.log_lengths.push(0)), (5, 0));
    assert_eq!(case.changed(|case| case.log_lengths.truncate(1)), (5, 0));
    assert_eq!(case.changed(|case| case.log_lengths[1] = 8193), (5, 0));
    assert_eq!(case.changed(|case| case.log_lengths[1] = 8192), (23, 0));
}

#[test]
fn refusals_12_to_14() {
    let case = four_items();
    let last = case.device_store.len() - 1;
    assert_eq!(case.changed(|case| case.auditor_store.push(1)), (12, 0));
    assert_eq!(
        case.changed(|case| case.auditor_store[18..50].fill(0)),
        (12, 0)
    );
    assert_eq!(case.changed(|case| case.auditor_store[1] ^= 1), (13, 0));
    assert_eq!(case.changed(|case| case.auditor_store[9] = 3), (13, 0));
    assert_eq!(case.changed(|case| case.auditor_store[14] = 3), (13, 0));
    assert_eq!(case.changed(|case| case.device_store[82] ^= 1), (14, 0));
    assert_eq!(case.changed(|case| case.device_store[last] ^= 1), (14, 0));
    // A burned chunk's bytes in the auditor's store are the keys.
    assert_eq!(case.changed(|case| case.auditor_store[50] ^= 1), (21, 2));
}

#[test]
fn refusal_15() {
    let case = four_items();
    for kind in [0, 1, 4, 255] {
        assert_eq!(case.changed(|case| case.seal_file[150] = kind), (15, 3));
    }
    for length in [51, 99, 151, 190] {
        let number = length as u32 / 50;
        let answer = case.changed(|case| case.seal_file.truncate(length));
        assert_eq!(answer, (15, number), "{length} bytes");
    }
    assert_eq!(case.changed(|case| case.seal_file.push(0)), (15, 4));
}

#[test]
fn refusal_16() {
    let next = position(4, 2);
    assert_eq!(four_items().changed(|case| case.push(next, None)), (16, 4));
}

#[test]
fn refusal_17() {
    let case = four_items();
    for (index, number) in [(10, 0), (14, 0), (60, 1), (64, 1), (151, 3), (155, 3)] {
        let answer = case.changed(|case| case.seal_file[index] ^= 1);
        assert_eq!(answer, (17, number));
    }
    // The high bytes too.
    assert_eq!(case.changed(|case| case.seal_file[13] = 1), (17, 0));
}

#[test]
fn refusal_18() {
    for (item, expected) in [
        ((1, 0, 512), (0, 1)),
        ((0, 0, 512), (18, 0)),
        ((2, 0, 512), (18, 0)),
        ((1, 0, 0), (18, 0)),
        ((1, 1, 512), (18, 0)),
        ((1, 0, 513), (18, 0)),
        ((1, u32::MAX, 2), (18, 0)),
        ((1, u32::MAX, 1), (18, 0)),
    ] {
        let case = Case::of(store(1, 1, 1), &[512], &[Some(item)]);
        assert_eq!(case.audit(), expected, "{item:?}");
    }
    let long = Case::of(store(1, 1, 1), &[600], &[Some((1, 0, 513))]);
    assert_eq!(long.audit(), (18, 0));
}

/// One phase of 20 bytes, N = 3.
fn audit_in_one_phase(items: [Option<(u8, u32, u32)>; 3]) -> (u32, u32) {
    Case::of(store(1, 1, 3), &[20], &items).audit()
}

/// The covered bytes end at 5, then at 10.
#[test]
fn refusals_19_and_20_around_the_covered_end() {
    for (second, third, expected) in [
        ((1, 5, 10), (1, 15, 5), (0, 3)),
        ((1, 4, 11), (1, 15, 5), (19, 1)),
        ((1, 6, 9), (1, 15, 5), (20, 1)),
        ((1, 4, 1), (1, 5, 15), (19, 1)),
        ((1, 0, 1), (1, 5, 15), (19, 1)),
        ((1, 0, 5), (1, 5, 15), (19, 1)),
        ((1, 0, 20), (1, 5, 15), (19, 1)),
        ((1, 19, 1), (1, 5, 15), (20, 1)),
        ((1, 5, 5), (1, 10, 10), (0, 3)),
        ((1, 5, 5), (1, 9, 11), (19, 2)),
        ((1, 5, 5), (1, 11, 9), (20, 2)),
        ((1, 5, 5), (1, 5, 5), (19, 2)),
        ((1, 5, 5), (1, 0, 5), (19, 2)),
        ((1, 5, 5), (1, 2, 1), (19, 2)),
    ] {
        let items = [Some((1, 0, 5)), Some(second), Some(third)];
        assert_eq!(audit_in_one_phase(items), expected, "{second:?}, {third:?}");
    }
}

/// No entry is taken yet, whatever fillers are.
#[test]
fn refusal_20_of_the_first_entry() {
    let rest = [Some((1, 0, 20)), None];
    let audit = |first| audit_in_one_phase([first, rest[0], rest[1]]);
    assert_eq!(audit(None), (0, 3));
    for offset in [1, 2, 19] {
        assert_eq!(audit(Some((1, offset, 1))), (20, 0));
        assert_eq!(
            audit_in_one_phase([None, None, Some((1, offset, 1))]),
            (20, 2)
        );
    }
    assert_eq!(audit(Some((1, 0, 1))), (19, 1));
}

/// Together the areas are all bytes of the log, and none shares one.
#[test]
fn refusal_20_of_entries_in_another_order() {
    let areas = [Some((1, 0, 5)), Some((1, 5, 5)), Some((1, 10, 10))];
    for (order, expected) in [
        ([0, 1, 2], (0, 3)),
        ([0, 2, 1], (20, 1)),
        ([1, 0, 2], (20, 0)),
        ([1, 2, 0], (20, 0)),
        ([2, 0, 1], (20, 0)),
        ([2, 1, 0], (20, 0)),
    ] {
        assert_eq!(
            audit_in_one_phase(order.map(|index| areas[index])),
            expected
        );
    }
}

/// A filler covers nothing and is never out of order.
#[test]
fn fillers_between_entries() {
    for (third, expected) in [
        ((1, 4, 16), (19, 2)),
        ((1, 5, 15), (0, 3)),
        ((1, 6, 14), (20, 2)),
    ] {
        let items = [Some((1, 0, 5)), None, Some(third)];
        assert_eq!(audit_in_one_phase(items), expected);
    }
}

/// The covered bytes of phase 1 end at 4, those of phase 2 at 6 and those of
/// phase 3 at 0 where the last entry comes.
#[test]
fn each_phase_has_its_covered_end() {
    for (last, lengths, expected) in [
        ((1, 4, 2), [6, 6, 0], (0, 6)),
        ((1, 3, 2), [6, 6, 0], (19, 5)),
        ((1, 5, 1), [6, 6, 0], (20, 5)),
        ((1, 6, 1), [7, 6, 0], (20, 5)),
        ((2, 6, 2), [4, 8, 0], (0, 6)),
        ((2, 5, 2), [4, 8, 0], (19, 5)),
        ((2, 4, 2), [4, 8, 0], (19, 5)),
        ((2, 7, 1), [4, 8, 0], (20, 5)),
        ((3, 0, 2), [4, 6, 2], (0, 6)),
        ((3, 1, 1), [4, 6, 2], (20, 5)),
        ((3, 4, 1), [4, 6, 5], (20, 5)),
    ] {
        let items = [
            Some((2, 0, 3)),
            Some((1, 0, 1)),
            Some((2, 3, 3)),
            None,
            Some((1, 1, 3)),
            Some(last),
        ];
        let case = Case::of(store(3, 2, 3), &lengths, &items);
        assert_eq!(case.audit(), expected, "{last:?}");
    }
}

/// Items behind one refused by 19 or 20 may be anything, and so may its tag.
#[test]
fn nothing_behind_a_refused_entry_is_read() {
    for (offset, refusal) in [(4, 19), (6, 20)] {
        let items = [Some((1, 0, 5)), Some((1, offset, 1)), Some((1, 5, 15))];
        let case = Case::of(store(1, 1, 3), &[20], &items);
        let expected = (refusal, 1);
        assert_eq!(case.audit(), expected);
        assert_eq!(case.changed(|case| case.seal_file[68] ^= 1), expected);
        assert_eq!(case.changed(|case| case.seal_file[99] ^= 1), expected);
        assert_eq!(case.changed(|case| case.seal_file[100] = 0), expected);
        assert_eq!(case.changed(|case| case.seal_file[110] = 9), expected);
        assert_eq!(case.changed(|case| case.seal_file.truncate(101)), expected);
        assert_eq!(case.changed(|case| case.seal_file.truncate(100)), expected);
        // What stands before it is read first.
        assert_eq!(case.changed(|case| case.seal_file[49] ^= 1), (21, 0));
    }
}

/// An area that ends at its phase's length may begin anywhere, as far as 18
/// goes; one byte further it may not.
#[test]
fn refusal_18_before_19_and_20() {
    for (offset, length, expected) in [
        (4, 4, (19, 1)),
        (4, 5, (18, 1)),
        (6, 2, (20, 1)),
        (6, 3, (18, 1)),
        (0, 8, (19, 1)),
        (0, 9, (18, 1)),
        (7, 1, (20, 1)),
        (8, 1, (18, 1)),
        (u32::MAX, 1, (18, 1)),
        (u32::MAX, 6, (18, 1)),
        (u32::MAX - 2, 8, (18, 1)),
    ] {
        let items = [Some((1, 0, 5)), Some((1, offset, length))];
        let case = Case::of(store(1, 1, 2), &[8], &items);
        assert_eq!(case.audit(), expected, "{length} bytes at {offset}");
    }
}

#[test]
fn refusal_21() {
    let case = four_items();
    for (index, number) in [(18, 0), (49, 0), (99, 1), (159, 3), (190, 3)] {
        let answer = case.changed(|case| case.seal_file[index] ^= 1);
        assert_eq!(answer, (21, number));
    }
    for (index, number) in [(0, 0), (4, 0), (5, 2), (8192, 1)] {
        let answer = case.changed(|case| case.log_memory[index] ^= 1);
        assert_eq!(answer, (21, number));
    }
    // A byte beyond the lengths is in no message.
    assert_eq!(case.changed(|case| case.log_memory[7] ^= 1), (0, 4));
}

#[test]
fn refusal_22() {
    let case = four_items();
    assert_eq!(case.changed(|case| case.seal_file.truncate(150)), (22, 0));
    assert_eq!(case.changed(|case| case.seal_file.clear()), (22, 0));
}

#[test]
fn refusal_23() {
    let case = four_items();
    assert_eq!(case.changed(|case| case.log_lengths[0] = 8), (23, 0));
    assert_eq!(case.changed(|case| case.log_lengths[1] = 4), (23, 0));
    // A byte is missing in front of the last entry, then behind it.
    for (offset, expected) in [(1, (20, 0)), (0, (23, 0))] {
        let case = Case::of(store(1, 1, 1), &[2], &[Some((1, offset, 1))]);
        assert_eq!(case.audit(), expected);
    }
}

#[test]
fn the_first_refusal_counts() {
    let case = four_items();
    let both = |one: fn(&mut Case), other: fn(&mut Case)| {
        case.changed(|case| {
            one(case);
            other(case);
        })
    };
    let shorten: fn(&mut Case) = |case| case.log_lengths[0] = 0;
    assert_eq!(both(shorten, |case| case.seal_file[18] ^= 1), (18, 0));
    assert_eq!(both(shorten, |case| case.seal_file[10] ^= 1), (17, 0));
    assert_eq!(both(shorten, |case| case.auditor_store[1] ^= 1), (13, 0));
    // An item is done before the next.
    let late: fn(&mut Case) = |case| case.seal_file[100] = 9;
    assert_eq!(both(late, |case| case.seal_file[99] ^= 1), (21, 1));
}

#[test]
fn packed_answers() {
    let case = four_items();
    let packed = |length_bytes: &[u8]| audit_packed(plain_hmac, &case.presented(), length_bytes);
    assert_eq!(packed(&[7, 0, 0, 0, 3, 0, 0, 0]), 4);
    assert_eq!(packed(&[6, 0, 0, 0, 3, 0, 0, 0]), (18 << 32) + 2);
    for count in [0, 1, 4, 7, 9, 12] {
        assert_eq!(packed(&vec![0; count]), 5 << 32, "{count} bytes");
    }
}
