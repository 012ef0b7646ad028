//! Restarts in a seal file: where they are taken, and each thing about them
//! that is wrong.

use pahyndoi::model::{Head, Item, Position, chunk, key_at, plain_hmac};

use super::Case;
use crate::script::{Script, Shape};

pub(super) fn groups(script: &mut Script) {
    taken(script);
    at_offset_0(script);
    let case = cut_behind_two(script);
    places(script, &case);
    numbers(script, &case);
    burned(script, &case);
    behind(script, &case);
    endings(script, &case);
    bytes(script, &case);
    tags(script, &case);
    order(script, &case);
    of_calls(script);
    stolen(script);
}

/// An item of a seal file: an entry of one byte, a filler, or a restart.
#[derive(Clone, Copy)]
pub(in crate::script) enum Piece {
    Entry,
    Filler,
    Restart,
}

use Piece::{Entry, Filler, Restart};

impl Case {
    /// Each piece where it is due, the entries in phase 1; all chunks that have
    /// one are burned.
    pub(in crate::script) fn with_pieces(&self, pieces: &[Piece]) -> Case {
        let mut case = self.clone();
        let mut due = Position::default();
        for piece in pieces {
            let place = match piece {
                Restart => due.next_chunk(),
                _ => due,
            };
            case.burn(place.chunk);
            match piece {
                Entry => {
                    case.push(place, Some((1, case.log_lengths[0], 1)));
                    case.log_lengths[0] += 1;
                }
                Filler => case.push(place, None),
                Restart => {
                    let item = case.restart(place, place, due.offset);
                    case.seal_file.extend(item.to_bytes());
                }
            }
            due = place.next(case.ratchet());
        }
        case
    }

    /// A restart that names a position, sealed with the key of a position.
    fn restart(&self, named: Position, key: Position, number: u32) -> Item {
        let header = self.header();
        let first = chunk(&self.auditor_store, key.chunk);
        let key = key_at(plain_hmac, first, key.offset, &header);
        let head = Head::Restart {
            position: named,
            number,
        };
        head.seal(&header, plain_hmac, &key, &[])
    }

    /// The case with this item in the place of another.
    fn but_item(&self, number: usize, item: &Item) -> Case {
        self.but_items(|items| items[number] = item.to_bytes())
    }

    /// So many chunks of the device store burned, and the others as they were.
    pub(in crate::script) fn with_burned(&self, count: u32) -> Case {
        self.but(|case| {
            case.store = case.auditor_store.clone();
            (0..count).for_each(|number| case.burn(number));
        })
    }
}

fn at(chunk: u32, offset: u32) -> Position {
    Position { chunk, offset }
}

fn taken(script: &mut Script) {
    script.label("audit, N = 3: a restart behind one item, behind two, four");
    let unused = Case::unused(script, 1, 4, 3);
    let rows: [&[Piece]; 5] = [
        &[Entry, Restart, Filler, Filler],
        &[Entry, Entry, Restart, Entry, Filler],
        &[Entry, Filler, Filler, Entry, Restart, Entry, Entry],
        &[Entry, Restart, Filler, Restart, Filler, Filler],
        &[Entry, Restart, Restart, Restart, Filler, Filler],
    ];
    for pieces in rows {
        script.expect((0, pieces.len() as u32), &unused.with_pieces(pieces));
    }
    script.label("audit, N = 2 and 256: a restart in the last chunk");
    let two = Case::unused(script, 1, 2, 2).with_pieces(&[Entry, Restart, Entry]);
    script.expect((0, 3), &two);
    script.expect_item((2, 1, 1, 1), &two, (1, 1));
    let many = Case::unused(script, 1, 2, 256);
    script.expect((22, 0), &many.with_pieces(&[Entry, Restart]));
}

/// At the front, and behind a whole chunk.
fn at_offset_0(script: &mut Script) {
    script.label("17: a restart where offset 0 is due, at 0 and behind a chunk");
    let unused = Case::unused(script, 1, 4, 2);
    let whole = unused.with_pieces(&[Entry, Filler]).with_burned(3);
    for (chunk, number) in [(0, 0), (0, 1), (1, 0), (1, 1)] {
        let item = unused
            .restart(at(chunk, 0), at(chunk, 0), number)
            .to_bytes();
        let first = unused.with_burned(3).but(|case| case.seal_file = item);
        script.expect((17, 0), &first);
    }
    for (chunk, number) in [(1, 0), (1, 1), (1, 2), (2, 0), (2, 2)] {
        let item = whole.restart(at(chunk, 0), at(chunk, 0), number).to_bytes();
        let behind = whole.but(|case| case.seal_file.extend(item));
        script.expect((17, 2), &behind);
        let unburned = behind.with_burned(1);
        script.expect((16, 2), &unburned);
    }
}

/// One phase, five chunks, N = 3: two entries, the restart and two fillers, at
/// bytes 0, 50, 100, 145 and 186; two chunks burned.
fn cut_behind_two(script: &mut Script) -> Case {
    script.label("audit: N = 3, two entries, a restart, two fillers");
    let case = Case::unused(script, 1, 5, 3).with_pieces(&[Entry, Entry, Restart, Filler, Filler]);
    script.expect((0, 5), &case);
    case
}

fn places(script: &mut Script, case: &Case) {
    script.label("17: the restart, of chunk 1, names others; other offsets");
    for named in [at(0, 0), at(2, 0), at(0x0100_0001, 0), at(u32::MAX, 0)] {
        let other = case.restart(named, at(1, 0), 2);
        script.expect((17, 2), &case.but_item(2, &other));
    }
    for named in [at(1, 1), at(1, 2), at(0, 2), at(1, 1 << 24)] {
        let other = case.restart(named, at(1, 0), 2);
        script.expect((17, 2), &case.but_item(2, &other));
    }
}

fn numbers(script: &mut Script, case: &Case) {
    script.label("17: behind two items the numbers 1, 3, 0 and more");
    for number in [1, 3, 0, 0x102, 0x0100_0002, u32::MAX] {
        let other = case.restart(at(1, 0), at(1, 0), number);
        script.expect((17, 2), &case.but_item(2, &other));
    }
}

/// The edges of 16, and of 22 behind it.
fn burned(script: &mut Script, case: &Case) {
    script.label("16: the restart's chunk unburned; 22: one burned too many");
    script.expect((16, 2), &case.with_burned(1));
    script.expect((22, 0), &case.with_burned(3));
    script.label("16 before 17: a wrong number, place; burned: 17");
    for item in [
        case.restart(at(1, 0), at(1, 0), 1),
        case.restart(at(2, 0), at(2, 0), 2),
        case.restart(at(0, 2), at(0, 2), 2),
    ] {
        let other = case.but_item(2, &item);
        script.expect((16, 2), &other.with_burned(1));
        script.expect((17, 2), &other);
    }
    script.label("17: an entry, a filler in place of the restart; 16 behind");
    for item in [Some((1, 2, 1)), None] {
        let other = case.item(at(1, 0), at(1, 0), item);
        let other = case.but_item(2, &other);
        script.expect((17, 2), &other.with_burned(1));
        script.expect((17, 2), &other);
    }
    let next = case.item(at(2, 0), at(2, 0), None).to_bytes();
    let longer = case.but(|case| case.seal_file.extend(next));
    script.expect((16, 5), &longer);
    script.expect((22, 0), &longer.with_burned(3));
}

/// Offset 1 of the restart's chunk is due behind it.
fn behind(script: &mut Script, case: &Case) {
    script.label("17: behind the restart other places than chunk 1, offset 1");
    for named in [at(1, 0), at(1, 2), at(0, 1), at(0, 2), at(2, 0)] {
        let other = case.item(named, named, None);
        script.expect((17, 3), &case.but_item(3, &other));
    }
    script.label("behind the restart another one: number 1 passes, 2 is 17");
    for (number, answer) in [(1, (22, 0)), (2, (17, 3))] {
        let other = case.restart(at(2, 0), at(2, 0), number);
        let cut = case.but_items(|items| {
            items.truncate(3);
            items.push(other.to_bytes());
        });
        script.expect(answer, &cut.with_burned(3));
    }
}

/// What is due at the end, with one and two chunks burned.
fn endings(script: &mut Script, case: &Case) {
    script.label("22: behind 4, 3, 2 and 1 items; a chunk too few");
    for length in [186, 145, 100, 50] {
        let fewer = case.but(|case| case.seal_file.truncate(length));
        script.expect((22, 0), &fewer);
    }
    let half = case.but(|case| case.seal_file.truncate(100));
    script.expect((22, 0), &half.with_burned(1));
    let none = case.but(|case| case.seal_file.clear());
    script.expect((22, 0), &none.with_burned(1));
    script.expect((23, 0), &none.with_burned(0));
}

fn bytes(script: &mut Script, case: &Case) {
    script.label("15: kinds 4 and 6 in place of 5; 44, 13 and 1 bytes of it");
    for kind in [4, 6] {
        let other = case.but(|case| case.seal_file[100] = kind);
        script.expect((15, 2), &other);
    }
    for length in [144, 113, 101] {
        let cut = case.but(|case| case.seal_file.truncate(length));
        script.expect((15, 2), &cut);
    }
}

fn tags(script: &mut Script, case: &Case) {
    script.label("21: the restart's tag, first and last byte; zeros");
    for index in [113, 144] {
        let other = case.but(|case| case.seal_file[index] ^= 1);
        script.expect((21, 2), &other);
    }
    let zeros = case.but(|case| case.seal_file[113..145].fill(0));
    script.expect((21, 2), &zeros);
    script.label("21: sealed with the key due, with other chunks; another number");
    for key in [at(0, 2), at(0, 0), at(1, 1), at(2, 0)] {
        let other = case.restart(at(1, 0), key, 2);
        script.expect((21, 2), &case.but_item(2, &other));
    }
    let tag = case.restart(at(1, 0), at(1, 0), 1).tag;
    let other = case.but(|case| case.seal_file[113..145].copy_from_slice(&tag));
    script.expect((21, 2), &other);
}

/// The conditions are taken away one after another.
fn order(script: &mut Script, case: &Case) {
    script.label("audit: a restart's 15 before 16, 17, 21; then it passes");
    let mut wrong = case.but(|case| {
        case.seal_file[100] = 4;
        case.seal_file[109] = 1;
        case.seal_file[144] ^= 1;
    });
    script.expect((15, 2), &wrong.with_burned(1));
    wrong.seal_file[100] = 5;
    script.expect((16, 2), &wrong.with_burned(1));
    script.expect((17, 2), &wrong);
    wrong.seal_file[109] = 2;
    script.expect((21, 2), &wrong);
    wrong.seal_file[144] ^= 1;
    script.expect((0, 5), &wrong);
}

/// What the calls leave behind a cut: without the restart, with it, and with
/// one where no chunk was cut.
fn of_calls(script: &mut Script) {
    script.label("a device cut, opened and restarted; audits on the way");
    script.fresh(1, 4, 3, 500);
    script.keep();
    script.append(1, 4, 1);
    script.append(1, 4, 2);
    script.open(&[8], 100);
    let half = Case::left(script);
    script.expect((22, 0), &half);
    script.expect_restart((0, 3), 2);
    script.append(1, 4, 3);
    script.close();
    let case = Case::left(script);
    script.expect((0, 5), &case);
    script.expect_item((3, 1, 8, 4), &case, (1, 11));
    script.expect_restart((0, 6), 2);
    script.close();
    let surplus = Case::left(script);
    script.expect((17, 5), &surplus);
}

/// Five entries, N = 3: item 3 is the first one of the last burned chunk. Who
/// takes the device opens behind fewer items, restarts and closes.
fn stolen(script: &mut Script) {
    script.label("stolen behind 5 items, N = 3: dropped up to 4, 3, 2, 1");
    script.material(Shape::of(1, 4, 3, 500));
    script.keep();
    for first in 1..6 {
        script.append(1, 4, first);
    }
    let untouched = Case::left(script);
    for (kept, number, answer) in [
        (4, 1, (0, 7)),
        (3, 1, (17, 3)),
        (3, 2, (17, 3)),
        (2, 2, (17, 2)),
        (1, 1, (17, 1)),
    ] {
        script.present(&untouched);
        script.open(&[4 * kept], 50 * u64::from(kept));
        script.expect_restart((0, 6), number);
        script.close();
        let presented = Case::left(script);
        script.expect(answer, &presented);
    }
}
