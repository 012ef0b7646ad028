//! Refusals 19 and 20: an entry begins where the covered bytes of its phase
//! end.

use super::{Case, Wanted};
use crate::script::Script;

pub(super) fn groups(script: &mut Script) {
    second_entry(script);
    third_entry(script);
    first_entry(script);
    end_of_the_log(script);
    other_bits(script);
    fillers(script);
    three_phases(script);
    eight_phases(script);
    other_orders(script);
}

/// An entry of phase 1.
fn at(offset: u32, length: u32) -> Wanted {
    Some((1, offset, length))
}

/// Bytes 0 to 4 are covered.
fn second_entry(script: &mut Script) {
    script.label("19, 20: below the covered end 5, at it, beyond it");
    let unused = Case::unused(script, 1, 1, 3);
    for (second, answer) in [
        (at(5, 10), (0, 3)),
        (at(4, 11), (19, 1)),
        (at(6, 9), (20, 1)),
    ] {
        let items = [at(0, 5), second, at(15, 5)];
        script.expect(answer, &unused.with_items(&[20], &items));
    }
    script.label("19: the same again; from byte 0; inside; on the last byte");
    for second in [at(0, 5), at(0, 1), at(0, 20), at(2, 2), at(4, 1)] {
        let items = [at(0, 5), second, None];
        script.expect((19, 1), &unused.with_items(&[20], &items));
    }
    script.label("20: a gap of one byte that is closed behind it; the last byte");
    for second in [at(6, 14), at(19, 1)] {
        let items = [at(0, 5), second, at(5, 1)];
        script.expect((20, 1), &unused.with_items(&[20], &items));
    }
}

/// Bytes 0 to 9 are covered by two entries.
fn third_entry(script: &mut Script) {
    script.label("19, 20: the same with two entries before; one byte left: 23");
    let unused = Case::unused(script, 1, 1, 3);
    for (third, answer) in [
        (at(10, 10), (0, 3)),
        (at(9, 11), (19, 2)),
        (at(11, 9), (20, 2)),
        (at(5, 5), (19, 2)),
        (at(0, 5), (19, 2)),
        (at(2, 1), (19, 2)),
        (at(7, 1), (19, 2)),
        (at(9, 1), (19, 2)),
        (at(10, 9), (23, 0)),
    ] {
        let items = [at(0, 5), at(5, 5), third];
        script.expect(answer, &unused.with_items(&[20], &items));
    }
}

fn first_entry(script: &mut Script) {
    script.label("20: the first entry at 1, at 2; at 0 it is taken");
    let unused = Case::unused(script, 1, 1, 1);
    for (first, answer) in [
        (at(1, 2), (20, 0)),
        (at(1, 1), (20, 0)),
        (at(2, 1), (20, 0)),
        (at(0, 3), (0, 1)),
    ] {
        script.expect(answer, &unused.with_items(&[3], &[first]));
    }
}

/// Areas that end at the phase's length, and one byte further.
fn end_of_the_log(script: &mut Script) {
    script.label("19, 20: up to the phase's length; one byte further: 18");
    let unused = Case::unused(script, 1, 1, 2);
    for (second, answer) in [
        (at(5, 3), (0, 2)),
        (at(5, 4), (18, 1)),
        (at(4, 4), (19, 1)),
        (at(4, 5), (18, 1)),
        (at(0, 8), (19, 1)),
        (at(0, 9), (18, 1)),
        (at(6, 2), (20, 1)),
        (at(6, 3), (18, 1)),
        (at(7, 1), (20, 1)),
        (at(8, 1), (18, 1)),
    ] {
        let items = [at(0, 5), second];
        script.expect(answer, &unused.with_items(&[8], &items));
    }
}

/// Offsets that are the covered end in some of their bits.
fn other_bits(script: &mut Script) {
    script.label("20: a bit of the offset more than the covered end 5");
    let unused = Case::unused(script, 1, 1, 2);
    let second = |second| unused.with_items(&[8192], &[at(0, 5), second]);
    for bit in [1, 3, 4, 7, 8, 9, 12] {
        script.expect((20, 1), &second(at(5 | (1 << bit), 1)));
    }
    script.label("18: the same beyond the log; ends at 2^32 and at 2^32 + 5");
    for bit in [13, 16, 24, 31] {
        script.expect((18, 1), &second(at(5 | (1 << bit), 1)));
    }
    for (offset, length) in [
        (u32::MAX, 1),
        (u32::MAX, 6),
        (u32::MAX - 4, 10),
        (0xffff_fe05, 512),
    ] {
        script.expect((18, 1), &second(at(offset, length)));
    }
}

fn fillers(script: &mut Script) {
    script.label("19, 20: fillers before the entry and between two");
    let unused = Case::unused(script, 1, 1, 4);
    for (items, answer) in [
        ([None, None, at(0, 5), at(5, 3)], (0, 4)),
        ([None, None, at(1, 5), at(6, 2)], (20, 2)),
        ([at(0, 5), None, None, at(5, 3)], (0, 4)),
        ([at(0, 5), None, None, at(4, 4)], (19, 3)),
        ([at(0, 5), None, None, at(6, 2)], (20, 3)),
        ([at(0, 5), None, at(5, 3), None], (0, 4)),
    ] {
        script.expect(answer, &unused.with_items(&[8], &items));
    }
}

/// Covered are 4 bytes of phase 1, 6 of phase 2 and none of phase 3.
fn three_phases(script: &mut Script) {
    script.label("19, 20: three phases in turns, covered to 4, 6 and 0");
    let unused = Case::unused(script, 3, 1, 6);
    for (last, lengths, answer) in [
        ((1, 4, 2), [6, 6, 0], (0, 6)),
        ((1, 3, 2), [6, 6, 0], (19, 5)),
        ((1, 0, 1), [6, 6, 0], (19, 5)),
        ((1, 5, 1), [6, 6, 0], (20, 5)),
        ((1, 6, 1), [7, 6, 0], (20, 5)),
        ((2, 6, 2), [4, 8, 0], (0, 6)),
        ((2, 5, 2), [4, 8, 0], (19, 5)),
        ((2, 4, 2), [4, 8, 0], (19, 5)),
        ((2, 0, 3), [4, 8, 0], (19, 5)),
        ((2, 7, 1), [4, 8, 0], (20, 5)),
        ((3, 0, 2), [4, 6, 2], (0, 6)),
        ((3, 1, 1), [4, 6, 2], (20, 5)),
        ((3, 4, 1), [4, 6, 5], (20, 5)),
    ] {
        let items = [
            Some((2, 0, 3)),
            Some((1, 0, 1)),
            Some((2, 3, 3)),
            None,
            Some((1, 1, 3)),
            Some(last),
        ];
        script.expect(answer, &unused.with_items(&lengths, &items));
    }
}

/// As many bytes of each phase are covered as its number says.
fn eight_phases(script: &mut Script) {
    script.label("19, 20: eight phases covered to 1, 2, .. 8");
    let unused = Case::unused(script, 8, 1, 9);
    let mut items: Vec<Wanted> = (1..=8)
        .map(|phase| Some((phase, 0, u32::from(phase))))
        .collect();
    items.push(None);
    let lengths = [1, 2, 3, 4, 5, 6, 7, 8];
    for phase in [8, 5, 1] {
        let end = u32::from(phase);
        let mut longer = lengths;
        longer[usize::from(phase) - 1] += 2;
        for (offset, length, answer) in [
            (end - 1, 3, (19, 8)),
            (end + 1, 1, (20, 8)),
            (end, 2, (0, 9)),
        ] {
            items[8] = Some((phase, offset, length));
            script.expect(answer, &unused.with_items(&longer, &items));
        }
    }
}

/// Areas that share no byte and together are the whole log.
fn other_orders(script: &mut Script) {
    script.label("20: bytes 0 to 16 with two exchanged, falling, 0 last");
    let unused = Case::unused(script, 1, 1, 17);
    let rising: Vec<Wanted> = (0..17).map(|offset| at(offset, 1)).collect();
    script.expect((0, 17), &unused.with_items(&[17], &rising));
    let mut expect = |answer, change: fn(&mut [Wanted])| {
        let mut items = rising.clone();
        change(&mut items);
        script.expect(answer, &unused.with_items(&[17], &items));
    };
    expect((20, 15), |items| items.swap(15, 16));
    expect((20, 8), |items| items.swap(8, 9));
    expect((20, 0), |items| items.swap(0, 1));
    expect((20, 0), |items| items.rotate_left(1));
    expect((20, 0), |items| items.reverse());
    script.label("20: two phases in turns, the second one's exchanged");
    let unused = Case::unused(script, 2, 1, 4);
    let (one, other) = (Some((2, 0, 3)), Some((2, 3, 2)));
    for (items, answer) in [
        ([at(0, 5), one, at(5, 3), other], (0, 4)),
        ([at(0, 5), other, at(5, 3), one], (20, 1)),
        ([other, at(0, 5), one, at(5, 3)], (20, 0)),
        ([one, at(5, 3), other, at(0, 5)], (20, 1)),
    ] {
        script.expect(answer, &unused.with_items(&[8, 5], &items));
    }
}
