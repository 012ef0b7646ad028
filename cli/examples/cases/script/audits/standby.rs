//! A device and its standby, whose stores are equal but for their ids:
//! histories of both, and what of the standby's is presented as the device's.

use std::ops::Range;

use pahyndoi::model::{Head, Item, Set, chunk, key_at, plain_hmac, ratchet_head};

use super::Case;
use crate::record::MEMORY_STORE;
use crate::script::{Script, Shape};

/// Where a store has its id.
const ID: Range<usize> = 1..9;

const DEVICE: [u8; 8] = [0; 8];
const STANDBY: [u8; 8] = [0xc1, 0, 0, 0xa7, 2, 4, 0, 0xff];

const OWN_SET: Set = Set {
    tag_length: 16,
    data_limit: 8,
    log_capacity: 512,
};

/// Two phases, three chunks, N = 3, of each kind.
pub(super) fn groups(script: &mut Script) {
    for shape in [Shape::of(2, 3, 3, 300), Shape::own(OWN_SET, 2, 3, 3, 300)] {
        label(script, shape, "a history under an id of zeros; another id");
        let device = history(script, shape, DEVICE);
        let standby = history(script, shape, STANDBY);
        items_of_the_standby(script, shape, &device, &standby);
        ids(script, shape, &device);
        bytes_of_the_id(script, shape, &device);
        filler_first(script, shape);
        other_messages(script, shape, &device);
        other_keys(script, shape, &device);
    }
}

fn label(script: &mut Script, shape: Shape, text: &str) {
    script.label(&format!("standby, kind {}: {text}", shape.kind));
}

/// Entries at offsets 0, 1 and, of the second chunk, 0; fillers behind them.
fn history(script: &mut Script, shape: Shape, id: [u8; 8]) -> Case {
    script.material(shape);
    script.set_bytes(MEMORY_STORE, ID.start as u32, &id);
    script.keep();
    script.open(&[0, 0], 0);
    script.append(1, 5, 1);
    script.append(2, 3, 21);
    script.close();
    script.append(1, 2, 41);
    script.close();
    let case = Case::left(script);
    script.expect((0, 6), &case);
    script.expect_item((1, 2, 0, 3), &case, (2, 2));
    script.expect_item((3, 1, 5, 2), &case, (1, 6));
    case
}

fn items_of_the_standby(script: &mut Script, shape: Shape, device: &Case, standby: &Case) {
    label(script, shape, "21: its item in place of 0; ...; of 5");
    let others = standby.items();
    for number in 0..6 {
        let mixed = device.but_items(|items| items[number] = others[number].clone());
        script.expect((21, number as u32), &mixed);
    }
    label(script, shape, "21: its items from 3 on; all of them");
    for first in [3, 0] {
        let mixed = device.but_items(|items| items[first..].clone_from_slice(&others[first..]));
        script.expect((21, first as u32), &mixed);
        script.expect_none((21, first as u32), &mixed, (1, 0));
    }
}

/// Puts the standby's id into a store.
fn put_id(store: &mut [u8]) {
    store[ID].copy_from_slice(&STANDBY);
}

fn put_both(case: &mut Case) {
    put_id(&mut case.store);
    put_id(&mut case.auditor_store);
}

fn ids(script: &mut Script, shape: Shape, device: &Case) {
    label(script, shape, "13: its id in one store; 21: in both");
    let of_device = device.but(|case| put_id(&mut case.store));
    let of_auditor = device.but(|case| put_id(&mut case.auditor_store));
    for one in [of_device, of_auditor] {
        script.expect((13, 0), &one);
        script.expect_none((13, 0), &one, (1, 0));
    }
    let both = device.but(put_both);
    script.expect((21, 0), &both);
    script.expect_none((21, 0), &both, (1, 0));
    label(
        script,
        shape,
        "its id in both stores, where nothing is sealed",
    );
    let unused = device.but(|case| {
        case.store = case.auditor_store.clone();
        case.log_lengths.fill(0);
        case.seal_file.clear();
    });
    script.expect((0, 0), &unused);
    script.expect((0, 0), &unused.but(put_both));
}

fn bytes_of_the_id(script: &mut Script, shape: Shape, device: &Case) {
    label(script, shape, "21: one bit of each byte of the id in both");
    for (index, bit) in ID.zip([1, 2, 4, 8, 16, 32, 64, 128]) {
        let changed = device.but(|case| {
            case.store[index] ^= bit;
            case.auditor_store[index] ^= bit;
        });
        script.expect((21, 0), &changed);
    }
    script.expect((0, 6), device);
}

/// Closing never writes a filler at offset 0; a forger may.
fn filler_first(script: &mut Script, shape: Shape) {
    label(script, shape, "21: its filler in place of 0");
    let unused = Case::unused_of(script, shape);
    let items = [None, Some((1, 0, 1)), None];
    let device = unused.with_items(&[1, 0], &items);
    let others = unused.but(put_both).with_items(&[1, 0], &items).items();
    script.expect((0, 3), &device);
    let mixed = device.but_items(|items| items[0] = others[0].clone());
    script.expect((21, 0), &mixed);
}

/// The data that an item's message has behind its head.
fn data<'a>(case: &'a Case, head: &Head) -> &'a [u8] {
    match *head {
        Head::Entry {
            phase,
            offset,
            length,
            ..
        } => case.data(phase, offset, length),
        Head::Filler { .. } | Head::Restart { .. } => &[],
    }
}

/// A message, in parts, without the id; with the id elsewhere; with another.
fn wrong_messages<'a>(id: &'a [u8], head: &'a [u8], data: &'a [u8]) -> [Vec<&'a [u8]>; 4] {
    [
        vec![head, data],
        vec![head, id, data],
        vec![head, data, id],
        vec![&STANDBY, head, data],
    ]
}

/// Items 0 to 2 have offsets 0 to 2; the last is a filler.
fn other_messages(script: &mut Script, shape: Shape, case: &Case) {
    label(
        script,
        shape,
        "21: tags without the id; elsewhere; another's",
    );
    let header = case.header();
    let set = header.set();
    for (number, item) in case.items().iter().enumerate().take(3) {
        let head = Item::parse(set, item).expect("an item").head;
        let first = chunk(&case.auditor_store, 0);
        let key = key_at(plain_hmac, first, number as u32, &header);
        let head_bytes = head.to_bytes();
        for parts in wrong_messages(&header.id, &head_bytes, data(case, &head)) {
            let whole = plain_hmac(&key, &parts);
            let tag = &whole[..usize::from(set.tag_length)];
            let other = case.but_items(|items| items[number] = [&head_bytes, tag].concat());
            script.expect((21, number as u32), &other);
        }
    }
}

/// Item 1 is sealed as it ought to be, with a key that its chunk does not give.
fn other_keys(script: &mut Script, shape: Shape, case: &Case) {
    label(
        script,
        shape,
        "21: keys without the id; elsewhere; another's",
    );
    let header = case.header();
    let head = Item::parse(header.set(), &case.items()[1])
        .expect("an item")
        .head;
    let first = chunk(&case.auditor_store, 0);
    let step = ratchet_head(1, header.ratchet);
    for parts in wrong_messages(&header.id, &step, &[]) {
        let key = plain_hmac(&first, &parts);
        let sealed = head.seal(&header, plain_hmac, &key, data(case, &head));
        let other = case.but_items(|items| items[1] = sealed.to_bytes());
        script.expect((21, 1), &other);
    }
    script.expect((0, 6), case);
}
