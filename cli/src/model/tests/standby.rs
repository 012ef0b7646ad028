//! A device and its standby: stores with equal chunks under two ids.

use super::audit::{Case, four_items};
use super::*;

const STANDBY: [u8; 8] = [1, 2, 3, 4, 5, 6, 7, 9];

/// The items of `four_items`, which end there.
const ENDS: [usize; 4] = [50, 100, 150, 191];

/// The same entries and the same filler, sealed under the standby's id.
fn of_standby() -> Case {
    let mut store = store(2, 3, 2);
    put_id(&mut store);
    let items = [Some((1, 0, 5)), Some((2, 0, 3)), Some((1, 5, 2)), None];
    Case::of(store, &[7, 3], &items)
}

fn put_id(store: &mut [u8]) {
    store[1..9].copy_from_slice(&STANDBY);
}

#[test]
fn each_is_accepted_by_itself() {
    let (device, standby) = (four_items(), of_standby());
    assert_eq!(device.audit(), (0, 4));
    assert_eq!(standby.audit(), (0, 4));
    assert_eq!(device.log_memory, standby.log_memory);
    assert_ne!(device.seal_file, standby.seal_file);
}

/// Offsets 0 and 1, entries and a filler.
#[test]
fn items_of_the_standby_are_refused_in_their_places() {
    let (device, standby) = (four_items(), of_standby());
    let mut start = 0;
    for (number, end) in (0..).zip(ENDS) {
        let item = &standby.seal_file[start..end];
        let answer = device.changed(|case| case.seal_file[start..end].copy_from_slice(item));
        assert_eq!(answer, (21, number));
        start = end;
    }
}

#[test]
fn seal_file_of_the_standby_is_refused() {
    let standby = of_standby();
    let answer = four_items().changed(|case| case.seal_file = standby.seal_file.clone());
    assert_eq!(answer, (21, 0));
}

#[test]
fn id_of_the_standby_in_one_store_and_in_both() {
    let device = four_items();
    let in_one = device.changed(|case| put_id(&mut case.device_store));
    assert_eq!(in_one, (13, 0));
    let in_other = device.changed(|case| put_id(&mut case.auditor_store));
    assert_eq!(in_other, (13, 0));
    let in_both = device.changed(|case| {
        put_id(&mut case.device_store);
        put_id(&mut case.auditor_store);
    });
    assert_eq!(in_both, (21, 0));
}
