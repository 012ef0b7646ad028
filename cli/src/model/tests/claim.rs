//! What is claimed of a compromised device: which outcomes are true, and what
//! each of them takes.

use super::super::claim::is_ratchet_message;
use super::Outcome::{Dropped, Forged, Intact, Refused, Restored};
use super::*;

/// One phase, four chunks, N = 3 and entries of one byte.
fn account_of(entries: u8) -> Account {
    let mut account = Account::start(&unused()).expect("unused");
    for byte in 0..entries {
        let (phase, data) = (1, vec![byte]);
        let answer = account.call(plain_hmac, &Call::Append { phase, data });
        assert_eq!(answer.refusal, 0);
    }
    account
}

/// With five entries b is 4, and the key at (1, 2) is held.
fn taken() -> Account {
    let account = account_of(5);
    assert_eq!(account.safe_count(), 4);
    account
}

fn unused() -> Material {
    material(1, 4, 3, 1000)
}

fn place(chunk: u32, offset: u32) -> Position {
    Position { chunk, offset }
}

fn filler(chunk: u32, offset: u32) -> Head {
    Head::Filler {
        position: place(chunk, offset),
    }
}

fn restart(chunk: u32, number: u32) -> Head {
    let position = place(chunk, 0);
    Head::Restart { position, number }
}

/// Under the key of the place that it names; where there is none, under zeros.
fn sealed(head: Head) -> Item {
    let store = unused().store;
    let header = Header::parse(&store).expect("a store");
    let Position {
        chunk: number,
        offset,
    } = head.position();
    let key = match number < 4 && offset < 3 {
        true => key_at(plain_hmac, chunk(&store, number), offset, &header),
        false => [0; KEY_LENGTH],
    };
    head.seal(&header, plain_hmac, &key, &[])
}

type Found = ((u32, u32), Vec<Outcome>, Vec<Outcome>);

/// The audit's answer, then what is true of the first items and of all. So many
/// chunks are burned, and the log has one byte for each entry.
fn found(items: &[Item], burned: usize) -> Found {
    found_in(items, burned, &taken().material().log_memory)
}

/// The same with this log memory.
fn found_in(items: &[Item], burned: usize, log_memory: &[u8]) -> Found {
    let (account, unused) = (taken(), unused());
    let mut device_store = unused.store.clone();
    device_store[18..18 + 32 * burned].fill(0);
    let is_entry = |item: &&Item| item.head.area().is_some();
    let presented = Presented {
        device_store: &device_store,
        auditor_store: &unused.store,
        log_memory,
        log_lengths: &[items.iter().filter(is_entry).count() as u32],
        seal_file: &items.iter().flat_map(Item::to_bytes).collect::<Vec<u8>>(),
    };
    let Answer { refusal, number } = audit(plain_hmac, &presented);
    let Outcomes { of_first, of_all } = outcomes(plain_hmac, &account, &presented);
    ((refusal, number), of_first, of_all)
}

/// The same with so many of the device's items and these behind them.
fn found_behind(kept: usize, made_up: &[Head], burned: usize) -> Found {
    let mut items = taken().items()[..kept].to_vec();
    items.extend(made_up.iter().copied().map(sealed));
    found(&items, burned)
}

#[test]
fn keys_that_are_held() {
    let places: Vec<Position> = (0..5)
        .flat_map(|chunk| (0..3).map(move |offset| place(chunk, offset)))
        .collect();
    let held = |account: &Account| {
        let held = places.iter().filter(|place| account.is_held(**place));
        held.map(|place| (place.chunk, place.offset)).collect()
    };
    let of_chunk = |chunk| [(chunk, 0), (chunk, 1), (chunk, 2)];
    let (one, two, three) = (of_chunk(1), of_chunk(2), of_chunk(3));
    let expect = |account: &Account, expected: &[&[(u32, u32)]]| {
        let held: Vec<(u32, u32)> = held(account);
        assert_eq!(held, expected.concat());
    };
    expect(&account_of(0), &[&of_chunk(0), &one, &two, &three]);
    expect(&account_of(1), &[&[(0, 1), (0, 2)], &one, &two, &three]);
    expect(&account_of(3), &[&one, &two, &three]);
    let mut taken = taken();
    expect(&taken, &[&[(1, 2)], &two, &three]);
    taken.cut();
    expect(&taken, &[&two, &three]);
    expect(&account_of(12), &[]);
}

/// A filler under the held key goes on behind all items; elsewhere it is
/// refused, and nowhere is it forged.
#[test]
fn made_up_fillers_under_the_held_key() {
    let made_up = [filler(1, 2)];
    let intact = ((0, 6), vec![Intact], vec![Intact]);
    assert_eq!(found_behind(5, &made_up, 2), intact);
    let behind_b = ((17, 4), vec![Refused, Intact], vec![Refused]);
    assert_eq!(found_behind(4, &made_up, 2), behind_b);
    for kept in 0..4 {
        let refused = ((17, kept as u32), vec![Refused], vec![Refused]);
        assert_eq!(found_behind(kept, &made_up, 2), refused);
    }
}

/// Behind b items or more a restart of the next chunk is taken, if the store
/// says that this chunk is burned.
#[test]
fn made_up_restarts_of_the_next_chunk() {
    let behind = |kept, number, burned| {
        let made_up = [restart(2, number), filler(2, 1), filler(2, 2)];
        found_behind(kept, &made_up, burned)
    };
    let intact = ((0, 8), vec![Intact], vec![Intact]);
    assert_eq!(behind(5, 2, 3), intact);
    let dropped = ((0, 7), vec![Intact], vec![Dropped]);
    assert_eq!(behind(4, 1, 3), dropped);
    let unburned = ((16, 4), vec![Refused, Intact], vec![Refused]);
    assert_eq!(behind(4, 1, 2), unburned);
    let other_number = ((17, 4), vec![Refused, Intact], vec![Refused]);
    assert_eq!(behind(4, 2, 3), other_number);
    for (kept, number) in [(3, 0), (3, 1), (2, 2), (1, 1), (0, 1)] {
        let refused = ((17, kept as u32), vec![Refused], vec![Refused]);
        assert_eq!(behind(kept, number, 3), refused);
    }
}

/// The restart counts as one behind dropped items only where those before it are
/// the device's.
#[test]
fn made_up_restarts_behind_items_that_are_not_intact() {
    let mut items = taken().items()[..4].to_vec();
    items.extend([restart(2, 1), filler(2, 1), filler(2, 2)].map(sealed));
    let dropped = ((0, 7), vec![Intact], vec![Dropped]);
    assert_eq!(found(&items, 3), dropped);
    for number in 0..4 {
        items[number].tag[0] ^= 1;
        let refused = ((21, number as u32), vec![Refused], vec![Refused]);
        assert_eq!(found(&items, 3), refused);
        items[number].tag[0] ^= 1;
    }
}

/// The data of an entry are changed in the logs, and nothing else.
#[test]
fn items_whose_data_are_changed() {
    let mut items = taken().items().to_vec();
    items.push(sealed(filler(1, 2)));
    let mut log_memory = taken().material().log_memory;
    for number in 0..5 {
        log_memory[number] ^= 1;
        let of_first = match number {
            0..4 => vec![Refused],
            _ => vec![Refused, Intact],
        };
        let expected = ((21, number as u32), of_first, vec![Refused]);
        assert_eq!(found_in(&items, 2, &log_memory), expected);
        log_memory[number] ^= 1;
    }
    let intact = ((0, 6), vec![Intact], vec![Intact]);
    assert_eq!(found_in(&items, 2, &log_memory), intact);
}

/// By who has every key: below b in the places of the device's items and of a
/// chunk's first one, from b on in those of the device's items.
#[test]
fn made_up_items_under_keys_that_are_gone() {
    let last = [filler(1, 1), filler(1, 2)];
    let behind_b = ((0, 6), vec![Intact], vec![Forged]);
    assert_eq!(found_behind(4, &last, 2), behind_b);
    let first = [filler(1, 0), last[0], last[1]];
    let below_b = ((0, 6), vec![Forged], vec![Forged]);
    assert_eq!(found_behind(3, &first, 2), below_b);
    let cut = [restart(1, 1), last[0], last[1]];
    let restarted = ((0, 4), vec![Forged], vec![Forged]);
    assert_eq!(found_behind(1, &cut, 2), restarted);
}

/// In the place of item 3, below b, with one thing after the other amiss.
#[test]
fn what_forging_takes() {
    let in_place_of_3 = |head| found_behind(3, &[head], 2);
    let forged = |refusal| (refusal, vec![Refused, Forged], vec![Refused, Forged]);
    let refused = |refusal| (refusal, vec![Refused], vec![Refused]);
    assert_eq!(in_place_of_3(filler(1, 0)), forged((22, 0)));
    assert_eq!(in_place_of_3(filler(0, 2)), forged((17, 3)));
    // Not the first of the last burned chunk.
    assert_eq!(in_place_of_3(filler(1, 1)), refused((17, 3)));
    // Held, and none at all.
    for (chunk, offset) in [(1, 2), (2, 0), (3, 2), (4, 0), (0, 3), (9, 9)] {
        assert_eq!(in_place_of_3(filler(chunk, offset)), refused((17, 3)));
    }
    let own = taken().items().to_vec();
    // Sealed by the device, and moved.
    for moved in [0, 1, 2, 4] {
        let items = [&own[..3], &[own[moved].clone()]].concat();
        assert_eq!(found(&items, 2), refused((17, 3)), "item {moved}");
    }
    let mut items = [&own[..3], &[sealed(filler(1, 0))]].concat();
    assert_eq!(found(&items, 2), forged((22, 0)));
    items[3].tag[31] ^= 1;
    assert_eq!(found(&items, 2), refused((21, 3)));
    items[3].tag[31] ^= 1;
    // Another item is not intact before it.
    items[1].tag[31] ^= 1;
    assert_eq!(found(&items, 2), refused((21, 1)));
}

/// From b on the place of the device's item, and no other.
#[test]
fn what_forging_takes_behind_b() {
    for (head, refusal, is_forged) in [
        (filler(1, 1), (22, 0), true),
        (filler(0, 1), (17, 4), false),
        (filler(1, 0), (17, 4), false),
        (filler(1, 2), (17, 4), false),
        (filler(2, 0), (17, 4), false),
    ] {
        let of_all = if is_forged { vec![Forged] } else { vec![] };
        let of_all = [vec![Refused], of_all].concat();
        let expected = (refusal, vec![Refused, Intact], of_all);
        assert_eq!(found_behind(4, &[head], 2), expected, "{head:?}");
    }
}

/// Chunk 1 and what was sealed with it are gone, and the chunk is back.
#[test]
fn stores_that_are_rolled_back() {
    let restored = ((0, 3), vec![Restored], vec![Restored]);
    assert_eq!(found_behind(3, &[], 1), restored);
    let missing = ((22, 0), vec![Refused], vec![Refused]);
    assert_eq!(found_behind(3, &[], 2), missing);
    let behind_b = ((22, 0), vec![Refused, Intact], vec![Refused]);
    assert_eq!(found_behind(4, &[], 2), behind_b);
}

#[test]
fn which_messages_are_of_the_ratchet() {
    let store = unused().store;
    let header = Header::parse(&store).expect("a store");
    let message = |head: &[u8]| [&ID, head].concat();
    let is_of_ratchet = |head: &[u8]| is_ratchet_message(&header, &message(head));
    for offset in [0, 1, 2, 3, u32::MAX] {
        assert!(is_of_ratchet(&ratchet_head(offset, 3)));
        assert!(!is_of_ratchet(&ratchet_head(offset, 4)));
        assert!(!is_of_ratchet(&filler(offset, 3).to_bytes()));
    }
    let longer = [&ratchet_head(1, 3)[..], &[0]].concat();
    assert!(!is_of_ratchet(&longer));
    let other_id = [&[0; 8], &ratchet_head(1, 3)[..]].concat();
    assert!(!is_ratchet_message(&header, &other_id));
}

/// By the chunks that the items carry; a restart has its number behind it.
#[test]
fn which_items_leave_a_chunk_half_used() {
    let half_used = |heads: &[Head]| {
        let items: Vec<Item> = heads.iter().copied().map(sealed).collect();
        (
            is_half_used_by_items(&items, 3),
            count_of_last_chunk(&items),
        )
    };
    let whole = [filler(0, 0), filler(0, 1), filler(0, 2)];
    let next = [restart(1, 2), filler(1, 1), filler(1, 2)];
    assert_eq!(half_used(&[]), (false, 0));
    assert_eq!(half_used(&whole[..1]), (true, 1));
    assert_eq!(half_used(&whole[..2]), (true, 2));
    assert_eq!(half_used(&whole), (false, 3));
    assert_eq!(
        half_used(&[&whole[..], &[filler(1, 0)]].concat()),
        (true, 1)
    );
    let cut = [&whole[..2], &next[..]].concat();
    assert_eq!(half_used(&cut[..3]), (true, 1));
    assert_eq!(half_used(&cut[..4]), (true, 2));
    assert_eq!(half_used(&cut), (false, 3));
    // Another item than a restart behind two.
    let skipped = [whole[0], whole[1], filler(1, 0), next[1], next[2]];
    assert_eq!(half_used(&skipped), (true, 3));
}
