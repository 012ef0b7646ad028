//! Every single change to one small material.

use pahyndoi::model::{Account, Call, Header, Set, plain_hmac};

use crate::answer::split;
use crate::device::{ID, Shape};
use crate::honest;
use crate::places::Place;
use crate::presentation::Presentation;
use crate::random::{Case, Random};
use crate::tally::Tally;

/// The phases of the entries, and their lengths where the set allows them.
const ENTRIES: [(u8, usize); 3] = [(1, 5), (2, 3), (1, 2)];

/// With a restart behind them and a filler behind that.
const ITEMS: u32 = 5;

/// A part of the material by name.
type Part = (&'static str, fn(&mut Presentation) -> &mut Vec<u8>);

const PARTS: [Part; 4] = [
    ("device store", |material| &mut material.device_store),
    ("auditor's store", |material| &mut material.auditor_store),
    ("lengths", |material| &mut material.length_bytes),
    ("seal file", |material| &mut material.seal_file),
];
const LOGS: Part = ("log memory", |material| &mut material.log_memory);

/// Fails where the audits differ, or where a bit or a length can be changed
/// and the material is still accepted.
pub fn check_changes(case: &mut Case, tally: &mut Tally, own_set: Option<Set>) {
    let (untouched, lengths) = small_material(&mut case.random, own_set);
    let header = Header::parse(&untouched.device_store).expect("a store");
    let places = all_places(header.set());
    let answer = untouched.compare_at(&mut case.random, tally, &places);
    assert_eq!(split(answer), (0, ITEMS));
    for part in PARTS {
        let length = part.1(&mut untouched.clone()).len();
        flip_bits(case, tally, &untouched, part, 0..length);
        resize(case, tally, &untouched, part);
    }
    for (phase, length) in (1..).zip(lengths) {
        let start = header.log_start(phase);
        flip_bits(
            case,
            tally,
            &untouched,
            LOGS,
            start..start + length as usize,
        );
    }
    flip_both_headers(case, tally, &untouched, &header);
}

/// Every phase with the offsets that its logs have and some that they have not.
fn all_places(set: Set) -> Vec<Place> {
    let end = set.log_capacity;
    let offsets = || (0..10).chain([255, 256, end - 1, end, 65_536, u32::MAX]);
    (0..=255)
        .flat_map(|phase| offsets().map(move |offset| (phase, offset)))
        .collect()
}

/// Two phases, four chunks, N = 2: three entries, a restart and a filler. With
/// the log lengths.
fn small_material(random: &mut Random, own_set: Option<Set>) -> (Presentation, Vec<u32>) {
    let shape = Shape {
        own_set,
        phases: 2,
        chunk_count: 4,
        ratchet: 2,
        seal_memory: 300,
    };
    let start = shape.material(random);
    let mut account = Account::start(&start).expect("an unused store");
    for (phase, length) in ENTRIES {
        let data = random.bytes(length.min(shape.set().data_limit as usize));
        account.call(plain_hmac, &Call::Append { phase, data });
    }
    account.cut();
    account.call(plain_hmac, &honest::reopen(&account));
    account.call(plain_hmac, &Call::Restart { number: 1 });
    account.call(plain_hmac, &Call::Close);
    let honest = honest::of_account(&start, shape.set(), &account);
    (honest.presentation, account.log_lengths())
}

fn flip_bits(
    case: &mut Case,
    tally: &mut Tally,
    untouched: &Presentation,
    (name, part): Part,
    bytes: std::ops::Range<usize>,
) {
    for bit in 8 * bytes.start..8 * bytes.end {
        let mut changed = untouched.clone();
        part(&mut changed)[bit / 8] ^= 1 << (bit % 8);
        case.step = format!("{name}, bit {} of byte {}", bit % 8, bit / 8);
        check_refused(case, tally, &changed);
    }
}

/// The same bit of both headers. A data limit that the entries keep to does not
/// show in the items; all else must, and the id in the first of them.
fn flip_both_headers(
    case: &mut Case,
    tally: &mut Tally,
    untouched: &Presentation,
    header: &Header,
) {
    for bit in 0..8 * header.length() {
        let mut changed = untouched.clone();
        for store in [&mut changed.device_store, &mut changed.auditor_store] {
            store[bit / 8] ^= 1 << (bit % 8);
        }
        case.step = format!("both headers, bit {} of byte {}", bit % 8, bit / 8);
        let answer = split(changed.compare(&mut case.random, tally));
        let new = Header::parse(&changed.device_store);
        let accepted = new.is_some_and(|new| keeps_items(header, &new));
        assert_eq!(answer == (0, ITEMS), accepted);
        assert_eq!(answer.0 == 0, accepted);
        if ID.contains(&(bit / 8)) {
            assert_eq!(answer, (21, 0));
        }
    }
}

fn keeps_items(old: &Header, new: &Header) -> bool {
    let data_limit = new.set().data_limit;
    let longest = ENTRIES.map(|entry| entry.1).into_iter().max();
    let longest = longest.unwrap_or(0).min(old.set().data_limit as usize);
    let same = Header {
        own_set: new.own_set.map(|set| Set {
            data_limit: old.set().data_limit,
            ..set
        }),
        ..*new
    };
    same == *old && data_limit as usize >= longest
}

/// Every shorter length, and some longer ones.
fn resize(case: &mut Case, tally: &mut Tally, untouched: &Presentation, (name, part): Part) {
    let length = part(&mut untouched.clone()).len();
    for new in (0..length).chain(length + 1..length + 60) {
        let mut changed = untouched.clone();
        part(&mut changed).resize(new, 3);
        case.step = format!("{name} of {new} bytes");
        check_refused(case, tally, &changed);
    }
}

fn check_refused(case: &mut Case, tally: &mut Tally, changed: &Presentation) {
    let answer = changed.compare(&mut case.random, tally);
    assert_ne!(split(answer).0, 0, "accepted");
}
