//! Sets at both sides of each edge of the range, and what each call says of
//! them.

use pahyndoi::model::{Account, Call, Set, State, plain_hmac};

use crate::answer::split;
use crate::calls;
use crate::device::{Device, Shape};
use crate::honest;
use crate::lent::Stand;
use crate::mishap::put_set;
use crate::presentation::Presentation;
use crate::random::Random;
use crate::sets::set;
use crate::tally::Tally;

/// With whether the set is in range.
pub const ROWS: [(Set, bool); 38] = [
    (set(0, 512, 8192), false),
    (set(15, 512, 8192), false),
    (set(16, 512, 8192), true),
    (set(17, 512, 8192), true),
    (set(31, 512, 8192), true),
    (set(32, 512, 8192), true),
    (set(33, 512, 8192), false),
    (set(48, 512, 8192), false),
    (set(144, 512, 8192), false),
    (set(255, 512, 8192), false),
    (set(32, 0, 8192), false),
    (set(32, 1, 8192), true),
    (set(32, 2, 8192), true),
    (set(32, 4095, 8192), true),
    (set(32, 4096, 8192), true),
    (set(32, 4097, 8192), false),
    (set(32, 4097, 65_536), false),
    (set(32, 512 + (1 << 16), 65_536), false),
    (set(32, 512 + (1 << 24), 65_536), false),
    (set(32, u32::MAX, 65_536), false),
    (set(32, 1, 0), false),
    (set(32, 1, 511), false),
    (set(32, 1, 512), true),
    (set(32, 1, 513), true),
    (set(32, 1, 65_535), true),
    (set(32, 1, 65_536), true),
    (set(32, 1, 65_537), false),
    (set(32, 1, 8192 + (1 << 17)), false),
    (set(32, 1, 8192 + (1 << 24)), false),
    (set(32, 1, u32::MAX), false),
    (set(32, 512, 511), false),
    (set(32, 512, 512), true),
    (set(32, 513, 512), false),
    (set(32, 4096, 4095), false),
    (set(32, 4096, 4096), true),
    (set(32, 4097, 4097), false),
    (set(16, 1, 512), true),
    (set(32, 4096, 65_536), true),
];

/// Log memory for larger logs than that is not tried.
const LARGEST_LOG: u32 = 1 << 18;

const PHASES: usize = 2;

/// Fails where a set in range does not let the calls do their work up to its
/// limits, or where another is not refused by 2, and by 12 in the auditor's
/// store.
pub fn check(random: &mut Random, tally: &mut Tally, set: Set, in_range: bool) {
    let base = if in_range { set } else { Set::COMMON };
    let shape = Shape {
        own_set: Some(base),
        phases: PHASES,
        chunk_count: 3,
        ratchet: 2,
        seal_memory: 300,
    };
    let mut material = shape.material(random);
    if !in_range {
        put_set(&mut material.store, Some(set));
        let length = PHASES * set.log_capacity.min(LARGEST_LOG) as usize;
        material.log_memory.resize(length, 0);
    }
    let mut device = Device {
        material,
        state: State::default(),
    };
    for (call, refusal) in calls_to_the_limits(random, base) {
        let answer = calls::compare(Stand::AtFence, &mut device, &call);
        let expected = if in_range { refusal } else { 2 };
        assert_eq!(split(answer).0, expected, "{}", calls::describe(&call));
        tally.note(calls::name(&call), answer);
    }
    check_audits(random, tally, &shape, set);
}

/// Calls, and what refuses them where the set is in range.
fn calls_to_the_limits(random: &mut Random, set: Set) -> Vec<(Call, u32)> {
    let (limit, capacity) = (set.data_limit as usize, set.log_capacity);
    let open = |length| Call::Open {
        log_lengths: vec![0, length],
        seal_length: 0,
    };
    let mut append = |length| Call::Append {
        phase: 2,
        data: random.bytes(length),
    };
    vec![
        (open(capacity + 1), 5),
        (open(capacity), 0),
        (append(1), 9),
        (open(capacity - limit as u32), 0),
        (append(limit + 1), 8),
        (append(limit), 0),
        (append(1), 9),
        (Call::Close, 0),
    ]
}

/// The set beside one that the material was written with.
fn check_audits(random: &mut Random, tally: &mut Tally, shape: &Shape, set: Set) {
    let honest = one_entry(random, shape);
    let mut check = |presentation: &Presentation, expected| {
        let answer = presentation.compare(random, tally);
        assert_eq!(split(answer), expected);
    };
    check(&honest, (0, 2));
    if set.is_in_range() {
        return;
    }
    let (mut device, mut auditor) = (honest.clone(), honest);
    put_set(&mut device.device_store, Some(set));
    put_set(&mut auditor.auditor_store, Some(set));
    check(&auditor, (12, 0));
    let length = PHASES * set.log_capacity.min(LARGEST_LOG) as usize;
    for length in [device.log_memory.len(), length] {
        device.log_memory.resize(length, 0);
        check(&device, (2, 0));
    }
    device.auditor_store = auditor.auditor_store;
    check(&device, (2, 0));
}

/// The longest data, and a filler.
fn one_entry(random: &mut Random, shape: &Shape) -> Presentation {
    let start = shape.material(random);
    let mut account = Account::start(&start).expect("an unused store");
    let data = random.bytes(shape.set().data_limit as usize);
    account.call(plain_hmac, &Call::Append { phase: 2, data });
    account.call(plain_hmac, &Call::Close);
    honest::of_account(&start, shape.set(), &account).presentation
}
