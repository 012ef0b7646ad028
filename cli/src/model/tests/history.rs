//! Histories: the calls leave what their account says, and the audit accepts
//! it.

use super::*;

/// A xorshift64* generator.
struct Random(u64);

impl Random {
    /// A number from 0 to `most`.
    fn up_to(&mut self, most: usize) -> usize {
        self.0 ^= self.0 >> 12;
        self.0 ^= self.0 << 25;
        self.0 ^= self.0 >> 27;
        let value = self.0.wrapping_mul(0x2545_f491_4f6c_dd1d) >> 16;
        (value % (most as u64 + 1)) as usize
    }

    fn pick<T: Copy>(&mut self, from: &[T]) -> T {
        from[self.up_to(from.len() - 1)]
    }
}

/// By what the account refuses. Fails where the calls' own refusals say
/// otherwise.
fn is_history(start: &Material, events: &[Event]) -> bool {
    let by_account = super::is_history(plain_hmac, start, events);
    let by_calls = is_history_by_calls(plain_hmac, start, events);
    assert_eq!(by_account, by_calls, "{events:?}");
    by_account
}

/// Gives the refusal and the count of a call.
fn perform(device: &mut Device, event: &Event) -> Option<(u32, u32)> {
    let Event::Call(call) = event else {
        device.cut();
        return None;
    };
    Some(match call {
        Call::Open {
            log_lengths,
            seal_length,
        } => (device.open(log_lengths, *seal_length), 0),
        Call::Append { phase, data } => device.append(*phase, data),
        Call::Close => device.close(),
        Call::Restart { number } => device.restart(*number),
    })
}

/// One of the events that a history may hold, refused calls among them; also
/// some that it may not.
fn random_event(random: &mut Random, set: Set, account: &Account, seal_memory: usize) -> Event {
    match random.up_to(11) {
        0 => Event::Cut,
        _ => Event::Call(random_call(random, set, account, seal_memory)),
    }
}

fn random_call(random: &mut Random, set: Set, account: &Account, seal_memory: usize) -> Call {
    let mut log_lengths = account.log_lengths();
    let most = random.pick(&[3, set.data_limit as usize + 18]);
    let waiting = account.waiting();
    match random.up_to(17) {
        12 => Call::Restart {
            number: random.up_to(9) as u32,
        },
        13..=15 => Call::Restart { number: waiting },
        0..=6 => Call::Append {
            phase: random.up_to(log_lengths.len() + 1) as u8,
            data: vec![random.up_to(255) as u8; random.up_to(most)],
        },
        7 | 8 => Call::Close,
        9 => {
            log_lengths.push(0);
            Call::Open {
                log_lengths,
                seal_length: 0,
            }
        }
        10 => Call::Open {
            log_lengths,
            seal_length: seal_memory as u64 + 1,
        },
        _ => Call::Open {
            log_lengths,
            seal_length: account.seal_length(),
        },
    }
}

/// None, or a set of short logs and tags of any length.
fn random_set(random: &mut Random) -> Option<Set> {
    let data_limit = random.pick(&[1, 2, 100, 512, 513, 4096]);
    let set = Set {
        tag_length: random.up_to(16) as u8 + 16,
        data_limit,
        log_capacity: data_limit.max(512) + random.pick(&[0, 1, 100, 10_000]),
    };
    random.pick(&[None, Some(set), Some(set)])
}

/// The audit accepts what a history left, or misses the items of a chunk half
/// used.
fn assert_audit_of_untouched(start: &Material, account: &Account) {
    let left = account.material();
    let presented = Presented {
        device_store: &left.store,
        auditor_store: &start.store,
        log_memory: &left.log_memory,
        log_lengths: &account.log_lengths(),
        seal_file: &account.seal_file(),
    };
    let item_count = account.items().len() as u32;
    let expected = match account.is_half_used() {
        true => Answer::refused(22),
        false => Answer::done(item_count),
    };
    assert_eq!(audit(plain_hmac, &presented), expected);
    let expected = match account.is_half_used() {
        true => vec![Outcome::Refused, Outcome::Intact],
        false => vec![Outcome::Intact],
    };
    let outcomes = outcomes(plain_hmac, account, &presented);
    assert_eq!(outcomes.of_first, expected);
    assert_eq!(outcomes.of_all, expected);
}

/// The items alone say which chunk is half used and how many items it has.
fn assert_told_by_items(account: &Account, ratchet: u32) {
    let items = account.items();
    let half_used = is_half_used_by_items(items, ratchet);
    assert_eq!(half_used, account.is_half_used());
    if half_used {
        let count = account.waiting().max(account.position().offset);
        assert_eq!(count_of_last_chunk(items), count);
    }
}

#[test]
fn calls_and_account_agree() {
    let mut random = Random(0x5ea1_ed10_65a5_1234);
    let (mut restarts, mut forbidden) = (0, 0);
    for round in 0..2000 {
        let ratchet = [1, 2, 3, 7][round % 4];
        let phases = random.up_to(7) as u8 + 1;
        let seal_memory = random.up_to(1500);
        let chunk_count = random.up_to(8) as u32 + 1;
        let own_set = random_set(&mut random);
        let mut device = Device::of(own_set, phases, chunk_count, ratchet, seal_memory);
        let start = device.material.clone();
        let mut account = Account::start(&start).expect("an unused store");
        let mut events = Vec::new();
        for _ in 0..random.up_to(40) {
            let set = own_set.unwrap_or(Set::COMMON);
            let event = random_event(&mut random, set, &account, seal_memory);
            events.push(event);
            if !is_history(&start, &events) {
                events.pop();
                forbidden += 1;
                continue;
            }
            let event = &events[events.len() - 1];
            let answer = account.tell(plain_hmac, event);
            let expected = answer.map(|answer| (answer.refusal, answer.number));
            assert_eq!(perform(&mut device, event), expected);
            assert_eq!(device.material, account.material());
            assert_eq!(device.state, account.state(plain_hmac));
            assert_told_by_items(&account, ratchet);
        }
        restarts += count_restarts(&account);
        assert_audit_of_untouched(&start, &account);
    }
    assert!(restarts > 100, "{restarts} restarts");
    assert!(forbidden > 1000, "{forbidden} events");
}

fn count_restarts(account: &Account) -> usize {
    let items = account.items().iter();
    let restarts = items.filter(|item| matches!(item.head, Head::Restart { .. }));
    restarts.count()
}

fn open(log_lengths: &[u32], seal_length: u64) -> Call {
    Call::Open {
        log_lengths: log_lengths.to_vec(),
        seal_length,
    }
}

fn append(length: usize) -> Call {
    Call::Append {
        phase: 1,
        data: vec![7; length],
    }
}

#[test]
fn which_lists_are_histories() {
    let start = material(1, 2, 2, 1000);
    let is_history = |calls: &[Call]| {
        let events: Vec<Event> = calls.iter().cloned().map(Event::Call).collect();
        is_history(&start, &events)
    };
    assert!(is_history(&[]));
    assert!(is_history(&[append(3), Call::Close, open(&[3], 91)]));
    assert!(is_history(&[open(&[0], 0), append(0), append(3)]));
    // An accepted open half way through a chunk, or given other lengths.
    assert!(!is_history(&[append(3), open(&[3], 50)]));
    assert!(!is_history(&[append(3), Call::Close, open(&[4], 91)]));
    assert!(!is_history(&[append(3), Call::Close, open(&[3], 90)]));
    assert!(!is_history(&[open(&[1], 0)]));
    // A refused one may come at any time and be given any.
    assert!(is_history(&[
        append(3),
        open(&[3, 4], 50),
        open(&[9000], 0)
    ]));
    assert!(is_history(&[open(&[0], 1001)]));
}

#[test]
fn which_material_starts_a_history() {
    let starts = |change: fn(&mut Material)| {
        let mut start = material(1, 2, 2, 1000);
        change(&mut start);
        is_history(&start, &[])
    };
    assert!(starts(|_| ()));
    assert!(!starts(|start| start.store.push(1)));
    assert!(!starts(|start| start.log_memory.push(1)));
    assert!(!starts(|start| start.store[50..].fill(0)));
    assert!(starts(|start| start.seal_memory.clear()));
}

/// From a refused open with items standing to the next open not refused.
#[test]
fn account_refuses_by_6_after_a_refused_open() {
    let mut account = Account::start(&material(1, 3, 1, 1000)).expect("unused");
    let mut refusal = |call| account.call(plain_hmac, &call).refusal;
    assert_eq!(refusal(open(&[], 0)), 5);
    assert_eq!(refusal(append(3)), 0);
    assert_eq!(refusal(open(&[], 0)), 5);
    assert_eq!(refusal(append(3)), 6);
    assert_eq!(refusal(Call::Close), 6);
    assert_eq!(refusal(open(&[3], 50)), 0);
    assert_eq!(refusal(append(3)), 0);
}

/// One phase, four chunks, N = 3, two items, and the power lost.
fn cut_account() -> Account {
    let mut account = Account::start(&material(1, 4, 3, 1000)).expect("unused");
    for _ in 0..2 {
        assert_eq!(account.call(plain_hmac, &append(3)).refusal, 0);
    }
    account.cut();
    account
}

fn restart(number: u32) -> Call {
    Call::Restart { number }
}

#[test]
fn account_behind_a_cut() {
    let mut account = cut_account();
    assert!(account.is_half_used());
    assert_eq!(account.waiting(), 2);
    let tell = |account: &mut Account, call| {
        let answer = account.call(plain_hmac, &call);
        (answer.refusal, answer.number)
    };
    for call in [append(3), Call::Close, restart(2), restart(0)] {
        assert_eq!(tell(&mut account, call), (6, 0));
    }
    // A second cut changes nothing.
    account.cut();
    assert_eq!(account.waiting(), 2);
    assert_eq!(tell(&mut account, open(&[6], 100)), (0, 0));
    assert_eq!(tell(&mut account, Call::Close), (0, 0));
    assert_eq!(tell(&mut account, restart(0)), (27, 0));
    assert_eq!(tell(&mut account, restart(3)), (27, 0));
    assert_eq!(tell(&mut account, restart(2)), (0, 3));
    assert_eq!(account.waiting(), 0);
    assert!(account.is_half_used());
    assert_eq!(tell(&mut account, restart(1)), (27, 0));
    assert_eq!(tell(&mut account, append(1)), (0, 4));
    assert_eq!(tell(&mut account, Call::Close), (0, 1));
    assert!(!account.is_half_used());
    assert_eq!(account.items().len(), 5);
}

/// With no item standing, or with no chunk half used, a cut leaves none to wait.
#[test]
fn account_of_cuts_between_chunks() {
    let mut account = Account::start(&material(1, 4, 1, 1000)).expect("unused");
    account.cut();
    assert_eq!(account.call(plain_hmac, &append(3)).refusal, 0);
    account.cut();
    assert!(!account.is_half_used());
    assert_eq!(account.call(plain_hmac, &append(3)).refusal, 6);
    assert_eq!(account.call(plain_hmac, &open(&[3], 50)).refusal, 0);
    assert_eq!(account.call(plain_hmac, &append(3)).refusal, 0);
}

#[test]
fn which_lists_with_cuts_are_histories() {
    let start = material(1, 4, 3, 1000);
    let call = |call: &Call| Event::Call(call.clone());
    let before = [call(&append(3)), call(&append(3)), Event::Cut];
    let is_history = |calls: &[Call]| {
        let events: Vec<Event> = before
            .iter()
            .cloned()
            .chain(calls.iter().map(call))
            .collect();
        is_history(&start, &events)
    };
    let reopen = open(&[6], 100);
    assert!(is_history(&[]));
    assert!(is_history(&[reopen.clone(), restart(2), append(1)]));
    // Refused by 6, 27 and 8.
    assert!(is_history(&[append(1), restart(2), restart(1)]));
    assert!(is_history(&[reopen.clone(), restart(0), restart(3)]));
    assert!(is_history(&[reopen.clone(), append(0)]));
    // Nothing is written.
    assert!(is_history(&[reopen.clone(), Call::Close, reopen.clone()]));
    assert!(is_history(&[reopen.clone(), restart(2), restart(2)]));
    // Other lengths, an entry before the restart, another number, and a second
    // restart.
    assert!(!is_history(&[open(&[5], 100)]));
    assert!(!is_history(&[open(&[6], 99)]));
    assert!(!is_history(&[reopen.clone(), append(1)]));
    assert!(!is_history(&[reopen.clone(), restart(1)]));
    let closed = [reopen, restart(2), Call::Close];
    assert!(is_history(&closed));
    assert!(is_history(&[&closed[..], &[append(1)]].concat()));
    assert!(!is_history(&[&closed[..], &[restart(2)]].concat()));
}

/// b after each item, N = 3, with a restart behind two items.
#[test]
fn items_safe_after_a_compromise() {
    let mut account = Account::start(&material(1, 4, 3, 1000)).expect("unused");
    let mut safe = vec![account.safe_count()];
    let mut tell = |account: &mut Account, call: Call| {
        assert_eq!(account.call(plain_hmac, &call).refusal, 0);
        safe.push(account.safe_count());
    };
    for _ in 0..5 {
        tell(&mut account, append(1));
    }
    account.cut();
    tell(&mut account, open(&[5], 250));
    tell(&mut account, restart(2));
    tell(&mut account, Call::Close);
    tell(&mut account, append(1));
    assert_eq!(safe, [0, 1, 1, 1, 4, 4, 4, 6, 6, 9]);
}
