//! Whole histories: the library's calls beside the account that is told from
//! calls and cuts alone, then the audit of what they left.

use pahyndoi::model::{
    Account, Call, Event, HMAC_LENGTH, Head, Item, Material, Set, State, count_of_last_chunk,
    is_half_used_by_items, is_history, is_history_by_calls, plain_hmac,
};

use crate::answer::split;
use crate::calls::{self, assert_same_material};
use crate::device::{Device, Shape};
use crate::honest;
use crate::lent::Stand;
use crate::library;
use crate::presentation::Presentation;
use crate::random::{Case, Random};
use crate::requests::random_number;
use crate::tally::Tally;

pub const CUT_UNUSED: &str = "cuts before the first item";
pub const CUT_BETWEEN: &str = "cuts between two chunks";
pub const CUT_HALF_WAY: &str = "cuts half way through a chunk";
pub const CUT_AGAIN: &str = "cuts while a chunk waits";
pub const RESTARTED: &str = "accepted with restarts";
pub const WAITING: &str = "refused with a chunk that waits";
pub const STATE_LOST: &str = "state lost";
pub const KEY_HELD: &str = "state with a held key";
pub const STILL_ONE: &str = "altered lists that are histories";
pub const NONE: &str = "altered lists that are none";
const ENTRY_MISPLACED: &str = "entries out of place, refused by 17";
const RESTART_MISPLACED: &str = "restarts out of place, refused by 17";

/// What is counted.
pub const COUNTED: [&str; 10] = [
    CUT_UNUSED,
    CUT_BETWEEN,
    CUT_HALF_WAY,
    CUT_AGAIN,
    RESTARTED,
    WAITING,
    STATE_LOST,
    KEY_HELD,
    STILL_ONE,
    NONE,
];

/// What is counted behind histories.
pub const MISPLACED: [&str; 2] = [ENTRY_MISPLACED, RESTART_MISPLACED];

/// How many other lists are made of a history.
const ALTERED: usize = 4;

/// A device that the library's calls alone bring on, and its account.
pub struct Recorded {
    pub start: Material,
    pub set: Set,
    pub device: Device,
    pub account: Account,
    events: Vec<Event>,
    /// The data length of most appends.
    usual_length: usize,
}

/// Makes and checks a history, mostly brings it to an end and audits what it
/// left.
pub fn check_history(case: &mut Case, tally: &mut Tally) -> Recorded {
    let shape = random_shape(&mut case.random, case.own_set);
    let mut recorded = Recorded::new(&mut case.random, &shape);
    recorded.go_on(case, tally, 70);
    if !case.random.once_in(3) {
        recorded.finish(tally);
    }
    recorded.check(&mut case.random, tally);
    recorded
}

/// The same of a short history on a small card, mostly not brought to an end; now
/// and then a refused open takes the state.
pub fn check_short_history(case: &mut Case, tally: &mut Tally) -> Recorded {
    let shape = small_shape(&mut case.random, case.own_set);
    let mut recorded = Recorded::new(&mut case.random, &shape);
    recorded.go_on(case, tally, 16);
    match case.random.up_to(7) {
        0 | 1 => recorded.finish(tally),
        2 => {
            let open = recorded.refused_open(&mut case.random);
            recorded.make(Event::Call(open), tally);
        }
        _ => (),
    }
    recorded.check(&mut case.random, tally);
    recorded
}

fn random_shape(random: &mut Random, own_set: Option<Set>) -> Shape {
    let most_keys = random.pick(&[1, 2, 3, 5, 12]);
    Shape {
        own_set,
        phases: random.between(1, 8),
        chunk_count: random.between(1, 40),
        ratchet: match random.once_in(100) {
            true => 256,
            false => random.between(1, most_keys),
        },
        seal_memory: random.pick(&[0, 500, 3000, 20_000]) + random.up_to(100),
    }
}

/// Few chunks and keys, so that each can be tried.
fn small_shape(random: &mut Random, own_set: Option<Set>) -> Shape {
    Shape {
        own_set,
        phases: random.between(1, 2),
        chunk_count: random.between(1, 6),
        ratchet: random.pick(&[1, 2, 3, 3, 4, 5]),
        seal_memory: 2000,
    }
}

/// Whether these are a history. Fails where the account's refusals and those of
/// the calls do not say the same.
fn told_by_both(start: &Material, events: &[Event]) -> bool {
    let by_account = is_history(no_hash, start, events);
    let by_calls = is_history_by_calls(no_hash, start, events);
    assert_eq!(by_account, by_calls, "history: by account, by calls");
    by_account
}

/// No refusal of a call hangs on the hash.
fn no_hash(_: &[u8], _: &[&[u8]]) -> [u8; HMAC_LENGTH] {
    [1; HMAC_LENGTH]
}

fn describe(event: &Event) -> String {
    match event {
        Event::Cut => "cut".to_string(),
        Event::Call(call) => calls::describe(call),
    }
}

/// Short data, or as long as allowed.
fn usual_length(random: &mut Random, set: Set) -> usize {
    let longest = set.data_limit as usize;
    random.pick(&[5, 20, longest]).min(longest)
}

fn is_restart(item: &Item) -> bool {
    matches!(item.head, Head::Restart { .. })
}

impl Recorded {
    fn new(random: &mut Random, shape: &Shape) -> Recorded {
        let start = shape.material(random);
        Recorded {
            account: Account::start(&start).expect("an unused store"),
            device: Device {
                material: start.clone(),
                state: State::default(),
            },
            set: shape.set(),
            start,
            events: Vec::new(),
            usual_length: usual_length(random, shape.set()),
        }
    }

    /// Up to so many events.
    fn go_on(&mut self, case: &mut Case, tally: &mut Tally, most: usize) {
        for number in 0..case.random.up_to(most) {
            let event = self.random_event(&mut case.random);
            case.step = format!("history, event {number}: {}", describe(&event));
            self.make(event, tally);
        }
        case.step = "end of the history".to_string();
    }

    /// What was made is a history, and the audit accepts what it left.
    fn check(&self, random: &mut Random, tally: &mut Tally) {
        let is_history = is_history(plain_hmac, &self.start, &self.events);
        assert!(is_history, "not a history");
        self.audit(random, tally);
    }

    /// An event that a history may go on with, or not.
    fn any_event(&self, random: &mut Random) -> Event {
        match random.once_in(20) {
            true => Event::Cut,
            false => Event::Call(self.random_call(random)),
        }
    }

    /// An event that a history may go on with.
    fn random_event(&self, random: &mut Random) -> Event {
        let event = self.any_event(random);
        match self.account.allows(&event) {
            true => event,
            false => self.honest_step(),
        }
    }

    fn random_call(&self, random: &mut Random) -> Call {
        let half_used = self.account.is_half_used();
        match random.up_to(22) {
            0..=14 => self.random_append(random),
            15 if !half_used || random.once_in(4) => self.refused_open(random),
            16 => Call::Close,
            17 | 18 => self.random_restart(random),
            _ => match self.honest_step() {
                Event::Call(call) => call,
                Event::Cut => Call::Close,
            },
        }
    }

    /// The next event on the way to the end of a chunk, or an open there. Where
    /// a refused open took the state half way, only a cut leads on.
    fn honest_step(&self) -> Event {
        let lost = self.account.is_state_lost();
        let offset = self.account.position().offset;
        let number = self.account.waiting();
        Event::Call(match (offset, lost) {
            (1.., true) => return Event::Cut,
            (1.., false) => Call::Close,
            (0, false) if number > 0 => Call::Restart { number },
            (0, _) => honest::reopen(&self.account),
        })
    }

    /// Cut, open, restart and close, as far as they are due.
    fn finish(&mut self, tally: &mut Tally) {
        for _ in 0..4 {
            self.make(self.honest_step(), tally);
        }
        self.make(Event::Call(Call::Close), tally);
    }

    /// With the number of the chunk that waits, where one does, or with another.
    fn random_restart(&self, random: &mut Random) -> Call {
        let number = match random.once_in(2) {
            true => self.account.waiting(),
            false => random_number(random, self.ratchet()),
        };
        Call::Restart { number }
    }

    fn ratchet(&self) -> u32 {
        self.device.header().expect("a store").ratchet
    }

    fn random_append(&self, random: &mut Random) -> Call {
        let phases = self.account.log_lengths().len();
        let phase = match random.up_to(11) {
            0 => random.pick(&[0, phases + 1, 255]),
            1..=5 => 1,
            _ => random.between(1, phases),
        };
        let limit = self.set.data_limit as usize;
        let length = match random.once_in(4) {
            true => random.pick(&[0, 1, 46, 47, limit - 1, limit + 1]),
            false => self.usual_length,
        };
        Call::Append {
            phase: phase as u8,
            data: random.bytes(length),
        }
    }

    fn refused_open(&self, random: &mut Random) -> Call {
        let mut log_lengths = self.account.log_lengths();
        let mut seal_length = self.account.seal_length();
        match random.up_to(3) {
            0 => log_lengths.push(0),
            1 => log_lengths.clear(),
            2 => log_lengths[0] = self.set.log_capacity + 1,
            _ => seal_length = self.start.seal_memory.len() as u64 + 1,
        }
        Call::Open {
            log_lengths,
            seal_length,
        }
    }

    /// One event more of a history.
    fn make(&mut self, event: Event, tally: &mut Tally) {
        self.perform(&event, tally);
        self.assert_told_by_items();
        self.events.push(event);
    }

    /// Fails where a call's answer, the state or a byte is not the account's.
    fn perform(&mut self, event: &Event, tally: &mut Tally) {
        match event {
            Event::Cut => self.cut(tally),
            Event::Call(call) => self.call(call, tally),
        }
        assert_same_material(&self.device.material, &self.account.material());
        let state = self.account.state(plain_hmac);
        assert_eq!(self.device.state, state, "states: ours, account's");
        tally.count(STATE_LOST, usize::from(self.account.is_state_lost()));
        tally.count(KEY_HELD, usize::from(state.position.offset > 0));
    }

    /// The items alone say whether a chunk is half used, and the number of the
    /// restart that is due.
    fn assert_told_by_items(&self) {
        let items = self.account.items();
        let half_used = is_half_used_by_items(items, self.ratchet());
        assert_eq!(
            half_used,
            self.account.is_half_used(),
            "by items, account's"
        );
        let Some(last) = items.last() else {
            return;
        };
        let count = count_of_last_chunk(items);
        assert_eq!(count, last.head.position().offset + 1);
        match self.account.waiting() {
            0 => assert_eq!(count % self.ratchet(), self.account.position().offset),
            waiting => assert_eq!(count, waiting, "by items, the one that waits"),
        }
    }

    fn call(&mut self, call: &Call, tally: &mut Tally) {
        let (answer, after) = library::perform(Stand::Shifted(0), &self.device, call);
        let expected = self.account.call(plain_hmac, call);
        let expected = (expected.refusal, expected.number);
        assert_eq!(split(answer), expected, "answers: ours, account's");
        self.device = after;
        tally.note(calls::name(call), answer);
    }

    /// The power is lost between two calls.
    fn cut(&mut self, tally: &mut Tally) {
        let account = &self.account;
        let counted = match account.position().offset {
            1.. => CUT_HALF_WAY,
            0 if account.waiting() > 0 => CUT_AGAIN,
            0 if account.items().is_empty() => CUT_UNUSED,
            0 => CUT_BETWEEN,
        };
        tally.count(counted, 1);
        self.account.cut();
        self.device.state = State::default();
    }

    /// The account's refusals and those of the calls tell the same histories:
    /// this one, and others made of it that are none, or still are.
    pub fn compare_lists(&self, random: &mut Random, tally: &mut Tally) {
        assert!(told_by_both(&self.start, &self.events), "not a history");
        for _ in 0..ALTERED {
            let counted = match told_by_both(&self.start, &self.altered(random)) {
                true => STILL_ONE,
                false => NONE,
            };
            tally.count(counted, 1);
        }
    }

    /// Goes on with any events; no open among them does its work but half way
    /// through no chunk and with the lengths reached. The audit refuses what is
    /// left by 17 just where one is out of place, at the item that the first of
    /// these wrote.
    pub fn go_on_anyhow(mut self, case: &mut Case, tally: &mut Tally) {
        let mut misplaced = None;
        if case.random.once_in(2) {
            self.perform(&Event::Cut, tally);
            let reopen = honest::reopen(&self.account);
            self.perform(&Event::Call(reopen), tally);
        }
        for number in 0..case.random.up_to(20) {
            let event = self.any_event(&mut case.random);
            case.step = format!("behind the history, event {number}: {}", describe(&event));
            if misplaced.is_none() && !self.account.allows(&event) {
                misplaced = Some(self.account.items().len() as u32);
                let is_entry = matches!(event, Event::Call(Call::Append { .. }));
                tally.count(
                    if is_entry {
                        ENTRY_MISPLACED
                    } else {
                        RESTART_MISPLACED
                    },
                    1,
                );
            }
            self.perform(&event, tally);
        }
        case.step = "behind the history, audit".to_string();
        let answer = split(self.left().compare_audits(&mut case.random, tally));
        match misplaced {
            Some(item) => assert_eq!(answer, (17, item)),
            None => assert_ne!(answer.0, 17),
        }
    }

    /// Untouched, with the lengths reached.
    fn left(&self) -> Presentation {
        Presentation::left(
            &self.start,
            &self.device.material,
            &self.account.log_lengths(),
            self.account.seal_length(),
        )
    }

    /// The events with one more among them, one fewer or two exchanged.
    fn altered(&self, random: &mut Random) -> Vec<Event> {
        let mut events = self.events.clone();
        let place = random.up_to(events.len());
        match random.up_to(3) {
            0 if place < events.len() => drop(events.remove(place)),
            1 if place < events.len() => {
                let other = random.index(events.len());
                events.swap(place, other);
            }
            _ => events.insert(place, self.any_event(random)),
        }
        events
    }

    /// Untouched material is accepted with the true count, but for a chunk
    /// that is still half used.
    fn audit(&self, random: &mut Random, tally: &mut Tally) {
        let answer = self.left().compare(random, tally);
        let expected = match self.account.is_half_used() {
            true => (22, 0),
            false => (0, self.account.items().len() as u32),
        };
        assert_eq!(split(answer), expected, "audit of untouched material");
        if expected.0 == 0 && self.account.items().iter().any(is_restart) {
            tally.count(RESTARTED, 1);
        }
        tally.count(WAITING, usize::from(self.account.waiting() > 0));
    }
}
