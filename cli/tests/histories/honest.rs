//! What a controller left that kept to the rules.

use pahyndoi::model::{Account, Call, Event, Item, Material, Set, plain_hmac};

use crate::device::Shape;
use crate::presentation::Presentation;
use crate::random::Random;

/// A history's material, with its items apart.
#[derive(Clone)]
pub struct Honest {
    pub set: Set,
    pub presentation: Presentation,
    pub items: Vec<Item>,
}

/// Counts that leave every damage something to alter.
pub fn random_shape(random: &mut Random, own_set: Option<Set>) -> Shape {
    Shape {
        own_set,
        phases: random.pick(&[1, 1, 2, 2, 3, 8]),
        chunk_count: random.between(1, 12),
        ratchet: random.pick(&[1, 1, 2, 3, 4, 7, 16]),
        seal_memory: 0,
    }
}

/// Two histories of one store with different data; the second is what a
/// forger might mix into the first.
pub fn random_pair(random: &mut Random, own_set: Option<Set>) -> (Honest, Honest) {
    let shape = random_shape(random, own_set);
    let mut start = shape.material(random);
    let items = shape.chunk_count * shape.ratchet;
    start.seal_memory = vec![0; shape.set().entry_length() * items];
    let count = random.up_to(items);
    let first = random_history(random, &start, &shape, count);
    (first, random_history(random, &start, &shape, count))
}

/// Mostly with a close at the end.
fn random_history(random: &mut Random, start: &Material, shape: &Shape, count: usize) -> Honest {
    let mut told = Told::random(random, start, shape, count);
    if !random.once_in(10) {
        told.tell(Event::Call(Call::Close));
    }
    of_account(start, shape.set(), &told.account)
}

/// A history in which no chunk is left to wait.
pub struct Told {
    pub events: Vec<Event>,
    account: Account,
}

impl Told {
    /// This many appends, some closes and some cuts among them.
    pub fn random(random: &mut Random, start: &Material, shape: &Shape, count: usize) -> Told {
        let longest = shape.set().data_limit as usize;
        let between = random.pick(&[3, 10, 1000]);
        let mut told = Told {
            events: Vec::new(),
            account: Account::start(start).expect("an unused store"),
        };
        for _ in 0..count {
            if random.once_in(12) {
                told.tell(Event::Call(Call::Close));
            }
            if random.once_in(between) && !told.is_in_last_chunk(shape) {
                told.cut();
            }
            let length = random.pick(&[1, 2, 7, 16, 29, 30, 46, 47, 110, longest]);
            told.tell(Event::Call(Call::Append {
                phase: random.between(1, shape.phases) as u8,
                data: random.bytes(length.min(longest)),
            }));
        }
        told
    }

    pub fn tell(&mut self, event: Event) {
        self.account.tell(plain_hmac, &event);
        self.events.push(event);
    }

    /// Whether there is no chunk for a restart.
    fn is_in_last_chunk(&self, shape: &Shape) -> bool {
        self.account.position().chunk as usize + 1 >= shape.chunk_count
    }

    /// Loses the power, opens again, and restarts where a chunk was cut.
    fn cut(&mut self) {
        self.tell(Event::Cut);
        self.tell(Event::Call(reopen(&self.account)));
        let number = self.account.waiting();
        if number > 0 {
            self.tell(Event::Call(Call::Restart { number }));
        }
    }
}

/// An open with the lengths reached.
pub fn reopen(account: &Account) -> Call {
    Call::Open {
        log_lengths: account.log_lengths(),
        seal_length: account.seal_length(),
    }
}

/// Untouched material.
pub fn of_account(start: &Material, set: Set, account: &Account) -> Honest {
    Honest {
        set,
        presentation: Presentation::left(
            start,
            &account.material(),
            &account.log_lengths(),
            account.seal_length(),
        ),
        items: account.items().to_vec(),
    }
}
