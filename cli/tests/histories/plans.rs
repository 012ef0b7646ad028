//! Plans: the library's least ratchet beside the model's.

use std::collections::BTreeMap;

use pahyndoi::least_ratchet_raw;
use pahyndoi::model::{chunks_needed, least_ratchet};

use crate::answer::split;
use crate::lent::{Lent, Stand, assert_only_read};
use crate::random::Random;

const MOST_CHUNKS: u32 = 1024;

/// What stands around a list: read as a count of it, it changes the answer.
const GUARD: u32 = 65_536;

const LARGEST: u32 = u32::MAX;

/// Numbers around the limits of a plan, and those that lose high bits in 16.
const LENGTHS: [usize; 6] = [0, 1, 2, 63, 64, 65];
const COUNTS: [u32; 13] = [
    0, 1, 2, 255, 256, 257, 1024, 1025, 65_535, 65_536, 65_537, 131_072, LARGEST,
];
const CHUNKS: [u32; 13] = [
    0, 1, 2, 63, 64, 65, 256, 1023, 1024, 1025, 65_536, 65_537, LARGEST,
];

#[derive(Debug)]
pub struct Plan {
    pub counts: Vec<u32>,
    pub chunks: u32,
}

impl Plan {
    /// The packed answer. Fails where it is not the model's.
    pub fn compare(&self, stand: Stand) -> u64 {
        let lent = Lent::new(&self.counts, GUARD, stand);
        let answer = least_ratchet_raw(lent.content(), self.chunks);
        assert_only_read(lent, &self.counts);
        let expected = least_ratchet(&self.counts, self.chunks).packed();
        assert_eq!(split(answer), split(expected), "{self:?}: ours, model's");
        answer
    }
}

/// Each length with each chunk count and each count, all alike or one of them
/// among zeros.
pub fn at_the_edges() -> impl Iterator<Item = Plan> {
    let lists = LENGTHS
        .iter()
        .flat_map(|length| COUNTS.map(|c| (*length, c)));
    let lists = lists.flat_map(|(length, count)| [vec![count; length], alone(length, count)]);
    lists.flat_map(|counts| {
        CHUNKS.map(|chunks| Plan {
            counts: counts.clone(),
            chunks,
        })
    })
}

/// The count behind zeros.
fn alone(length: usize, count: u32) -> Vec<u32> {
    let mut counts = vec![0; length];
    if let Some(last) = counts.last_mut() {
        *last = count;
    }
    counts
}

/// As many chunks as some ratchet takes, often the largest, one more or one
/// less; now and then with a number at its limits.
pub fn random_plan(random: &mut Random) -> Plan {
    let ratchet = match random.once_in(6) {
        true => 256,
        false => random.between(1, 256) as u32,
    };
    let counts = random_counts(random, ratchet);
    let needed = chunks_needed(&counts, ratchet);
    let chunks = needed + random.pick(&[0, 0, 1, 2]);
    let mut plan = Plan {
        counts,
        chunks: chunks.saturating_sub(1),
    };
    if random.once_in(8) {
        spoil(random, &mut plan);
    }
    plan
}

/// Counts that together take at most about as many chunks as a card has.
fn random_counts(random: &mut Random, ratchet: u32) -> Vec<u32> {
    let length = match random.once_in(3) {
        true => random.pick(&LENGTHS[..5]),
        false => random.between(1, 64),
    };
    let share = MOST_CHUNKS / length.max(1) as u32;
    let chunks = match random.once_in(4) {
        true => share,
        false => random.up_to(share as usize) as u32,
    };
    let most = (chunks * ratchet).min(65_536);
    (0..length).map(|_| near(random, most, ratchet)).collect()
}

/// Up to the most: itself, a multiple of the ratchet, next to one, or any.
fn near(random: &mut Random, most: u32, ratchet: u32) -> u32 {
    let any = random.up_to(most as usize) as u32;
    let multiple = any - any % ratchet;
    match random.up_to(7) {
        0 => most,
        1 => multiple,
        2 => (multiple + 1).min(most),
        3 => multiple.saturating_sub(1),
        4 => 0,
        _ => any,
    }
}

fn spoil(random: &mut Random, plan: &mut Plan) {
    match random.up_to(3) {
        0 => plan.chunks = random.pick(&CHUNKS),
        1 => plan.counts.resize(random.between(60, 200), 0),
        _ if plan.counts.is_empty() => plan.counts.push(65_537),
        _ => {
            let place = random.index(plan.counts.len());
            plan.counts[place] = random.pick(&COUNTS);
        }
    }
}

/// How often each ratchet was the least, 0 for none, and how often a plan was
/// refused.
#[derive(Default)]
pub struct Outcomes {
    ratchets: BTreeMap<u32, usize>,
    refused: usize,
}

impl Outcomes {
    pub fn note(&mut self, answer: u64) {
        match split(answer) {
            (0, ratchet) => *self.ratchets.entry(ratchet).or_default() += 1,
            _ => self.refused += 1,
        }
    }

    fn count(&self, ratchet: u32) -> usize {
        self.ratchets.get(&ratchet).copied().unwrap_or(0)
    }

    /// The ratchet from 1 to 256 that was the answer least often.
    fn rarest(&self) -> usize {
        (1..=256)
            .map(|ratchet| self.count(ratchet))
            .min()
            .unwrap_or(0)
    }

    pub fn print(&self) {
        let answered: usize = self.ratchets.values().sum();
        println!("refused: {}, none lasts: {}", self.refused, self.count(0));
        println!("a ratchet lasts: {}", answered - self.count(0));
        println!("each of 1 to 256 at least {} times", self.rarest());
    }

    /// Fails where one kind of answer was met less often than that.
    pub fn assert_met(&self, times: usize) {
        assert!(self.refused >= times, "few plans were refused");
        assert!(self.count(0) >= times, "few plans were too large");
        assert!(self.rarest() >= times / 100, "a ratchet was seldom met");
    }
}
