//! What somebody who has every key of a device's store may present for it: some
//! of the device's items, and behind them anything that the audit takes.

use pahyndoi::model::{Head, Outcome, Position};

use crate::accounts::Recorded;
use crate::answer::split;
use crate::compromises::Compromise;
use crate::forgery::{due_behind, restart_at};
use crate::random::Random;
use crate::tally::Tally;

/// What is counted: by the outcomes that are true of all items.
pub const COUNTED: [&str; 4] = [
    "anything by who has every key, intact",
    "anything by who has every key, forged",
    "anything by who has every key, restored",
    "anything by who has every key, dropped",
];

const OUTCOMES: [Outcome; 4] = [
    Outcome::Intact,
    Outcome::Forged,
    Outcome::Restored,
    Outcome::Dropped,
];

/// The longest ratchet with which chunks are filled.
const MOST_KEYS: u32 = 12;

/// Fails where the audit refuses what is put together as it wants it, or where
/// the claim does not hold of it.
pub fn check(random: &mut Random, tally: &mut Tally, recorded: &Recorded) {
    let compromise = Compromise::new(recorded);
    if compromise.ratchet() > MOST_KEYS {
        return;
    }
    let least = random.pick(&[0, compromise.safe()]);
    let kept = random.between(least, compromise.items().len());
    let heads = compromise.random_heads(random, kept);
    let burned = due_behind(&heads, compromise.ratchet()).chunk;
    let mut forger = compromise.forger(burned, &compromise.lengths_of(&heads));
    if let Some(byte) = compromise.random_byte(random, &heads[kept..]) {
        forger.change_log(byte, random.pick(&[0, 1]));
    }
    let items = forger.seal_in_place(&heads);
    let presented = forger.present_cut(compromise.header.set(), items);
    let answer = presented.compare_audits(random, tally);
    assert_eq!(split(answer), (0, heads.len() as u32));
    let outcomes = compromise.outcomes(&presented, answer);
    for (outcome, counted) in OUTCOMES.iter().zip(COUNTED) {
        let is_true = outcomes.of_all.contains(outcome);
        tally.count(counted, usize::from(is_true));
    }
}

impl Compromise<'_> {
    /// So many of the device's items, and others behind them up to the end of a
    /// chunk.
    fn random_heads(&self, random: &mut Random, kept: usize) -> Vec<Head> {
        let mut heads = self.heads()[..kept].to_vec();
        let between = random.pick(&[2, 5, 20]);
        loop {
            let due = due_behind(&heads, self.ratchet());
            let is_end = due.chunk == self.header.chunk_count || random.once_in(between);
            if due.offset == 0 && is_end {
                return heads;
            }
            let is_last = due.chunk + 1 == self.header.chunk_count;
            heads.push(match due.offset > 0 && !is_last && random.once_in(3) {
                true => restart_at(due),
                false => self.random_head(random, &heads, due),
            });
        }
    }

    /// An entry behind the log of some phase, if it has room, or a filler.
    fn random_head(&self, random: &mut Random, before: &[Head], position: Position) -> Head {
        let set = self.header.set();
        let lengths = self.lengths_of(before);
        let index = random.index(lengths.len());
        let length = (random.between(1, 3) as u32).min(set.data_limit);
        let has_room = lengths[index] + length <= set.log_capacity;
        match has_room && random.once_in(2) {
            false => Head::Filler { position },
            true => Head::Entry {
                phase: index as u8 + 1,
                offset: lengths[index],
                length,
                position,
            },
        }
    }
}
