//! What was reached: how often each call gave each refusal, and other counts.

use std::collections::{BTreeMap, BTreeSet};

use pahyndoi::model::Set;

use crate::answer::split;

/// One tally for stores of kind 1 and one for those of kind 6.
#[derive(Default)]
pub struct Tallies {
    pub of_kind_1: Tally,
    pub of_kind_6: Tally,
}

impl Tallies {
    /// The tally for cases whose store names this set, or none.
    pub fn of(&mut self, own_set: Option<Set>) -> &mut Tally {
        match own_set {
            None => &mut self.of_kind_1,
            Some(_) => &mut self.of_kind_6,
        }
    }

    fn both(&self) -> [(&'static str, &Tally); 2] {
        [("kind 1", &self.of_kind_1), ("kind 6", &self.of_kind_6)]
    }

    pub fn print(&self) {
        for (kind, tally) in self.both() {
            println!("{kind}");
            tally.print();
        }
    }

    /// Fails where, with one of the kinds, the call gave one of these less often
    /// than that, or gave another.
    pub fn assert_all_met(&self, call: &'static str, refusals: &[u32], least: usize) {
        for (kind, tally) in self.both() {
            let given = tally.given(call);
            assert_eq!(given, refusals, "{kind}, {call}: given, looked for");
        }
        self.assert_met(call, refusals, least);
    }

    /// Fails where, with one of the kinds, the call gave one of these less often
    /// than that.
    pub fn assert_met(&self, call: &'static str, refusals: &[u32], least: usize) {
        for (_, tally) in self.both() {
            tally.assert_met(call, refusals, least);
        }
    }

    /// Fails where something was counted this often or less with one of the
    /// kinds.
    pub fn assert_more(&self, counted: &'static str, floor: usize) {
        for (kind, tally) in self.both() {
            let count = tally.counted(counted);
            assert!(count > floor, "{kind}, {counted}: {count}");
        }
    }
}

#[derive(Default)]
pub struct Tally {
    /// By call and refusal, 0 for none.
    answers: BTreeMap<(&'static str, u32), usize>,
    counts: BTreeMap<&'static str, usize>,
    /// By tag length, how often items were sealed or taken.
    tags: BTreeMap<u8, usize>,
}

impl Tally {
    pub fn note(&mut self, call: &'static str, answer: u64) {
        let (refusal, _) = split(answer);
        *self.answers.entry((call, refusal)).or_default() += 1;
    }

    /// Counts something else that was reached.
    pub fn count(&mut self, counted: &'static str, times: usize) {
        *self.counts.entry(counted).or_default() += times;
    }

    /// Counts work done with tags of the set's length.
    pub fn note_tags(&mut self, set: Set, times: usize) {
        *self.tags.entry(set.tag_length).or_default() += times;
    }

    fn answered(&self, call: &'static str, refusal: u32) -> usize {
        self.answers.get(&(call, refusal)).copied().unwrap_or(0)
    }

    fn counted(&self, counted: &'static str) -> usize {
        self.counts.get(counted).copied().unwrap_or(0)
    }

    /// A line for each refusal, a column for each call, then the other counts.
    pub fn print(&self) {
        let calls: BTreeSet<&str> = self.answers.keys().map(|key| key.0).collect();
        let refusals: BTreeSet<u32> = self.answers.keys().map(|key| key.1).collect();
        if !calls.is_empty() {
            let heading: String = calls.iter().map(|call| format!("{call:>9}")).collect();
            println!("refusal{heading}");
        }
        for refusal in refusals {
            let counts = calls.iter().map(|call| self.answered(call, refusal));
            let line: String = counts.map(|count| format!("{count:>9}")).collect();
            println!("{refusal:>7}{line}");
        }
        for (counted, count) in &self.counts {
            println!("{counted}: {count}");
        }
        if !self.tags.is_empty() {
            println!("by tag length: {:?}", self.tags);
        }
    }

    /// Fails where the call gave one of these less often than that.
    pub fn assert_met(&self, call: &'static str, refusals: &[u32], least: usize) {
        for refusal in refusals {
            let count = self.answered(call, *refusal);
            assert!(count >= least, "{call} refused by {refusal}: {count}");
        }
    }

    /// Fails where work was done with tags of some length from 16 to 32 less
    /// often than that, or with others.
    pub fn assert_all_tags(&self, least: usize) {
        let lengths: Vec<u8> = self.tags.keys().copied().collect();
        assert_eq!(lengths, (16..=32).collect::<Vec<u8>>(), "tag lengths");
        let rarest = self.tags.values().min().copied();
        assert!(rarest >= Some(least), "{:?}", self.tags);
    }

    /// The refusals that the call gave, in order.
    fn given(&self, call: &'static str) -> Vec<u32> {
        let given = self.answers.keys().filter(|key| key.0 == call);
        given.map(|key| key.1).collect()
    }
}
