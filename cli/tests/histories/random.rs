//! Numbers that are the same in every run: each case has a generator of its
//! own, so that it can be made again without those before it.

use std::env;

use pahyndoi::model::Set;

use crate::sets;

const SEED: u64 = 0x5ea1_ed10_65a5_1234;

/// The seed of the run, and how many cases it tries with stores of each kind.
#[derive(Clone, Copy)]
pub struct Run {
    pub seed: u64,
    pub cases: usize,
    /// Whether enough cases are tried to meet every refusal.
    pub whole: bool,
}

impl Run {
    /// `PAHYNDOI_SEED` and `PAHYNDOI_CASES` take the place of the fixed seed
    /// and of this many cases.
    pub fn new(cases: usize) -> Run {
        let seed = number("PAHYNDOI_SEED").unwrap_or(SEED);
        let tried = number("PAHYNDOI_CASES").map_or(cases, |count| count as usize);
        println!("seed {seed:#018x}, cases: {tried}");
        Run {
            seed,
            cases: tried,
            whole: tried >= cases,
        }
    }

    /// The cases with a store of kind 1 and those of kind 6, in turns.
    pub fn each(&self) -> impl Iterator<Item = Case> {
        let numbers = 0..self.cases;
        numbers.flat_map(|number| [self.case(number), self.case_with_set(number)])
    }

    /// With a store of kind 1.
    pub fn case(&self, number: usize) -> Case {
        Case {
            seed: self.seed,
            number,
            own_set: None,
            random: Random::new(self.seed, number),
            step: String::new(),
        }
    }

    /// With a store of kind 6: the first ones have the corners.
    fn case_with_set(&self, number: usize) -> Case {
        let mut random = Random::new(!self.seed, number);
        Case {
            seed: self.seed,
            number,
            own_set: Some(sets::nth(&mut random, number)),
            random,
            step: String::new(),
        }
    }
}

/// The number in a variable, decimal or, behind 0x, hexadecimal.
fn number(name: &str) -> Option<u64> {
    let text = env::var(name).ok()?;
    let parsed = match text.strip_prefix("0x") {
        Some(digits) => u64::from_str_radix(digits, 16),
        None => text.parse(),
    };
    Some(parsed.unwrap_or_else(|error| panic!("{name} is {text}: {error}")))
}

/// One case of a run. If it fails, it says how it can be made again.
pub struct Case {
    seed: u64,
    number: usize,
    /// What a store of kind 6 names; none in cases with one of kind 1.
    pub own_set: Option<Set>,
    pub random: Random,
    /// What is being tried.
    pub step: String,
}

impl Drop for Case {
    fn drop(&mut self) {
        if std::thread::panicking() {
            let Case {
                seed,
                number,
                own_set,
                step,
                ..
            } = self;
            eprintln!("PAHYNDOI_SEED={seed:#018x}, case {number}, {own_set:?}, {step}");
        }
    }
}

/// A splitmix64 generator.
pub struct Random(u64);

impl Random {
    fn new(seed: u64, case: usize) -> Self {
        let mut mixer = Random(seed ^ case as u64);
        Random(mixer.next())
    }

    pub fn next(&mut self) -> u64 {
        self.0 = self.0.wrapping_add(0x9e37_79b9_7f4a_7c15);
        let mut value = self.0;
        value = (value ^ (value >> 30)).wrapping_mul(0xbf58_476d_1ce4_e5b9);
        value = (value ^ (value >> 27)).wrapping_mul(0x94d0_49bb_1331_11eb);
        value ^ (value >> 31)
    }

    /// A number from 0 to `most`.
    pub fn up_to(&mut self, most: usize) -> usize {
        (self.next() % (most as u64 + 1)) as usize
    }

    /// A number from `least` to `most`.
    pub fn between(&mut self, least: usize, most: usize) -> usize {
        least + self.up_to(most - least)
    }

    /// True once in `count` times.
    pub fn once_in(&mut self, count: usize) -> bool {
        self.up_to(count - 1) == 0
    }

    /// The index of one of `count` things; there is at least one.
    pub fn index(&mut self, count: usize) -> usize {
        self.up_to(count - 1)
    }

    pub fn pick<T: Copy>(&mut self, choices: &[T]) -> T {
        choices[self.index(choices.len())]
    }

    pub fn bytes(&mut self, length: usize) -> Vec<u8> {
        let mut bytes = vec![0; length];
        for part in bytes.chunks_mut(8) {
            part.copy_from_slice(&self.next().to_le_bytes()[..part.len()]);
        }
        bytes
    }

    pub fn shuffle<T>(&mut self, things: &mut [T]) {
        for last in (1..things.len()).rev() {
            things.swap(last, self.up_to(last));
        }
    }
}
