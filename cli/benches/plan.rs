//! How fast the least ratchet of a plan is found beside plain Rust, all
//! measured in one run.

#[path = "timing/mod.rs"]
mod timing;

use std::hint::black_box;
use std::time::Duration;

use pahyndoi::{least_ratchet_raw, model};
use timing::{Contender, minimum_times};

const ALL_ROUNDS: Duration = Duration::from_millis(1500);
const CHUNKS: u32 = 1024;
const LARGEST_RATCHET: u32 = 256;
const REFUSED: u64 = 25 << 32;

/// The columns, in the order of the contenders after ours.
const RIVALS: [&str; 2] = ["upward", "halving"];

/// What is planned, the mean of its 64 counts, and the least ratchet.
const PLANS: [(&str, u32, u64); 4] = [
    ("few entries", 12, 1),
    ("a typical card", 240, 16),
    ("many entries", 4080, 256),
    ("too many entries", 4096, 0),
];

fn main() {
    print_heading();
    for (name, mean, ratchet) in PLANS {
        print_plan(name, &counts(mean), ratchet);
    }
}

fn print_heading() {
    println!("Ratios: the rival's time / our time. 1.00 is level, above it ours is faster.");
    println!("Each time is the minimum over many short rounds, contenders taking turns.");
    println!("The rivals are plain Rust with the same checks, on 64 counts:");
    println!("  upward      tries 1, 2, 3 and so on, as src/model does");
    println!("  halving     tries the middle of what is left");
    println!();
    print!("{:<18}{:>8}{:>8}", "plan", "ratchet", "our µs");
    for rival in RIVALS {
        print!("{rival:>12}");
    }
    println!();
}

/// Counts that differ by up to 15 and have this mean, less a half.
fn counts(mean: u32) -> Vec<u32> {
    (0..64).map(|index| mean - 8 + index * 7 % 16).collect()
}

fn print_plan(name: &str, counts: &[u32], ratchet: u64) {
    let contenders: [Contender<'_, u64>; 3] = [
        &|| least_ratchet_raw(black_box(counts), black_box(CHUNKS)),
        &|| upward(black_box(counts), black_box(CHUNKS)),
        &|| halving(black_box(counts), black_box(CHUNKS)),
    ];
    for contender in contenders {
        assert_eq!(contender(), ratchet, "a wrong answer");
    }
    let [ours, rivals @ ..] = minimum_times(ALL_ROUNDS, &contenders);
    print!("{name:<18}{ratchet:>8}{:>8.2}", ours * 1e6);
    for time in rivals {
        print!("{:>12.2}", time / ours);
    }
    println!();
}

fn upward(counts: &[u32], chunks: u32) -> u64 {
    model::least_ratchet(counts, chunks).packed()
}

fn halving(counts: &[u32], chunks: u32) -> u64 {
    let too_large = counts.iter().any(|count| *count > 65_536);
    if counts.len() > 64 || too_large || !(1..=1024).contains(&chunks) {
        return REFUSED;
    }
    let (mut low, mut high) = (1, LARGEST_RATCHET + 1);
    while low < high {
        let middle = low.midpoint(high);
        match model::chunks_needed(counts, middle) <= chunks {
            true => high = middle,
            false => low = middle + 1,
        }
    }
    match low > LARGEST_RATCHET {
        true => 0,
        false => low.into(),
    }
}
