//! How fast bytes are compared, and tested for zero, eight at a step beside
//! walks by single bytes and the C library's memcmp; and how long the calls
//! take that do little else. All measured in one run.

#[path = "memcmp/mod.rs"]
mod memcmp;
#[path = "store/mod.rs"]
mod store;
#[path = "timing/mod.rs"]
mod timing;

use std::hint::black_box;
use std::slice::ChunksExact;
use std::time::Duration;

use memcmp::Memcmp;
use pahyndoi::model::{
    self, KEY_LENGTH, LOG_CAPACITY, Material, PHASE_LIMIT, Presented, audit_packed, plain_hmac,
};
use pahyndoi::{State, audit_raw, open_raw};
use store::unused_store;
use timing::{Contender, minimum_times};

/// Where the chunks of a store begin: at no multiple of eight.
const HEADER_LENGTH: usize = 18;
const CHUNK_COUNT: u32 = 1024;
const RATCHET: u32 = 256;
const ALL_ROUNDS: Duration = Duration::from_millis(1500);

/// The columns, in the order of the contenders after ours.
const RIVALS: [&str; 2] = ["by bytes", "memcmp"];

/// The log lengths of a device that has sealed nothing.
const LENGTHS: [u32; PHASE_LIMIT] = [0; PHASE_LIMIT];
const LENGTH_BYTES: [u8; 4 * PHASE_LIMIT] = [0; 4 * PHASE_LIMIT];

fn main() {
    print_heading();
    for length in [KEY_LENGTH * CHUNK_COUNT as usize, KEY_LENGTH] {
        print_comparison(length);
        print_zero_test(length);
    }
    print_nonzero_test();
    println!();
    println!("Calls on a store of 1,024 chunks beside those of src/model:");
    println!("{:<36}{:>8}{:>12}", "call", "our µs", "model");
    print_audit();
    for burned in [0, CHUNK_COUNT - 1, CHUNK_COUNT] {
        print_open(burned);
    }
}

fn print_heading() {
    println!("Ratios: the rival's time / our time. 1.00 is level, above it ours is faster.");
    println!("Each time is the minimum over many short rounds, contenders taking turns.");
    println!("Ours goes eight bytes at a step over the chunks of a store, which begin at byte");
    println!("18: all of them in one call, or each in a call of its own.");
    println!("  by bytes    the proved walk by single bytes");
    println!("  memcmp      the C library's; for the zero test, of bytes with those one before");
    println!();
    print!("{:<14}{:>10}{:>8}", "call", "bytes", "calls");
    for rival in RIVALS {
        print!("{rival:>12}");
    }
    println!();
}

/// The chunks of two equal stores, so many bytes a call.
fn print_comparison(length: usize) {
    let first = unused_store(PHASE_LIMIT as u8, CHUNK_COUNT, RATCHET, None);
    let second = first.clone();
    let memcmp = Memcmp::new();
    print_ratios(
        "comparison",
        length,
        &[
            &|| in_parts(length, &first, &second, timed::same),
            &|| in_parts(length, &first, &second, timed::same_by_bytes),
            &|| in_parts(length, &first, &second, |a, b| memcmp.same(a, b)),
        ],
    );
}

/// Zeros in the place of chunks, so many bytes a call.
fn print_zero_test(length: usize) {
    let zeros = vec![0; HEADER_LENGTH + KEY_LENGTH * CHUNK_COUNT as usize];
    let memcmp = Memcmp::new();
    print_ratios(
        "zero test",
        length,
        &[
            &|| in_parts(length, &zeros, &zeros, |a, _| timed::all_zero(a)),
            &|| in_parts(length, &zeros, &zeros, |a, _| timed::all_zero_by_bytes(a)),
            &|| in_parts(length, &zeros, &zeros, |a, _| memcmp.all_zero(a)),
        ],
    );
}

/// Chunks that are in use: the others stop at their first byte.
fn print_nonzero_test() {
    let store = unused_store(PHASE_LIMIT as u8, CHUNK_COUNT, RATCHET, None);
    let memcmp = Memcmp::new();
    print_ratios(
        "not zero",
        KEY_LENGTH,
        &[
            &|| in_parts(KEY_LENGTH, &store, &store, |a, _| !timed::all_zero(a)),
            &|| {
                in_parts(KEY_LENGTH, &store, &store, |a, _| {
                    !timed::all_zero_by_bytes(a)
                })
            },
            &|| in_parts(KEY_LENGTH, &store, &store, |a, _| !memcmp.all_zero(a)),
        ],
    );
}

/// Whether the walk answers true of all parts of this length.
fn in_parts(
    length: usize,
    first: &[u8],
    second: &[u8],
    walk: impl Fn(&[u8], &[u8]) -> bool,
) -> bool {
    let mut pairs = parts(first, length).zip(parts(second, length));
    pairs.all(|(a, b)| walk(a, b))
}

/// What stands behind the header, in parts of this length.
fn parts(store: &[u8], length: usize) -> ChunksExact<'_, u8> {
    black_box(&store[HEADER_LENGTH..]).chunks_exact(length)
}

fn print_ratios(call: &str, length: usize, contenders: &[Contender<'_, bool>; 3]) {
    for contender in contenders {
        assert!(contender(), "a wrong answer");
    }
    let [ours, rivals @ ..] = minimum_times(ALL_ROUNDS, contenders);
    let calls = KEY_LENGTH * CHUNK_COUNT as usize / length;
    print!("{call:<14}{length:>10}{calls:>8}");
    for time in rivals {
        print!("{:>12.2}", time / ours);
    }
    println!();
}

/// The audit of a device that has sealed nothing: the stores are compared.
fn print_audit() {
    let device = device(0);
    let auditor_store = device.store.clone();
    let presented = Presented {
        device_store: &device.store,
        auditor_store: &auditor_store,
        log_memory: &device.log_memory,
        log_lengths: &[],
        seal_file: &[],
    };
    let ours = || {
        let store = black_box(&device.store);
        audit_raw(
            store,
            &auditor_store,
            &device.log_memory,
            &LENGTH_BYTES,
            &[],
        )
    };
    let models = || audit_packed(plain_hmac, black_box(&presented), &LENGTH_BYTES);
    assert_eq!((ours(), models()), (0, 0), "the material is not accepted");
    print_times("audit, no chunk burned, no item", &[&ours, &models]);
}

/// An open with so many chunks burned, which are tested for zero.
fn print_open(burned: u32) {
    let device = device(burned);
    let ours = || {
        let Material {
            store,
            log_memory,
            seal_memory,
        } = black_box(&device);
        let mut state = State::default();
        let answer = open_raw(&mut state, store, log_memory, &LENGTHS, seal_memory, 0);
        (answer, state.chunk)
    };
    let models = || {
        let (refusal, state) = model::open(black_box(&device), &LENGTHS, 0);
        (u64::from(refusal), state.position.chunk)
    };
    assert_eq!((ours(), models()), ((0, burned), (0, burned)));
    print_times(&format!("open, {burned} chunks burned"), &[&ours, &models]);
}

fn print_times<Answer>(call: &str, contenders: &[Contender<'_, Answer>; 2]) {
    let [ours, models] = minimum_times(ALL_ROUNDS, contenders);
    println!("{call:<36}{:>8.2}{:>12.2}", ours * 1e6, models / ours);
}

/// A device with so many chunks burned at the front, all memory empty.
fn device(burned: u32) -> Material {
    let mut store = unused_store(PHASE_LIMIT as u8, CHUNK_COUNT, RATCHET, None);
    store[HEADER_LENGTH..][..KEY_LENGTH * burned as usize].fill(0);
    Material {
        store,
        log_memory: vec![0; LOG_CAPACITY * PHASE_LIMIT],
        seal_memory: vec![],
    }
}
