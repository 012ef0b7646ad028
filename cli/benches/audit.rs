//! How fast the proved audit is beside the model's, whether an item takes
//! longer among many, and what a lookup adds, all measured in one run.

#[path = "rivals/mod.rs"]
mod rivals;
#[path = "sets/mod.rs"]
mod sets;
#[path = "store/mod.rs"]
mod store;
#[path = "timing/mod.rs"]
mod timing;

use std::hint::black_box;
use std::time::Duration;

use pahyndoi::model::{
    Hmac, Material, PHASE_LIMIT, Presented, Set, State, append, audit_packed, close,
};
use pahyndoi::{audit_raw, data_at_raw, item_at_raw};
use sets::{LONG_ENTRIES, SHORT_TAGS};
use store::unused_store;
use timing::{Contender, minimum_times};

/// Materials and how long the rounds take: 1,000 items, 10,000, and the largest
/// that a header of kind 1 allows.
const SIZES: [(Shape, Duration); 3] = [
    (Shape::common(5, 200), Duration::from_secs(2)),
    (Shape::common(50, 200), Duration::from_secs(3)),
    (Shape::common(1024, 256), Duration::from_secs(24)),
];
const GROWTH_ROUNDS: Duration = Duration::from_secs(12);

/// Materials of stores that name a set, with 1,000 items and 10,000; where
/// entries are long, so many that the logs are full.
const OWN_SETS: [(Shape, Duration); 3] = [
    (
        Shape::common(5, 200).with_set(SHORT_TAGS, 1),
        Duration::from_secs(2),
    ),
    (
        Shape::common(50, 200).with_set(SHORT_TAGS, 1),
        Duration::from_secs(3),
    ),
    (
        Shape::common(4, 128).with_set(LONG_ENTRIES, 4096),
        Duration::from_secs(2),
    ),
];

/// One item in so many is an entry, the others are fillers: with 65,536 entries
/// of one byte the logs of the largest material are full.
const ITEMS_FOR_AN_ENTRY: u32 = 4;

/// What a controller is to leave: how much of it, the set that its store names,
/// none in kind 1, and the length of an entry's data.
#[derive(Clone, Copy)]
struct Shape {
    chunk_count: u32,
    ratchet: u32,
    own_set: Option<Set>,
    data_length: usize,
}

/// What a controller left that closed each chunk after a quarter of its keys.
struct Left {
    shape: Shape,
    items: u32,
    unused_store: Vec<u8>,
    material: Material,
    state: State,
    last_entry: LastEntry,
}

/// The item number of the last entry, and where its last byte is.
#[derive(Clone, Copy, Default)]
struct LastEntry {
    number: u32,
    phase: u8,
    offset: u32,
}

fn main() {
    let sizes = SIZES.map(|(shape, _)| Left::new(shape));
    let own_sets = OWN_SETS.map(|(shape, _)| Left::new(shape));
    rivals::print_heading("the audit");
    println!("A quarter of the items are entries with data of this length, the others fillers.");
    print!("{:>8}{:>8}{:>8}", "tag", "data", "items");
    for name in rivals::NAMES {
        print!("{name:>12}");
    }
    println!();
    let rows = sizes.iter().zip(SIZES).chain(own_sets.iter().zip(OWN_SETS));
    for (left, (_, all_rounds)) in rows {
        print_ratios(left, all_rounds);
    }
    println!();
    print_growth(&sizes);
    println!();
    print_lookups(&sizes);
}

fn print_ratios(left: &Left, all_rounds: Duration) {
    let audits = rivals::HMACS.map(|hmac| move || left.audit_by_model(hmac));
    let [portable_c, libcrypto, plain_rust] = &audits;
    for answer in [left.audit(), portable_c(), libcrypto(), plain_rust()] {
        assert_eq!(answer, left.items.into(), "the material is not accepted");
    }
    let [ours, times @ ..] = minimum_times(
        all_rounds,
        &[&|| left.audit(), portable_c, libcrypto, plain_rust],
    );
    let (tag_length, data_length) = (left.shape.set().tag_length, left.shape.data_length);
    print!("{:>8}", format!("{tag_length} B"));
    print!("{:>8}{:>8}", format!("{data_length} B"), left.items);
    for time in times {
        print!("{:>12.2}", time / ours);
    }
    println!();
}

/// The smaller materials are audited so often that each turn has about as many
/// items as the largest one: all are disturbed alike.
fn print_growth(sizes: &[Left; 3]) {
    println!("Our time for an item, as a multiple of that among the fewest.");
    let largest = sizes[2].items;
    let repeats = sizes.each_ref().map(|left| largest / left.items);
    let audits = [0, 1, 2].map(|size| {
        let (left, count) = (&sizes[size], repeats[size]);
        move || (0..count).map(|_| left.audit()).sum::<u64>()
    });
    let [few, more, most] = &audits;
    let times = minimum_times(GROWTH_ROUNDS, &[few, more, most]);
    let an_item = [0, 1, 2].map(|size| times[size] / f64::from(repeats[size] * sizes[size].items));
    for (left, time) in sizes.iter().zip(an_item) {
        println!("{:>8}{:>12.2}", left.items, time / an_item[0]);
    }
}

fn print_lookups(sizes: &[Left; 3]) {
    println!("The audit's time as a multiple of that to look up the last entry's last byte.");
    println!("{:>8}{:>12}{:>12}", "items", "item_at", "data_at");
    for (left, (_, all_rounds)) in sizes.iter().zip(SIZES) {
        assert_eq!(left.item_at(), left.last_entry.number.into());
        assert_eq!(left.data_at(), left.last_data());
        let calls: [Contender<u64>; 3] = [&|| left.audit(), &|| left.item_at(), &|| left.data_at()];
        let [audit, item_at, data_at] = minimum_times(all_rounds / 2, &calls);
        let ratios = (audit / item_at, audit / data_at);
        println!("{:>8}{:>12.3}{:>12.3}", left.items, ratios.0, ratios.1);
    }
}

impl Shape {
    /// Of kind 1, with data of one byte.
    const fn common(chunk_count: u32, ratchet: u32) -> Shape {
        Shape {
            chunk_count,
            ratchet,
            own_set: None,
            data_length: 1,
        }
    }

    const fn with_set(self, set: Set, data_length: usize) -> Shape {
        Shape {
            own_set: Some(set),
            data_length,
            ..self
        }
    }

    fn set(&self) -> Set {
        self.own_set.unwrap_or(Set::COMMON)
    }

    fn unused_store(&self) -> Vec<u8> {
        unused_store(
            PHASE_LIMIT as u8,
            self.chunk_count,
            self.ratchet,
            self.own_set,
        )
    }
}

impl Left {
    fn new(shape: Shape) -> Left {
        let set = shape.set();
        let items = shape.chunk_count * shape.ratchet;
        let entries = (items / ITEMS_FOR_AN_ENTRY) as usize;
        // An entry is 9 bytes longer than a filler.
        let seal_length = set.filler_length() * items as usize + 9 * entries;
        let mut left = Left {
            shape,
            items,
            unused_store: shape.unused_store(),
            material: Material {
                store: shape.unused_store(),
                log_memory: vec![0; set.log_capacity as usize * PHASE_LIMIT],
                seal_memory: vec![0; seal_length],
            },
            state: State::default(),
            last_entry: LastEntry::default(),
        };
        for _ in 0..shape.chunk_count {
            left.use_chunk(shape.ratchet / ITEMS_FOR_AN_ENTRY);
        }
        left
    }

    /// Appends so many entries, to each phase in its turn, and closes.
    fn use_chunk(&mut self, entries: u32) {
        let [hmac, ..] = rivals::HMACS;
        let Left {
            shape,
            material,
            state,
            last_entry,
            ..
        } = self;
        for number in 0..entries {
            let phase = (number % PHASE_LIMIT as u32) as u8 + 1;
            let data = vec![number as u8; shape.data_length];
            let answer = append(hmac, material, state, phase, &data);
            assert_eq!(answer.refusal, 0);
            *last_entry = LastEntry {
                number: answer.number,
                phase,
                offset: state.log_lengths[usize::from(phase) - 1] - 1,
            };
        }
        assert_eq!(close(hmac, material, state).refusal, 0);
    }

    fn length_bytes(&self) -> Vec<u8> {
        let lengths = self.state.log_lengths.iter();
        lengths.flat_map(|length| length.to_le_bytes()).collect()
    }

    fn audit(&self) -> u64 {
        audit_raw(
            black_box(&self.material.store),
            &self.unused_store,
            &self.material.log_memory,
            &self.length_bytes(),
            &self.material.seal_memory,
        )
    }

    fn item_at(&self) -> u64 {
        item_at_raw(
            black_box(&self.material.store),
            &self.unused_store,
            &self.material.log_memory,
            &self.length_bytes(),
            &self.material.seal_memory,
            self.last_entry.phase,
            self.last_entry.offset,
        )
    }

    fn data_at(&self) -> u64 {
        data_at_raw(
            black_box(&self.material.store),
            &self.unused_store,
            &self.material.log_memory,
            &self.length_bytes(),
            &self.material.seal_memory,
            self.last_entry.phase,
            self.last_entry.offset,
        )
    }

    /// What `data_at` answers: the place of the last entry's data, and their
    /// length.
    fn last_data(&self) -> u64 {
        let LastEntry { phase, offset, .. } = self.last_entry;
        let length = self.shape.data_length as u64;
        let log = u64::from(self.shape.set().log_capacity) * u64::from(phase - 1);
        ((log + u64::from(offset) + 1 - length) << 32) + length
    }

    fn audit_by_model(&self, hmac: Hmac) -> u64 {
        let presented = Presented {
            device_store: black_box(&self.material.store),
            auditor_store: &self.unused_store,
            log_memory: &self.material.log_memory,
            log_lengths: &[],
            seal_file: &self.material.seal_memory,
        };
        audit_packed(hmac, &presented, &self.length_bytes())
    }
}
