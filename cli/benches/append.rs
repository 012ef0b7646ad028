//! How fast the proved append is beside the model's, all measured in one run.

#[path = "rivals/mod.rs"]
mod rivals;
#[path = "sets/mod.rs"]
mod sets;
#[path = "store/mod.rs"]
mod store;
#[path = "timing/mod.rs"]
mod timing;

use std::cell::RefCell;
use std::hint::black_box;
use std::time::Duration;

use pahyndoi::model::{self, Hmac, Material, Set};
use pahyndoi::{State, append_raw};
use sets::{LONG_ENTRIES, SHORT_TAGS};
use store::unused_store;
use timing::{Contender, minimum_times};

/// The set that the store names, none in kind 1, and the length of the data. Id,
/// head, 29 bytes of data and the padding fit one block; with 30 they do not.
const ROWS: [(Option<Set>, usize); 9] = [
    (None, 16),
    (None, 29),
    (None, 30),
    (None, 64),
    (None, 512),
    (Some(SHORT_TAGS), 16),
    (Some(SHORT_TAGS), 64),
    (Some(SHORT_TAGS), 512),
    (Some(LONG_ENTRIES), 4096),
];
const ALL_ROUNDS: Duration = Duration::from_secs(4);
const CHUNK_COUNT: u32 = 1024;
const RATCHET: u32 = 256;

/// Appends to compare before any is timed: they reach into a second chunk.
const COMPARED: u32 = RATCHET + 3;

/// A device of one phase. Each append goes to the front of the log and of the
/// seal memory, so that neither fills up.
struct Device<State> {
    own_set: Option<Set>,
    material: Material,
    state: State,
}

fn main() {
    rivals::print_heading("the append");
    print!("{:>8}{:>8}", "tag", "data");
    for name in rivals::NAMES {
        print!("{name:>12}");
    }
    println!();
    for (own_set, length) in ROWS {
        let data: Vec<u8> = (0..length).map(|index| (index * 167 + 13) as u8).collect();
        let tag_length = own_set.unwrap_or(Set::COMMON).tag_length;
        print!("{:>8}", format!("{tag_length} B"));
        print!("{:>8}", format!("{length} B"));
        for ratio in measure(own_set, &data) {
            print!("{ratio:>12.2}");
        }
        println!();
    }
}

fn measure(own_set: Option<Set>, data: &[u8]) -> [f64; 3] {
    for hmac in rivals::HMACS {
        compare(hmac, own_set, data);
    }
    let ours = RefCell::new(Device::<State>::new(own_set));
    let rivals =
        rivals::HMACS.map(|hmac| (hmac, RefCell::new(Device::<model::State>::new(own_set))));
    let appends = rivals
        .each_ref()
        .map(|(hmac, device)| || device.borrow_mut().append(*hmac, black_box(data)));
    let [first, second, third] = &appends;
    let contenders: [Contender<'_, u64>; 4] = [
        &|| ours.borrow_mut().append(black_box(data)),
        first,
        second,
        third,
    ];
    let [ours, times @ ..] = minimum_times(ALL_ROUNDS, &contenders);
    times.map(|time| time / ours)
}

/// Fails where ours and the model's leave other bytes.
fn compare(hmac: Hmac, own_set: Option<Set>, data: &[u8]) {
    let mut ours = Device::<State>::new(own_set);
    let mut models = Device::<model::State>::new(own_set);
    for number in 0..COMPARED {
        let answer = ours.append(data);
        assert_eq!(answer, u64::from(number));
        assert_eq!(answer, models.append(hmac, data));
        assert!(ours.material == models.material, "contenders disagree");
    }
}

impl<State: Default> Device<State> {
    fn new(own_set: Option<Set>) -> Self {
        let set = own_set.unwrap_or(Set::COMMON);
        Device {
            own_set,
            material: Material {
                store: unused_store(1, CHUNK_COUNT, RATCHET, own_set),
                log_memory: vec![0; set.log_capacity as usize],
                seal_memory: vec![0; set.entry_length()],
            },
            state: State::default(),
        }
    }

    /// A new store once in 262,144 appends.
    fn renew_if(&mut self, spent: bool) {
        if spent {
            *self = Device::new(self.own_set);
        }
    }
}

impl Device<State> {
    fn append(&mut self, data: &[u8]) -> u64 {
        self.renew_if(self.state.chunk == CHUNK_COUNT);
        self.state.lengths[0] = 0;
        self.state.seal_length = 0;
        let Material {
            store,
            log_memory,
            seal_memory,
        } = &mut self.material;
        append_raw(&mut self.state, store, log_memory, seal_memory, 1, data)
    }
}

impl Device<model::State> {
    fn append(&mut self, hmac: Hmac, data: &[u8]) -> u64 {
        self.renew_if(self.state.position.chunk == CHUNK_COUNT);
        self.state.log_lengths[0] = 0;
        self.state.seal_length = 0;
        let answer = model::append(hmac, &mut self.material, &mut self.state, 1, data);
        (u64::from(answer.refusal) << 32) + u64::from(answer.number)
    }
}
