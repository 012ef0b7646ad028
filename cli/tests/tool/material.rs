//! Material that a controller sealed, as files.

use pahyndoi::model::{Header, Set};
use pahyndoi::{Refusal, State, append, close, open, restart};

use crate::folder::Folder;

pub const ENTRY: usize = 50;
pub const FILLER: usize = 41;
pub const RESTART: usize = 45;

#[derive(Clone)]
pub struct Files {
    pub device: Vec<u8>,
    pub auditor: Vec<u8>,
    pub logs: Vec<u8>,
    pub lengths: Vec<u8>,
    pub seal: Vec<u8>,
}

impl Files {
    pub fn write(&self, folder: &Folder) {
        folder.write("device.store", &self.device);
        folder.write("auditor.store", &self.auditor);
        folder.write("logs.bin", &self.logs);
        folder.write("lengths.bin", &self.lengths);
        folder.write("seal.bin", &self.seal);
    }

    pub fn set_lengths(&mut self, lengths: &[u32]) {
        self.lengths = little_endian(lengths);
    }
}

fn little_endian(numbers: &[u32]) -> Vec<u8> {
    let bytes = numbers.iter().flat_map(|number| number.to_le_bytes());
    bytes.collect()
}

/// A store with chunks of 1, of 2 and so on.
pub fn store(phases: u8, chunks: u32, ratchet: u32) -> Vec<u8> {
    let mut store = vec![1, 1, 2, 3, 4, 5, 6, 7, 8, phases];
    store.extend(little_endian(&[chunks, ratchet]));
    store.extend((1..=chunks).flat_map(|number| [number as u8; 32]));
    store
}

/// The smallest set, one in which an entry can fill a log, the largest, and that
/// of kind 1.
pub const SETS: [Set; 4] = [
    set(16, 1, 512),
    set(16, 4096, 4096),
    set(32, 4096, 65_536),
    Set::COMMON,
];

pub const fn set(tag_length: u8, data_limit: u32, log_capacity: u32) -> Set {
    Set {
        tag_length,
        data_limit,
        log_capacity,
    }
}

/// Each parameter one beyond its range, on either side, and the words for it.
pub fn sets_out_of_range() -> [(Set, &'static str); 8] {
    [
        (
            set(15, 512, 8192),
            "names 15 as its tag length, and 16 to 32 are possible",
        ),
        (
            set(33, 512, 8192),
            "names 33 as its tag length, and 16 to 32 are possible",
        ),
        (
            set(32, 0, 8192),
            "names 0 as its data limit, and 1 to 4,096 are possible",
        ),
        (
            set(32, 4097, 8192),
            "names 4,097 as its data limit, and 1 to 4,096 are possible",
        ),
        (
            set(32, 1, 511),
            "names 511 as its log capacity, and 512 to 65,536 are possible",
        ),
        (
            set(32, 512, 65_537),
            "names 65,537 as its log capacity, and 512 to 65,536 are possible",
        ),
        (
            set(32, 513, 512),
            "names 512 as its log capacity, below its data limit, 513",
        ),
        (
            set(32, 4096, 4095),
            "names 4,095 as its log capacity, below its data limit, 4,096",
        ),
    ]
}

/// As [`store`], but of kind 6, be the set in range or not.
pub fn store_with(set: Set, phases: u8, chunks: u32, ratchet: u32) -> Vec<u8> {
    let common = store(phases, chunks, ratchet);
    let header = Header {
        own_set: Some(set),
        ..Header::parse(&common).expect("a store")
    };
    [&header.to_bytes(), &common[18..]].concat()
}

/// The lengths given to an open, and the phases and data appended behind it.
pub type Part<'a> = (&'a [u32], &'a [(u8, &'a [u8])]);

/// Opened with these lengths, these phases' data appended, closed.
pub fn sealed(unused: Vec<u8>, lengths: &[u32], entries: &[(u8, &[u8])]) -> Files {
    sealed_in_parts(unused, &[(lengths, entries)])
}

/// The same, and once more for each part, be its lengths those reached or not.
pub fn sealed_in_parts(unused: Vec<u8>, parts: &[Part]) -> Files {
    let mut device = Device::new(unused);
    for (lengths, entries) in parts {
        device.open(lengths);
        device.append_all(entries);
        device.close();
    }
    device.files()
}

/// A controller, call by call.
pub struct Device {
    unused: Vec<u8>,
    store: Vec<u8>,
    logs: Vec<u8>,
    seal: Vec<u8>,
    state: State,
}

impl Device {
    pub fn new(unused: Vec<u8>) -> Device {
        let header = Header::parse(&unused).expect("a store");
        Device {
            store: unused.clone(),
            unused,
            logs: vec![0; header.log_memory_length()],
            seal: vec![0; 4000],
            state: State::default(),
        }
    }

    /// As somebody has it who took these files and dropped the end of the seal
    /// file, with the logs cut to these lengths.
    pub fn taken(files: &Files, seal_length: usize, lengths: &[u32]) -> Device {
        let mut device = Device::new(files.auditor.clone());
        device.store.clone_from(&files.device);
        device.logs.clone_from(&files.logs);
        device.seal[..seal_length].copy_from_slice(&files.seal[..seal_length]);
        device.state.seal_length = seal_length as u64;
        device.open(lengths);
        device
    }

    /// With these log lengths and the seal length reached.
    pub fn open(&mut self, lengths: &[u32]) {
        let length = self.state.seal_length;
        self.state = open(&self.store, &self.logs, lengths, &self.seal, length).expect("open");
    }

    pub fn append_all(&mut self, entries: &[(u8, &[u8])]) {
        let Device {
            state,
            store,
            logs,
            seal,
            ..
        } = self;
        for (phase, data) in entries {
            append(state, store, logs, seal, *phase, data).expect("append");
        }
    }

    pub fn close(&mut self) {
        close(&mut self.state, &self.store, &self.logs, &mut self.seal).expect("close");
    }

    /// The power goes and comes back, and the device opens with the lengths
    /// reached.
    pub fn lose_power(&mut self) {
        let phases = Header::parse(&self.unused).expect("a store").phases;
        let lengths = self.state.lengths[..usize::from(phases)].to_vec();
        self.state = State {
            seal_length: self.state.seal_length,
            ..State::default()
        };
        self.open(&lengths);
    }

    pub fn restart(&mut self, number: u32) -> Result<u64, Refusal> {
        let Device {
            state,
            store,
            logs,
            seal,
            ..
        } = self;
        restart(state, store, logs, seal, number)
    }

    /// As they stand.
    pub fn files(&self) -> Files {
        let phases = Header::parse(&self.unused).expect("a store").phases;
        Files {
            device: self.store.clone(),
            auditor: self.unused.clone(),
            logs: self.logs.clone(),
            lengths: little_endian(&self.state.lengths[..usize::from(phases)]),
            seal: self.seal[..self.state.seal_length as usize].to_vec(),
        }
    }
}

/// Two phases, three chunks of three keys: five entries and a filler, so that
/// two chunks are burned. Logs of 30 and 8 bytes.
pub fn small() -> Files {
    small_on(store(2, 3, 3))
}

/// The same entries on another store of so many phases, chunks and keys.
pub fn small_on(unused: Vec<u8>) -> Files {
    let entries: [(u8, &[u8]); 5] = [
        (1, b"0123456789"),
        (2, b"side"),
        (1, b"abcdefghij"),
        (2, b"road"),
        (1, b"ABCDEFGHIJ"),
    ];
    sealed(unused, &[0, 0], &entries)
}

/// Two phases, three chunks of three keys: in phase 1 the longest data, in phase
/// 2 three bytes, and two fillers.
pub fn small_with(set: Set) -> Files {
    let longest: Vec<u8> = (b'a'..=b'z')
        .cycle()
        .take(set.data_limit as usize)
        .collect();
    let entries: [(u8, &[u8]); 4] = [(1, &longest), (2, b"x"), (2, b"y"), (2, b"z")];
    sealed(store_with(set, 2, 3, 3), &[0, 0], &entries)
}
