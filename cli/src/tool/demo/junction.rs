//! A junction that counts traffic and seals the counts hour by hour.

use std::ops::Range;

use pahyndoi::{Refusal, State, append, close, open, restart, sha256};

use super::super::due::Due;
use super::super::evidence::Evidence;
use super::super::item::{Item, entry_length, items};
use super::super::set::Set;
use super::super::store::{Header, burned_at_front};

/// What is counted in each phase, from phase 1 on.
const PHASES: [&str; 3] = ["main road", "side road", "on foot"];

pub const HEADER: Header = Header {
    id: *b"junction",
    phases: PHASES.len() as u8,
    chunks: 8,
    ratchet: 16,
    own_set: None,
};

/// Of the junction's standby, which has equal chunks.
pub const STANDBY: Header = Header {
    id: *b"standby ",
    ..HEADER
};

pub const SET: Set = HEADER.set();

/// The demo's keys are hashes of this and the chunk's number.
pub const SEED: &str = "Pahyndoi's demo, not random";

/// The main road's counts in the hours of the day.
const HOURS: [u32; 24] = [
    12, 8, 5, 4, 9, 31, 88, 164, 182, 121, 104, 110, 126, 118, 122, 141, 176, 193, 158, 109, 77,
    58, 41, 24,
];

pub struct Junction {
    auditor_store: Vec<u8>,
    store: Vec<u8>,
    logs: Vec<u8>,
    seal: Vec<u8>,
    kept: Kept,
    state: State,
}

/// What a loss of power leaves of the state: the lengths reached.
#[derive(Default)]
struct Kept {
    lengths: [u32; PHASES.len()],
    seal_length: u64,
}

impl Junction {
    /// With an unused store of this header and empty logs.
    pub fn new(header: Header) -> Result<Junction, Refusal> {
        let store = unused_store(header)?;
        Ok(Junction {
            auditor_store: store.clone(),
            store,
            logs: vec![0; header.log_memory_length()],
            seal: vec![0; seal_memory()],
            kept: Kept::default(),
            state: State::default(),
        })
    }

    /// As somebody has it who took it and drops all items but these, the first
    /// ones: the logs are cut to match, and the state is gone.
    pub fn taken(evidence: &Evidence, left: &[Item]) -> Junction {
        let mut kept = Kept::default();
        for item in left {
            kept.seal_length = item.place.end as u64;
            if let Some(area) = item.area() {
                kept.lengths[usize::from(area.phase) - 1] += area.length;
            }
        }
        let mut seal = evidence.seal.clone();
        seal.resize(seal_memory(), 0);
        Junction {
            auditor_store: evidence.auditor.clone(),
            store: evidence.device.clone(),
            logs: evidence.logs.clone(),
            seal,
            kept,
            state: State::default(),
        }
    }

    /// Opens, seals the hours' counts and closes; answers how many there are and
    /// the number of fillers.
    pub fn half_day(&mut self, hours: Range<usize>) -> Result<(usize, u64), Refusal> {
        self.open()?;
        Ok((self.counts(hours)?, self.close()?))
    }

    /// Begins sealing, with the lengths reached.
    pub fn open(&mut self) -> Result<(), Refusal> {
        let Kept {
            lengths,
            seal_length,
        } = &self.kept;
        self.state = open(&self.store, &self.logs, lengths, &self.seal, *seal_length)?;
        Ok(())
    }

    /// Keeps the lengths that the state has.
    fn keep(&mut self) {
        self.kept = Kept {
            lengths: std::array::from_fn(|index| self.state.lengths[index]),
            seal_length: self.state.seal_length,
        };
    }

    /// Takes the state, with the key in it.
    pub fn lose_power(&mut self) {
        self.state = State::default();
    }

    /// What is due behind the seal file's last item.
    pub fn due(&self) -> Due {
        let seal_file = &self.seal[..self.kept.seal_length as usize];
        let last: Vec<Item> = items(SET, seal_file).flatten().last().into_iter().collect();
        Due::behind(&last, HEADER.ratchet)
    }

    /// Goes on behind a chunk that so many items were sealed with.
    pub fn restart(&mut self, number: u32) -> Result<u64, Refusal> {
        let place = restart(
            &mut self.state,
            &mut self.store,
            &self.logs,
            &mut self.seal,
            number,
        )?;
        self.keep();
        Ok(place)
    }

    /// Seals the counts of these hours and answers how many there are.
    pub fn counts(&mut self, hours: Range<usize>) -> Result<usize, Refusal> {
        let mut entries = 0;
        for hour in hours {
            entries += self.count(hour)?;
        }
        Ok(entries)
    }

    /// Seals the counts of one hour and answers how many there are.
    fn count(&mut self, hour: usize) -> Result<usize, Refusal> {
        for (index, name) in PHASES.iter().enumerate() {
            let count = HOURS[hour] / (1 + index as u32);
            let line = format!("{hour:02}:00 {name} {count:>3}\n");
            append(
                &mut self.state,
                &mut self.store,
                &mut self.logs,
                &mut self.seal,
                1 + index as u8,
                line.as_bytes(),
            )?;
            self.keep();
        }
        Ok(PHASES.len())
    }

    /// Uses up the chunk and answers the number of fillers.
    pub fn close(&mut self) -> Result<u64, Refusal> {
        let fillers = close(&mut self.state, &self.store, &self.logs, &mut self.seal)?;
        self.keep();
        Ok(fillers)
    }

    pub fn burned(&self) -> usize {
        burned_at_front(&self.store)
    }

    /// What an auditor is presented with.
    pub fn evidence(&self) -> Evidence {
        let Kept {
            lengths,
            seal_length,
        } = &self.kept;
        let lengths = lengths.iter();
        Evidence {
            device: self.store.clone(),
            auditor: self.auditor_store.clone(),
            logs: self.logs.clone(),
            lengths: lengths.flat_map(|length| length.to_le_bytes()).collect(),
            seal: self.seal[..*seal_length as usize].to_vec(),
        }
    }
}

/// Enough for all items of the store, were they all entries.
fn seal_memory() -> usize {
    entry_length(SET) * HEADER.keys_of(HEADER.chunks as usize)
}

fn unused_store(header: Header) -> Result<Vec<u8>, Refusal> {
    let mut store = header.to_bytes();
    for number in 0..header.chunks {
        let message = [SEED.as_bytes(), &number.to_le_bytes()].concat();
        store.extend(sha256(&message)?);
    }
    Ok(store)
}
