//! The key store: a header of 18 or 27 bytes, then the chunks.

use std::ops::RangeInclusive;

use super::item::number_at;
use super::set::{DATA_LIMITS, LOG_CAPACITIES, SET_LENGTH, Set, TAG_LENGTHS};
use super::text::{counted, grouped};

/// A store that has the common set, and one that names its own.
const COMMON_KIND: u8 = 1;
const OWN_SET_KIND: u8 = 6;

/// The bytes of the fields that both kinds have. A set stands behind them.
const FIELDS_LENGTH: usize = 18;

/// The length in bytes of a chunk.
pub const CHUNK_LENGTH: usize = 32;
pub const PHASES: RangeInclusive<u32> = 1..=8;
pub const CHUNKS: RangeInclusive<u32> = 1..=1024;
pub const RATCHET: RangeInclusive<u32> = 1..=256;

#[derive(Clone, Copy, Debug, PartialEq, Eq)]
pub struct Header {
    pub id: [u8; 8],
    pub phases: u8,
    pub chunks: u32,
    /// N, the keys made from one chunk.
    pub ratchet: u32,
    /// The set that a header of kind 6 names; none in one of kind 1.
    pub own_set: Option<Set>,
}

impl Header {
    /// The header of a well-formed store, else what is wrong with it.
    pub fn read(store: &[u8]) -> Result<Header, String> {
        let header = Header::fields(store)?;
        header.check()?;
        match header.store_length() {
            needed if needed == store.len() => Ok(header),
            needed => Err(format!(
                "has {}, not the {} of a header and {}",
                counted(store.len(), "byte"),
                grouped(needed as u64),
                counted(header.chunks as usize, "chunk")
            )),
        }
    }

    /// The fields of a whole header, whether in range or not.
    fn fields(store: &[u8]) -> Result<Header, String> {
        let kind = store.first().copied().unwrap_or_default();
        let needed = header_length(kind);
        let Some(bytes) = store.get(..needed) else {
            let length = counted(store.len(), "byte");
            return Err(format!("has {length}, and its header takes {needed}"));
        };
        if !is_store(bytes) {
            return Err(format!(
                "has kind {kind}, and a store has kind {COMMON_KIND} or {OWN_SET_KIND}"
            ));
        }
        Ok(Header {
            id: bytes[1..9].try_into().expect("8 bytes"),
            phases: bytes[9],
            chunks: number_at(bytes, 10),
            ratchet: number_at(bytes, 14),
            own_set: (kind == OWN_SET_KIND).then(|| Set::read(&bytes[FIELDS_LENGTH..])),
        })
    }

    /// What is out of range.
    fn check(&self) -> Result<(), String> {
        let set = self.set();
        in_range("phases", u32::from(self.phases), PHASES)?;
        in_range("chunks", self.chunks, CHUNKS)?;
        in_range("keys from a chunk", self.ratchet, RATCHET)?;
        in_range("as its tag length", u32::from(set.tag_length), TAG_LENGTHS)?;
        in_range("as its data limit", set.data_limit, DATA_LIMITS)?;
        in_range("as its log capacity", set.log_capacity, LOG_CAPACITIES)?;
        match set.log_takes_data() {
            true => Ok(()),
            false => Err(format!(
                "names {} as its log capacity, below its data limit, {}",
                grouped(set.log_capacity.into()),
                grouped(set.data_limit.into())
            )),
        }
    }

    /// The parameters that hold for this store.
    pub const fn set(&self) -> Set {
        match self.own_set {
            Some(set) => set,
            None => Set::COMMON,
        }
    }

    pub fn kind(&self) -> u8 {
        match self.own_set {
            Some(_) => OWN_SET_KIND,
            None => COMMON_KIND,
        }
    }

    pub fn to_bytes(self) -> Vec<u8> {
        let mut bytes = vec![self.kind()];
        bytes.extend(self.id);
        bytes.push(self.phases);
        bytes.extend(self.chunks.to_le_bytes());
        bytes.extend(self.ratchet.to_le_bytes());
        bytes.extend(self.own_set.iter().flat_map(|set| set.to_bytes()));
        bytes
    }

    fn store_length(&self) -> usize {
        header_length(self.kind()) + CHUNK_LENGTH * self.chunks as usize
    }

    /// The bytes of a log memory for this store.
    pub fn log_memory_length(&self) -> usize {
        self.set().log_capacity as usize * usize::from(self.phases)
    }

    /// The keys of this many chunks. Each seals one item at most.
    pub fn keys_of(&self, chunks: usize) -> usize {
        chunks * self.ratchet as usize
    }
}

/// Whether the bytes begin with the kind of a store, be it well-formed or not.
pub fn is_store(bytes: &[u8]) -> bool {
    matches!(bytes, [COMMON_KIND | OWN_SET_KIND, ..])
}

/// The bytes before the chunks in a store of this kind.
fn header_length(kind: u8) -> usize {
    match kind {
        OWN_SET_KIND => FIELDS_LENGTH + SET_LENGTH,
        _ => FIELDS_LENGTH,
    }
}

fn in_range(what: &str, number: u32, range: RangeInclusive<u32>) -> Result<(), String> {
    let [named, low, high] = [number, *range.start(), *range.end()]
        .map(u64::from)
        .map(grouped);
    match range.contains(&number) {
        true => Ok(()),
        false => Err(format!(
            "names {named} {what}, and {low} to {high} are possible"
        )),
    }
}

/// The chunks of a well-formed store, in order.
pub fn chunks(store: &[u8]) -> impl Iterator<Item = &[u8]> {
    store[header_length(store[0])..].chunks_exact(CHUNK_LENGTH)
}

pub fn is_burned(chunk: &[u8]) -> bool {
    chunk.iter().all(|byte| *byte == 0)
}

/// How many chunks at the front of a well-formed store are burned.
pub fn burned_at_front(store: &[u8]) -> usize {
    chunks(store).take_while(|chunk| is_burned(chunk)).count()
}

#[cfg(test)]
mod tests {
    use super::*;

    const HEADER: Header = Header {
        id: *b"junction",
        phases: 8,
        chunks: 1,
        ratchet: 256,
        own_set: None,
    };

    fn store(header: Header) -> Vec<u8> {
        let mut bytes = header.to_bytes();
        bytes.resize(bytes.len() + CHUNK_LENGTH, 7);
        bytes
    }

    fn with_set(tag_length: u8, data_limit: u32, log_capacity: u32) -> Header {
        let own_set = Some(Set {
            tag_length,
            data_limit,
            log_capacity,
        });
        Header { own_set, ..HEADER }
    }

    #[test]
    fn written_header_is_read_again() {
        let sets = [with_set(16, 1, 512), with_set(17, 4096, 4096)];
        let edges = [with_set(32, 4096, 65_536), with_set(32, 512, 8192)];
        for header in [HEADER].into_iter().chain(sets).chain(edges) {
            assert_eq!(Header::read(&store(header)), Ok(header));
        }
    }

    #[test]
    fn set_stands_behind_the_fields() {
        let mut bytes = HEADER.to_bytes();
        assert_eq!((bytes[0], bytes.len()), (1, 18));
        bytes[0] = 6;
        bytes.extend([16, 0, 16, 0, 0, 0, 0, 1, 0]);
        assert_eq!(with_set(16, 4096, 65_536).to_bytes(), bytes);
    }

    #[test]
    fn log_memory_follows_the_set() {
        assert_eq!(HEADER.log_memory_length(), 65_536);
        let header = with_set(16, 1, 512);
        assert_eq!(header.log_memory_length(), 4096);
        assert_eq!([1, 8].map(|phase| header.set().log_start(phase)), [0, 3584]);
    }

    fn assert_wrong(bytes: &[u8], reason: &str) {
        assert_eq!(Header::read(bytes).unwrap_err(), reason);
    }

    #[test]
    fn wrong_stores_are_told_apart() {
        let no_phases = Header {
            phases: 0,
            ..HEADER
        };
        let nine_phases = Header {
            phases: 9,
            ..HEADER
        };
        let long_ratchet = Header {
            ratchet: 257,
            ..HEADER
        };
        let two_chunks = Header {
            chunks: 2,
            ..HEADER
        };
        let cases = [
            (vec![], "has 0 bytes, and its header takes 18"),
            (vec![1; 17], "has 17 bytes, and its header takes 18"),
            (vec![6; 26], "has 26 bytes, and its header takes 27"),
            (vec![9; 50], "has kind 9, and a store has kind 1 or 6"),
            (store(no_phases), "names 0 phases, and 1 to 8 are possible"),
            (
                store(nine_phases),
                "names 9 phases, and 1 to 8 are possible",
            ),
            (
                store(long_ratchet),
                "names 257 keys from a chunk, and 1 to 256 are possible",
            ),
            (
                store(two_chunks),
                "has 50 bytes, not the 82 of a header and 2 chunks",
            ),
        ];
        for (bytes, reason) in cases {
            assert_wrong(&bytes, reason);
        }
        let mut long = store(with_set(16, 1, 512));
        long.push(7);
        assert_wrong(&long, "has 60 bytes, not the 59 of a header and 1 chunk");
    }

    #[test]
    fn sets_out_of_range_are_told_apart() {
        let tag = "as its tag length, and 16 to 32 are possible";
        let data = "as its data limit, and 1 to 4,096 are possible";
        let log = "as its log capacity, and 512 to 65,536 are possible";
        let cases = [
            (with_set(15, 1, 512), format!("names 15 {tag}")),
            (with_set(33, 1, 512), format!("names 33 {tag}")),
            (with_set(16, 0, 512), format!("names 0 {data}")),
            (with_set(16, 4097, 8192), format!("names 4,097 {data}")),
            (with_set(16, 1, 511), format!("names 511 {log}")),
            (with_set(16, 1, 65_537), format!("names 65,537 {log}")),
            (
                with_set(16, 4096, 4095),
                "names 4,095 as its log capacity, below its data limit, 4,096".to_string(),
            ),
        ];
        for (header, reason) in cases {
            assert_wrong(&store(header), &reason);
        }
    }

    #[test]
    fn counts_burned_chunks() {
        for header in [HEADER, with_set(16, 1, 512)] {
            let mut bytes = store(header);
            assert_eq!(burned_at_front(&bytes), 0);
            bytes[header.to_bytes().len()..].fill(0);
            assert_eq!(burned_at_front(&bytes), 1);
        }
    }
}
