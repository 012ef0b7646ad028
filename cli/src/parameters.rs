//! The parameters that a store sets, and the sizes that follow from them.

use crate::{LONGEST_TAG, SHORTEST_TAG};

/// The first byte of a store that has the common parameters.
pub const COMMON_SET_KIND: u8 = 1;

/// The first byte of a store that names its own.
pub const OWN_SET_KIND: u8 = 6;

/// The bytes before the chunks in a store of kind 1.
pub const HEADER_LENGTH: usize = 18;

/// The bytes before the chunks in a store of kind 6: the fields of kind 1, then
/// tag length (1 byte), data limit (4) and log capacity (4), little-endian.
pub const OWN_SET_HEADER_LENGTH: usize = 27;

/// The bytes of a chunk.
pub const CHUNK_LENGTH: usize = 32;

/// The least data limit that a store may name.
pub const SMALLEST_DATA_LIMIT: u32 = 1;

/// The largest data limit that a store may name.
pub const LARGEST_DATA_LIMIT: u32 = 4096;

/// The least log capacity that a store may name.
pub const SMALLEST_LOG_CAPACITY: u32 = 512;

/// The largest log capacity that a store may name.
pub const LARGEST_LOG_CAPACITY: u32 = 65_536;

/// The bytes of a store: its header, of [`HEADER_LENGTH`] or
/// [`OWN_SET_HEADER_LENGTH`], and so many chunks. No other length will do.
pub const fn store_length(header_length: usize, chunks: u32) -> usize {
    header_length + CHUNK_LENGTH * chunks as usize
}

/// The set of parameters of a store. Whoever makes the store picks it; the
/// calls read it from the store, and memories must be sized by it.
///
/// A store of kind 1, and one of kind 6 that names the common set, are
/// different stores although their sizes are the same but for the header: the
/// audit refuses the one beside the other, by 13.
#[derive(Clone, Copy, Debug, PartialEq, Eq)]
pub struct Parameters {
    /// How many bytes the tag of an item has, from the front of its HMAC:
    /// [`SHORTEST_TAG`] to [`LONGEST_TAG`].
    pub tag_length: u8,
    /// How many bytes the data of an entry have at most:
    /// [`SMALLEST_DATA_LIMIT`] to [`LARGEST_DATA_LIMIT`].
    pub data_limit: u32,
    /// How many bytes of the log memory each phase has:
    /// [`SMALLEST_LOG_CAPACITY`] to [`LARGEST_LOG_CAPACITY`], and not below the
    /// data limit.
    pub log_capacity: u32,
}

impl Parameters {
    /// Those of every store of kind 1.
    pub const COMMON: Parameters = Parameters {
        tag_length: 32,
        data_limit: 512,
        log_capacity: 8192,
    };

    /// Whether a store may name them; with others it is refused, by 2.
    pub fn is_in_range(&self) -> bool {
        (SHORTEST_TAG..=LONGEST_TAG).contains(&usize::from(self.tag_length))
            && (SMALLEST_DATA_LIMIT..=LARGEST_DATA_LIMIT).contains(&self.data_limit)
            && (SMALLEST_LOG_CAPACITY..=LARGEST_LOG_CAPACITY).contains(&self.log_capacity)
            && self.log_capacity >= self.data_limit
    }

    /// The bytes of an entry item: 18 and the tag.
    pub const fn entry_length(&self) -> usize {
        18 + self.tag_length as usize
    }

    /// The bytes of a filler item: 9 and the tag.
    pub const fn filler_length(&self) -> usize {
        9 + self.tag_length as usize
    }

    /// The bytes of a restart item: 13 and the tag.
    pub const fn restart_length(&self) -> usize {
        13 + self.tag_length as usize
    }

    /// The bytes of the log memory: a log for each phase. No other length will
    /// do.
    pub const fn logs_length(&self, phases: u8) -> usize {
        self.log_capacity as usize * phases as usize
    }

    /// Where in the log memory the log of a phase, 1 or more, begins.
    pub const fn log_place(&self, phase: u8) -> usize {
        self.log_capacity as usize * (phase as usize - 1)
    }

    /// The bytes of a seal memory with room for an entry under every key of
    /// the store. No seal file is longer; a shorter memory may fill up.
    pub const fn seal_memory_length(&self, chunks: u32, ratchet: u32) -> usize {
        self.entry_length() * chunks as usize * ratchet as usize
    }
}

#[cfg(test)]
mod tests {
    use super::*;
    use crate::model;

    const C_HEADER: &str = include_str!("../../include/pahyndoi.h");

    /// The number that the C header defines by this name.
    fn in_c(name: &str) -> usize {
        let define = format!("#define PAHYNDOI_{name} ");
        let mut found = C_HEADER
            .lines()
            .filter_map(|line| line.strip_prefix(&define));
        let number = found.next().expect(name);
        number.parse().expect("a number")
    }

    #[test]
    fn constants_are_those_of_the_c_header() {
        assert_eq!(usize::from(COMMON_SET_KIND), in_c("COMMON_SET_KIND"));
        assert_eq!(usize::from(OWN_SET_KIND), in_c("OWN_SET_KIND"));
        assert_eq!(HEADER_LENGTH, in_c("HEADER_SIZE"));
        assert_eq!(OWN_SET_HEADER_LENGTH, in_c("OWN_SET_HEADER_SIZE"));
        assert_eq!(CHUNK_LENGTH, in_c("CHUNK_SIZE"));
        assert_eq!(SMALLEST_DATA_LIMIT as usize, in_c("SMALLEST_DATA_LIMIT"));
        assert_eq!(LARGEST_DATA_LIMIT as usize, in_c("LARGEST_DATA_LIMIT"));
        assert_eq!(
            SMALLEST_LOG_CAPACITY as usize,
            in_c("SMALLEST_LOG_CAPACITY")
        );
        assert_eq!(LARGEST_LOG_CAPACITY as usize, in_c("LARGEST_LOG_CAPACITY"));
    }

    #[test]
    fn common_sizes_are_those_of_the_c_header() {
        let common = Parameters::COMMON;
        assert_eq!(usize::from(common.tag_length), in_c("TAG_SIZE"));
        assert_eq!(common.data_limit as usize, in_c("DATA_LIMIT"));
        assert_eq!(common.log_capacity as usize, in_c("LOG_SIZE"));
        assert_eq!(common.entry_length(), in_c("ENTRY_SIZE"));
        assert_eq!(common.filler_length(), in_c("FILLER_SIZE"));
        assert_eq!(common.restart_length(), in_c("RESTART_SIZE"));
    }

    #[test]
    fn largest_sizes() {
        let largest = Parameters {
            tag_length: LONGEST_TAG as u8,
            data_limit: LARGEST_DATA_LIMIT,
            log_capacity: LARGEST_LOG_CAPACITY,
        };
        assert!(largest.is_in_range());
        assert_eq!(store_length(OWN_SET_HEADER_LENGTH, 1024), 32_795);
        assert_eq!(largest.logs_length(8), 524_288);
        assert_eq!(largest.log_place(8), 458_752);
        assert_eq!(largest.seal_memory_length(1024, 256), 13_107_200);
    }

    /// Sets at both sides of every limit.
    fn sets() -> impl Iterator<Item = Parameters> {
        let limits = [0, 1, 2, 511, 512, 513, 4095, 4096, 4097, u32::MAX];
        let capacities = [
            0,
            511,
            512,
            513,
            4095,
            4096,
            8192,
            65_535,
            65_536,
            65_537,
            u32::MAX,
        ];
        (0..=u8::MAX).flat_map(move |tag_length| {
            limits.into_iter().flat_map(move |data_limit| {
                capacities.into_iter().map(move |log_capacity| Parameters {
                    tag_length,
                    data_limit,
                    log_capacity,
                })
            })
        })
    }

    fn in_the_model(parameters: Parameters) -> model::Set {
        model::Set {
            tag_length: parameters.tag_length,
            data_limit: parameters.data_limit,
            log_capacity: parameters.log_capacity,
        }
    }

    #[test]
    fn ranges_are_those_of_the_model() {
        for parameters in sets() {
            let expected = in_the_model(parameters).is_in_range();
            assert_eq!(parameters.is_in_range(), expected, "{parameters:?}");
        }
    }

    #[test]
    fn sizes_are_those_of_the_model() {
        for parameters in sets().filter(Parameters::is_in_range) {
            let set = in_the_model(parameters);
            assert_eq!(parameters.entry_length(), set.entry_length());
            assert_eq!(parameters.filler_length(), set.filler_length());
            assert_eq!(parameters.restart_length(), set.restart_length());
            for own_set in [None, Some(set)] {
                compare_with_header(own_set);
            }
        }
    }

    /// The lengths of a store, of its log memory and of the logs in it.
    fn compare_with_header(own_set: Option<model::Set>) {
        let header = model::Header {
            id: [0; 8],
            phases: 8,
            chunk_count: 3,
            ratchet: 4,
            own_set,
        };
        let set = header.set();
        let parameters = Parameters {
            tag_length: set.tag_length,
            data_limit: set.data_limit,
            log_capacity: set.log_capacity,
        };
        let header_length = match own_set {
            None => HEADER_LENGTH,
            Some(_) => OWN_SET_HEADER_LENGTH,
        };
        assert_eq!(store_length(header_length, 3), header.store_length());
        assert_eq!(parameters.logs_length(8), header.log_memory_length());
        for phase in 1..=8 {
            assert_eq!(parameters.log_place(phase), header.log_start(phase));
        }
    }
}
