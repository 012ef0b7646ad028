//! The sets of parameters that stores have: corners of the range first, then
//! any.

use pahyndoi::model::Set;

use crate::random::Random;

/// Every corner of the range, the set that a store of kind 1 has too, and some
/// next to corners.
pub const CORNERS: [Set; 15] = [
    Set::COMMON,
    set(16, 1, 512),
    set(16, 512, 512),
    set(16, 4096, 4096),
    set(32, 4096, 65_536),
    set(31, 4095, 4096),
    set(17, 2, 513),
    set(16, 4096, 65_536),
    set(32, 1, 65_536),
    set(32, 1, 512),
    set(32, 512, 512),
    set(32, 4096, 4096),
    set(16, 1, 65_536),
    set(24, 511, 65_535),
    set(16, 512, 8192),
];

pub const fn set(tag_length: u8, data_limit: u32, log_capacity: u32) -> Set {
    Set {
        tag_length,
        data_limit,
        log_capacity,
    }
}

/// The parameters that hold: those of kind 1 where a store names none.
pub fn in_effect(own_set: Option<Set>) -> Set {
    own_set.unwrap_or(Set::COMMON)
}

/// None, as for a store of kind 1, then the corners.
pub fn none_and_corners() -> impl Iterator<Item = Option<Set>> {
    [None].into_iter().chain(CORNERS.map(Some))
}

/// The corner of this number; behind the last one any set.
pub fn nth(random: &mut Random, number: usize) -> Set {
    match CORNERS.get(number) {
        Some(corner) => *corner,
        None => any(random),
    }
}

/// Any set in range, mostly with small logs, which take less time.
pub fn any(random: &mut Random) -> Set {
    let most = random.pick(&[512, 600, 1100, 4096, 4200, 8192, 8192, 65_536]);
    let log_capacity = random.between(512, most);
    let longest = log_capacity.min(4096);
    let near = random.pick(&[2, 60, 600, longest]).min(longest);
    let below = random.between(1, near);
    set(
        random.between(16, 32) as u8,
        random.pick(&[longest, near, below]) as u32,
        log_capacity as u32,
    )
}

/// A set in range that has some of this one's parameters, mostly not all.
pub fn other(random: &mut Random, own: Set) -> Set {
    let any = any(random);
    match random.up_to(5) {
        0 => set(any.tag_length, own.data_limit, own.log_capacity),
        1 => {
            let data_limit = any.data_limit.min(own.log_capacity);
            set(own.tag_length, data_limit, own.log_capacity)
        }
        2 => {
            let log_capacity = any.log_capacity.max(own.data_limit);
            set(own.tag_length, own.data_limit, log_capacity)
        }
        3 => set(own.tag_length, any.data_limit, any.log_capacity),
        4 => random.pick(&CORNERS),
        _ => any,
    }
}

/// This set with one parameter out of range, mostly by one, or with a log
/// capacity below the data limit.
pub fn beyond(random: &mut Random, own: Set) -> Set {
    let Set {
        data_limit,
        log_capacity,
        ..
    } = own;
    match random.up_to(4) {
        0 => Set {
            tag_length: random.pick(&[0, 15, 15, 33, 33, 255]),
            ..own
        },
        1 => Set {
            data_limit: random.pick(&[0, 0, 4097, 4097, 1 << 16, u32::MAX]),
            ..own
        },
        2 => Set {
            log_capacity: random.pick(&[0, 511, 511, 65_537, 65_537, 1 << 24, u32::MAX]),
            ..own
        },
        3 => Set {
            data_limit: log_capacity + 1,
            ..own
        },
        _ => Set {
            log_capacity: data_limit - 1,
            ..own
        },
    }
}
