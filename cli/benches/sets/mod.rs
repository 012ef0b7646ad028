//! The sets of parameters that calls are timed with, beside that of kind 1.

use pahyndoi::model::Set;

/// That of kind 1, with the shortest tags.
pub const SHORT_TAGS: Set = Set {
    tag_length: 16,
    ..Set::COMMON
};

/// That of kind 1, with the longest data and the largest logs.
pub const LONG_ENTRIES: Set = Set {
    data_limit: 4096,
    log_capacity: 65_536,
    ..Set::COMMON
};
