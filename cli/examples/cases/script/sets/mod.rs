//! Stores with a set of parameters of their own: each edge that follows the
//! set at its two sides, and histories. Each row says what the call answers.

mod audits;
mod histories;
mod items;
mod limits;
mod restarts;
mod stores;

use pahyndoi::model::Set;

use super::{Script, Shape};

/// The least of all, a log for one entry, the most of all, and what a store of
/// kind 1 is read as.
const SETS: [Set; 4] = [
    set(16, 1, 512),
    set(20, 4096, 4096),
    set(32, 4096, 65_536),
    Set::COMMON,
];

/// Sets at the two sides of each edge of their ranges, and the refusal of a
/// store that has them.
const EDGES: [(Set, u32); 16] = [
    (set(15, 512, 8192), 2),
    (set(16, 512, 8192), 0),
    (set(32, 512, 8192), 0),
    (set(33, 512, 8192), 2),
    (set(32, 0, 8192), 2),
    (set(32, 1, 8192), 0),
    (set(32, 4096, 8192), 0),
    (set(32, 4097, 8192), 2),
    (set(32, 1, 511), 2),
    (set(32, 1, 512), 0),
    (set(32, 512, 65_536), 0),
    (set(32, 512, 65_537), 2),
    (set(32, 4096, 4095), 2),
    (set(32, 4096, 4096), 0),
    (set(32, 513, 512), 2),
    (set(32, 512, 512), 0),
];

pub(super) fn groups(script: &mut Script) {
    stores::groups(script);
    limits::groups(script);
    audits::groups(script);
    items::groups(script);
    histories::groups(script);
    restarts::groups(script);
}

const fn set(tag_length: u8, data_limit: u32, log_capacity: u32) -> Set {
    Set {
        tag_length,
        data_limit,
        log_capacity,
    }
}

/// One phase, one chunk, N = 1.
fn one_key(set: Set) -> Shape {
    Shape::own(set, 1, 1, 1, 100)
}

impl Script {
    /// A label of the rows on one set.
    fn label_set(&mut self, set: Set, text: &str) {
        let Set {
            tag_length,
            data_limit,
            log_capacity,
        } = set;
        self.label(&format!(
            "set {tag_length}, {data_limit}, {log_capacity}: {text}"
        ));
    }

    /// The open must give this refusal.
    fn expect_open(&mut self, refusal: u32, log_lengths: &[u32], seal_length: u64) {
        self.open(log_lengths, seal_length);
        self.assert_answer((refusal, 0));
    }

    /// The append must give this refusal and this number.
    fn expect_append(&mut self, answer: (u32, u32), phase: u8, data_length: u32) {
        self.append(phase, data_length, 200);
        self.assert_answer(answer);
    }

    /// The close must give this refusal and this number.
    fn expect_close(&mut self, answer: (u32, u32)) {
        self.close();
        self.assert_answer(answer);
    }
}
