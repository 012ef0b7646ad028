//! Restarts: the room that one needs, and what the audit says of one.

use super::SETS;
use crate::script::audits::Case;
use crate::script::audits::restarts::Piece::{Entry, Filler, Restart};
use crate::script::{Script, Shape};

pub(super) fn groups(script: &mut Script) {
    room(script);
    audited(script);
}

/// One entry stands before the cut.
fn room(script: &mut Script) {
    for set in &SETS[..2] {
        script.label_set(*set, "restart: 10 one byte short; passes");
        let (entry, restart) = (set.entry_length(), set.restart_length());
        for (free, answer) in [(restart - 1, (10, 0)), (restart, (0, 2))] {
            script.material(Shape::own(*set, 1, 2, 2, (entry + free) as u32));
            script.expect_append((0, 0), 1, 1);
            script.expect_restart((27, 0), 1);
            script.expect_open(0, &[1], entry as u64);
            script.expect_restart(answer, 1);
        }
    }
}

/// An entry, the restart and a filler.
fn audited(script: &mut Script) {
    for set in &SETS[..3] {
        script.label_set(*set, "audit with a restart; 21, 15, 17, 16, 22");
        let unused = Case::unused_of(script, Shape::own(*set, 1, 3, 2, 150));
        let case = unused.with_pieces(&[Entry, Restart, Filler]);
        script.expect((0, 3), &case);
        let (entry, restart) = (set.entry_length(), set.restart_length());
        let end = entry + restart;
        script.expect((21, 1), &case.but(|case| case.seal_file[end - 1] ^= 1));
        script.expect((15, 1), &case.but(|case| case.seal_file.truncate(end - 1)));
        script.expect((22, 0), &case.but(|case| case.seal_file.truncate(end)));
        script.expect((17, 1), &case.but(|case| case.seal_file[entry + 9] = 2));
        script.expect((16, 1), &case.with_burned(1));
        script.expect((22, 0), &case.with_burned(3));
    }
}
