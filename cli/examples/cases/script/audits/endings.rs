//! Refusals 22 and 23: after the last item.

use super::{Case, four_items};
use crate::script::Script;

pub(super) fn groups(script: &mut Script) {
    too_few(script);
    uncovered(script);
}

fn too_few(script: &mut Script) {
    script.label("22: four items due, 3, 2 and 0 there");
    let case = four_items(script);
    for length in [150, 100, 0] {
        let fewer = case.but(|case| case.seal_file.truncate(length));
        script.expect((22, 0), &fewer);
    }
}

fn uncovered(script: &mut Script) {
    script.label("23: one byte uncovered in phase 1, in phase 2");
    let case = four_items(script);
    for index in [0, 1] {
        let longer = case.but(|case| case.log_lengths[index] += 1);
        script.expect((23, 0), &longer);
    }
    script.label("23: bytes of a phase without entries; all of them covered");
    let unused = Case::unused(script, 2, 1, 2);
    for (lengths, items, answer) in [
        ([1, 0], [None, None], (23, 0)),
        ([5, 1], [Some((1, 0, 5)), None], (23, 0)),
        ([1, 5], [Some((2, 0, 5)), None], (23, 0)),
        ([5, 0], [Some((1, 0, 5)), None], (0, 2)),
        ([0, 5], [Some((2, 0, 5)), None], (0, 2)),
        ([9, 3], [Some((1, 0, 8)), Some((2, 0, 3))], (23, 0)),
        ([8, 4], [Some((1, 0, 8)), Some((2, 0, 3))], (23, 0)),
        ([8, 3], [Some((1, 0, 8)), Some((2, 0, 3))], (0, 2)),
    ] {
        script.expect(answer, &unused.with_items(&lengths, &items));
    }
}
