//! The least ratchet of a plan: refusal 25 at its two sides, and chunks that
//! just last and just do not. Each row says what the plan answers.

use super::Script;

/// The largest count of entries that a plan may have.
const LARGEST: u32 = 65_536;

/// The places of a list of 64: the first, one between, the last.
const PLACES: [usize; 3] = [0, 31, 63];

pub(super) fn groups(script: &mut Script) {
    list_lengths(script);
    large_counts(script);
    chunk_counts(script);
    zeros(script);
    ratchet_one(script);
    every_step(script);
    largest_ratchet(script);
    rounding(script);
    one_count_decides(script);
    largest_sums(script);
    different_counts(script);
}

impl Script {
    /// The plan must answer this ratchet, 0 where none lasts.
    fn expect_ratchet(&mut self, ratchet: u32, counts: &[u32], chunk_count: u32) {
        self.plan(counts, chunk_count);
        self.assert_answer((0, ratchet));
    }

    fn expect_bad_plan(&mut self, counts: &[u32], chunk_count: u32) {
        self.plan(counts, chunk_count);
        self.assert_answer((25, 0));
    }
}

/// 64 equal counts but for the one at this place.
fn but(equal: u32, place: usize, count: u32) -> [u32; 64] {
    let mut counts = [equal; 64];
    counts[place] = count;
    counts
}

fn list_lengths(script: &mut Script) {
    script.label("plan: no count, one, 63 and 64");
    script.expect_ratchet(1, &[], 1);
    script.expect_ratchet(1, &[], 1024);
    script.expect_ratchet(1, &[1], 1);
    script.expect_ratchet(1, &[16; 63], 1008);
    script.expect_ratchet(1, &[16; 64], 1024);
    script.label("25: 65 and 66 counts");
    script.expect_bad_plan(&[16; 65], 1024);
    script.expect_bad_plan(&[0; 65], 1);
    script.expect_bad_plan(&[0; 66], 1024);
}

/// A count of 65,536 takes 256 chunks with N = 256, 63 of 1 take 63 with any.
fn large_counts(script: &mut Script) {
    script.label("plan: 65,536 and 65,537 first, between and last");
    for place in PLACES {
        script.expect_ratchet(256, &but(1, place, LARGEST), 319);
        script.expect_bad_plan(&but(1, place, LARGEST + 1), 319);
    }
    script.label("plan: a single count: 65,536; 65,537, 131,072, the largest");
    script.expect_ratchet(64, &[LARGEST], 1024);
    for count in [LARGEST + 1, 2 * LARGEST, u32::MAX] {
        script.expect_bad_plan(&[count], 1024);
    }
}

fn chunk_counts(script: &mut Script) {
    script.label("plan: chunk counts 1, 1,023 and 1,024");
    script.expect_ratchet(2, &[2], 1);
    script.expect_ratchet(1, &[1023], 1023);
    script.expect_ratchet(2, &[1024], 1023);
    script.expect_ratchet(1, &[1024], 1024);
    script.expect_ratchet(2, &[1025], 1024);
    script.label("25: chunk counts 0, 1,025, 65,537, the largest");
    for chunk_count in [0, 1025, 65_537, u32::MAX] {
        script.expect_bad_plan(&[], chunk_count);
    }
    script.expect_bad_plan(&[1], 0);
    script.expect_bad_plan(&[1], 1025);
}

/// A count of 0 takes no chunk.
fn zeros(script: &mut Script) {
    script.label("plan: counts of 0, alone and among others");
    script.expect_ratchet(1, &[0], 1);
    script.expect_ratchet(1, &[0; 64], 1);
    script.expect_ratchet(1, &[1, 0, 1], 2);
    script.expect_ratchet(0, &[1, 0, 1], 1);
    for place in PLACES {
        script.expect_ratchet(256, &but(0, place, 256), 1);
    }
}

/// A count that is not 0 takes a chunk with any N.
fn ratchet_one(script: &mut Script) {
    script.label("plan: N = 1 just lasts, one chunk less: 2, or none");
    script.expect_ratchet(1, &[3, 4, 5], 12);
    script.expect_ratchet(2, &[3, 4, 5], 11);
    script.expect_ratchet(1, &[2; 64], 128);
    script.expect_ratchet(2, &[2; 64], 127);
    script.expect_ratchet(2, &[2; 64], 64);
    script.expect_ratchet(0, &[2; 64], 63);
    script.expect_ratchet(1, &[1; 64], 64);
    script.expect_ratchet(0, &[1; 64], 63);
}

/// With one chunk the ratchet is the count.
fn every_step(script: &mut Script) {
    script.label("plan: one chunk: N is the count, up to 256");
    for count in [64, 65, 128, 129, 130, 192, 193, 254, 255, 256] {
        script.expect_ratchet(count, &[count], 1);
    }
    script.expect_ratchet(0, &[257], 1);
}

fn largest_ratchet(script: &mut Script) {
    script.label("plan: N = 255 and 256 just last, one chunk less: more, or none");
    script.expect_ratchet(255, &[510], 2);
    script.expect_ratchet(256, &[511], 2);
    script.expect_ratchet(256, &[512], 2);
    script.expect_ratchet(0, &[513], 2);
    script.expect_ratchet(255, &[LARGEST], 258);
    script.expect_ratchet(256, &[LARGEST], 257);
    script.expect_ratchet(256, &[LARGEST], 256);
    script.expect_ratchet(0, &[LARGEST], 255);
    script.expect_ratchet(255, &[255; 64], 64);
    script.expect_ratchet(256, &but(255, 63, 256), 64);
    script.expect_ratchet(0, &but(255, 63, 257), 64);
}

fn rounding(script: &mut Script) {
    script.label("plan: rounded up, each count by itself");
    script.expect_ratchet(3, &[3], 1);
    script.expect_ratchet(3, &[5, 5, 5], 6);
    script.expect_ratchet(3, &[3, 3], 3);
    script.expect_ratchet(0, &[1, 1, 1], 2);
    script.label("plan: no chunk more where nothing is left over");
    script.expect_ratchet(2, &[4, 4], 4);
}

/// 63 counts of 1 take 63 chunks; 100 entries have the rest.
fn one_count_decides(script: &mut Script) {
    script.label("plan: one count decides, at each place");
    for place in PLACES {
        script.expect_ratchet(10, &but(1, place, 100), 73);
        script.expect_ratchet(12, &but(1, place, 100), 72);
    }
}

/// 1,024 chunks last for 262,144 entries at most.
fn largest_sums(script: &mut Script) {
    script.label("plan: the most entries for which 1,024 chunks last");
    script.expect_ratchet(256, &[LARGEST; 4], 1024);
    script.expect_ratchet(0, &[LARGEST; 4], 1023);
    script.expect_ratchet(0, &[LARGEST, LARGEST, LARGEST, LARGEST, 1], 1024);
    script.expect_ratchet(256, &[4096; 64], 1024);
    script.expect_ratchet(0, &[4096; 64], 1023);
    script.expect_ratchet(0, &but(4096, 63, 4097), 1024);
    script.expect_ratchet(256, &but(4096, 63, 3840), 1023);
    script.label("plan: 64 counts of 65,536");
    script.expect_ratchet(0, &[LARGEST; 64], 1024);
}

/// 2,000 entries, which take 1,003 chunks with N = 2 and 15 with 250.
fn different_counts(script: &mut Script) {
    script.label("plan: eleven different counts and 0, alone and behind 52 of 1");
    let counts = [17, 250, 3, 0, 91, 1000, 12, 100, 1, 77, 300, 149];
    for (ratchet, chunk_count) in [
        (2, 1003),
        (3, 1002),
        (100, 25),
        (112, 24),
        (250, 15),
        (0, 14),
    ] {
        script.expect_ratchet(ratchet, &counts, chunk_count);
    }
    let behind = [&[1; 52][..], &counts].concat();
    script.expect_ratchet(100, &behind, 77);
    script.expect_ratchet(112, &behind, 76);
}
