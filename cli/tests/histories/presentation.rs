//! What is presented to the audit; audit and lookups by library and model.

use pahyndoi::model::{Audited, Material as Lends, Presented, log_lengths, plain_hmac};
use pahyndoi::{Material, audit_raw};

use crate::answer::{is_accepted, split};
use crate::lent::{Lent, Stand, assert_only_read};
use crate::lookups;
use crate::places::{Place, random_places};
use crate::random::Random;
use crate::tally::Tally;

const GUARD: u8 = 0x5a;

#[derive(Clone, Default)]
pub struct Presentation {
    pub device_store: Vec<u8>,
    pub auditor_store: Vec<u8>,
    pub log_memory: Vec<u8>,
    /// 4 bytes for each phase.
    pub length_bytes: Vec<u8>,
    pub seal_file: Vec<u8>,
}

/// The log lengths as bytes.
pub fn length_bytes(lengths: &[u32]) -> Vec<u8> {
    lengths.iter().flat_map(|n| n.to_le_bytes()).collect()
}

impl Presentation {
    /// What calls on an unused store left, untouched.
    pub fn left(unused: &Lends, left: &Lends, log_lengths: &[u32], seal_length: u64) -> Self {
        Presentation {
            device_store: left.store.clone(),
            auditor_store: unused.store.clone(),
            log_memory: left.log_memory.clone(),
            length_bytes: length_bytes(log_lengths),
            seal_file: left.seal_memory[..seal_length as usize].to_vec(),
        }
    }

    /// Audits by both, looks some bytes up by both, notes the answers and
    /// gives the audit's. Fails where they differ or where the library wrote.
    pub fn compare(&self, random: &mut Random, tally: &mut Tally) -> u64 {
        let places = random_places(random, self);
        let answer = self.compare_at(random, tally, &places);
        if is_accepted(answer) {
            self.go_there_and_back(random, 1);
        }
        answer
    }

    /// Audits by both alone.
    pub fn compare_audits(&self, random: &mut Random, tally: &mut Tally) -> u64 {
        self.compare_at(random, tally, &[])
    }

    /// The same with these bytes looked up.
    pub fn compare_at(&self, random: &mut Random, tally: &mut Tally, places: &[Place]) -> u64 {
        let log_lengths = log_lengths(&self.length_bytes);
        let audited = Audited::new(plain_hmac, &self.presented(&log_lengths));
        self.lend(Stand::random(random), |material| {
            let ours = audit(material);
            let models = audited.answer().packed();
            assert_eq!(split(ours), split(models), "audits: ours, model's");
            tally.note("audit", ours);
            for place in places {
                let answer = lookups::compare(material, &audited, *place);
                tally.note("lookup", answer);
            }
            ours
        })
    }

    /// From up to so many entries of accepted material to bytes of theirs and
    /// back; answers how many bytes.
    pub fn go_there_and_back(&self, random: &mut Random, most: usize) -> usize {
        self.lend(Stand::random(random), |material| {
            lookups::go_there_and_back(random, material, most)
        })
    }

    /// Lends a copy to the library. Fails where it was written.
    fn lend<T>(&self, stand: Stand, use_it: impl FnOnce(&Material) -> T) -> T {
        let parts = self.parts();
        let lent = parts.map(|bytes| Lent::new(bytes, GUARD, stand));
        let [device_store, auditor_store, logs, lengths, seal_file] =
            lent.each_ref().map(Lent::content);
        let answer = use_it(&Material {
            device_store,
            auditor_store,
            logs,
            lengths,
            seal_file,
        });
        for (lent, before) in lent.into_iter().zip(parts) {
            assert_only_read(lent, before);
        }
        answer
    }

    fn parts(&self) -> [&[u8]; 5] {
        [
            &self.device_store,
            &self.auditor_store,
            &self.log_memory,
            &self.length_bytes,
            &self.seal_file,
        ]
    }

    /// With the log lengths that the bytes say.
    pub fn presented<'a>(&'a self, log_lengths: &'a [u32]) -> Presented<'a> {
        Presented {
            device_store: &self.device_store,
            auditor_store: &self.auditor_store,
            log_memory: &self.log_memory,
            log_lengths,
            seal_file: &self.seal_file,
        }
    }
}

fn audit(material: &Material) -> u64 {
    let Material {
        device_store: device,
        auditor_store: auditor,
        logs,
        lengths,
        seal_file: seal,
    } = *material;
    audit_raw(device, auditor, logs, lengths, seal)
}
