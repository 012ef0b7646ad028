//! The refusals by number, and what each means.

use std::error::Error;
use std::fmt;

/// The number, 1 to 27, of the first rule by which a call refused its input.
#[derive(Clone, Copy, Debug, PartialEq, Eq)]
pub struct Refusal(pub u32);

/// What each rule says, from number 1 on, in checking order: the words of
/// `docs/FORMAT.md`, 9.
const MEANINGS: [&str; 27] = [
    "a message or a key handed to the hash has more than 1,048,576 bytes",
    "the store lacks a whole header of kind 1 or 6, has phases, chunk count, ratchet or set \
     out of range, or is not as long as its header says",
    "the log memory is not the log capacity times the phases",
    "a chunk is burned although an earlier one is not",
    "the lengths are not one for each phase, or one is above the log capacity",
    "open is given a seal length beyond the seal memory, or append, close or restart a state \
     that does not fit",
    "the phase is not one of the store's",
    "the data are empty or longer than the data limit",
    "the phase's log has no room for the data",
    "the seal memory has no room for the items to be written",
    "the keys of all chunks are spent",
    "the auditor's store is malformed (rule 2) or has a burned chunk",
    "the headers of the two stores differ",
    "behind the P burned chunks, a chunk differs between the two stores",
    "the item is no entry, no filler and no restart, or the seal file ends before the item does",
    "the chunk in which the item is due is not below P (P burned chunks)",
    "the item has another chunk number or ratchet offset than is due, or is a restart where no \
     chunk was cut or with another number than the cut chunk had items",
    "the entry names no phase of the store, has a data length outside 1 to the data limit, or \
     reaches past its phase's length",
    "the entry begins below the end of its phase's covered bytes",
    "the entry begins beyond the end of its phase's covered bytes",
    "the item's tag is not the one that its key gives for its message",
    "after the last item chunk P at offset 0 is not what is due (P burned chunks)",
    "some phase's log is not covered up to its length",
    "the phase is not one of the store's, or the offset is not below the phase's length",
    "the plan has more than 64 counts, a count above 65,536, or a chunk count outside 1 to \
     1,024",
    "a tag of fewer than 16 or more than 32 bytes is wanted",
    "restart is given a number outside 1 to N - 1 (N keys from each chunk), a state whose \
     offset is not 0, or a store with no burned chunk",
];

impl Refusal {
    /// What the rule of this number says, in words. No call answers a number
    /// outside 1 to 27; its meaning is "unknown rule".
    pub fn meaning(self) -> &'static str {
        let index = self.0.checked_sub(1).map(|index| index as usize);
        let meaning = index.and_then(|index| MEANINGS.get(index));
        meaning.unwrap_or(&"unknown rule")
    }
}

impl fmt::Display for Refusal {
    fn fmt(&self, formatter: &mut fmt::Formatter<'_>) -> fmt::Result {
        write!(formatter, "refused by rule {}: {}", self.0, self.meaning())
    }
}

impl Error for Refusal {}

#[cfg(test)]
mod tests {
    use super::Refusal;

    #[test]
    fn every_number_has_a_meaning_of_its_own() {
        let meanings: Vec<&str> = (1..=27).map(|number| Refusal(number).meaning()).collect();
        for (index, meaning) in meanings.iter().enumerate() {
            assert_ne!(*meaning, "unknown rule");
            assert!(!meanings[..index].contains(meaning));
        }
    }

    #[test]
    fn other_numbers_have_none() {
        for number in [0, 28, u32::MAX] {
            assert_eq!(Refusal(number).meaning(), "unknown rule");
        }
    }

    #[test]
    fn display_names_rule_and_meaning() {
        assert_eq!(
            Refusal(3).to_string(),
            "refused by rule 3: the log memory is not the log capacity times the phases"
        );
    }
}
