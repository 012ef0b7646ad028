//! Entries with right tags that cover their logs in rising order, and one
//! change among them whose answer is known beforehand.

use pahyndoi::model::{Item, Material, Set};

use crate::answer::split;
use crate::areas::{Area, random_entry, rising_areas};
use crate::forgery::{filled_up, seal};
use crate::messages::Rules;
use crate::places::items;
use crate::presentation::Presentation;
use crate::random::{Case, Random};
use crate::sets::in_effect;
use crate::tally::Tally;

pub const IN_TURNS: &str = "accepted with entries of several phases in turns";
pub const LOOKED_UP: &str = "bytes looked up in rising entries";

/// The most entries of one material that are looked for from their bytes.
const ENTRIES_LOOKED_FOR: usize = 3;

/// The bytes of an entry before its tag.
const ENTRY_HEAD: usize = 18;

/// What is changed at one entry.
#[derive(Clone, Copy, Debug)]
pub enum Change {
    /// It begins one byte before the covered end.
    JustBelow,
    Below,
    /// It is an earlier one of its phase once more.
    Repeated,
    /// It begins one byte behind the covered end.
    JustBeyond,
    Beyond,
    /// A later one of its phase comes first.
    Exchanged,
    /// It names a phase with another covered end.
    OtherPhase,
    LeftOut,
    /// It has a byte more than its area.
    Longer,
    /// It has a byte less.
    Shorter,
    Tag,
}

impl Change {
    /// With what is counted where they are made.
    pub const ALL: [(Change, &'static str); 11] = [
        (Change::JustBelow, "begins one byte below"),
        (Change::Below, "begins below"),
        (Change::Repeated, "is an earlier one again"),
        (Change::JustBeyond, "begins one byte beyond"),
        (Change::Beyond, "begins beyond"),
        (Change::Exchanged, "comes after a later one"),
        (Change::OtherPhase, "names another phase"),
        (Change::LeftOut, "is left out"),
        (Change::Longer, "is a byte longer"),
        (Change::Shorter, "is a byte shorter"),
        (Change::Tag, "has another tag"),
    ];
}

/// The refusal and the number.
type Expected = (u32, u32);

/// Audits rising entries as they are, then with each change that can be made
/// at some entry. Fails where the answer is another than it must be.
pub fn check(case: &mut Case, tally: &mut Tally) {
    let rising = Rising::random(&mut case.random, case.own_set);
    case.step = "rising entries".to_string();
    rising.check_accepted(&mut case.random, tally);
    for (change, counted) in Change::ALL {
        let random = &mut case.random;
        let Some(entry) = random_entry(random, &rising.areas) else {
            return;
        };
        let mut changed = rising.clone();
        if let Some(expected) = changed.make(random, change, entry) {
            case.step = format!("rising entries, {change:?} at item {entry}");
            let forged = changed.forged(random, change, entry, expected);
            assert_eq!(split(forged.compare(random, tally)), expected);
            tally.count(counted, 1);
        }
    }
}

/// Areas and the keys that seal them.
#[derive(Clone)]
struct Rising {
    set: Set,
    unused: Material,
    lengths: Vec<u32>,
    areas: Vec<Option<Area>>,
}

impl Rising {
    fn random(random: &mut Random, own_set: Option<Set>) -> Rising {
        let phases = random.pick(&[1, 2, 3, 8]);
        let (lengths, areas) = rising_areas(random, in_effect(own_set), phases);
        let ratchet = random.pick(&[1, 2, 3, 5]);
        let (shape, areas) = filled_up(own_set, ratchet, phases, areas);
        Rising {
            set: shape.set(),
            unused: shape.material(random),
            lengths,
            areas,
        }
    }

    fn check_accepted(&self, random: &mut Random, tally: &mut Tally) {
        let material = self.seal();
        let answer = split(material.compare(random, tally));
        assert_eq!(answer, (0, self.areas.len() as u32));
        let looked_up = material.go_there_and_back(random, ENTRIES_LOOKED_FOR);
        tally.count(LOOKED_UP, looked_up);
        tally.count(IN_TURNS, usize::from(self.is_in_turns()));
    }

    fn seal(&self) -> Presentation {
        let Rising {
            set,
            unused,
            lengths,
            areas,
        } = self;
        seal(unused, *set, lengths, areas, Rules::RIGHT)
    }

    /// Whether a phase has an entry before and one behind another's.
    fn is_in_turns(&self) -> bool {
        let mut phases: Vec<u8> = self.areas.iter().flatten().map(|area| area.0).collect();
        phases.dedup();
        let runs = phases.len();
        phases.sort_unstable();
        phases.dedup();
        runs > phases.len()
    }

    /// Sealed with the change; now and then with a bit altered in the tag of
    /// the refused entry or behind it, which is not read.
    fn forged(
        &self,
        random: &mut Random,
        change: Change,
        entry: usize,
        (refusal, number): Expected,
    ) -> Presentation {
        let mut forged = self.seal();
        let sealed = items(self.set, &forged.seal_file);
        let tag_of = |number: usize| {
            let before: usize = sealed[..number].iter().map(Item::byte_count).sum();
            before + ENTRY_HEAD
        };
        let tag_length = usize::from(self.set.tag_length);
        let altered = match (change, refusal) {
            (Change::Tag, _) => tag_of(entry) + random.index(tag_length),
            (_, 18..=20) if random.once_in(2) => {
                let tag = tag_of(number as usize);
                tag + random.index(forged.seal_file.len() - tag)
            }
            _ => return forged,
        };
        forged.seal_file[altered] ^= 1 << random.up_to(7);
        forged
    }

    /// Makes the change at an entry, and says what the audit answers; none
    /// where it cannot be made there.
    fn make(&mut self, random: &mut Random, change: Change, entry: usize) -> Option<Expected> {
        let (phase, begin, length) = self.area(entry);
        let number = entry as u32;
        match change {
            Change::JustBelow => self.move_down(random, entry, 1),
            Change::Below => self.move_down(random, entry, begin),
            Change::Repeated => {
                let earlier = random_entry_of(random, phase, &self.areas[..entry])?;
                self.put(entry, self.area(earlier), (19, number))
            }
            Change::JustBeyond => self.move_up(random, entry, 1),
            Change::Beyond => self.move_up(random, entry, self.set.log_capacity - begin),
            Change::Exchanged => {
                let behind = random_entry_of(random, phase, &self.areas[entry + 1..])?;
                self.areas.swap(entry, entry + 1 + behind);
                Some((20, number))
            }
            Change::OtherPhase => {
                let (other, refusal) = self.other_phase(random, entry)?;
                self.put(entry, (other, begin, length), (refusal, number))
            }
            Change::LeftOut => {
                self.areas[entry] = None;
                Some(self.gap_behind(phase, entry))
            }
            Change::Longer => Some(self.lengthen(entry)),
            Change::Shorter => Some(self.shorten(entry)),
            Change::Tag => Some((21, number)),
        }
    }

    /// Up to so many bytes down, with an end that the phase's log has.
    fn move_down(&mut self, random: &mut Random, entry: usize, most: u32) -> Option<Expected> {
        let (phase, begin, length) = self.area(entry);
        if begin == 0 {
            return None;
        }
        let down = random.between(1, most as usize) as u32;
        let longest = self.set.data_limit.min(down + length);
        let length = random.pick(&[1, length, longest]);
        self.put(entry, (phase, begin - down, length), (19, entry as u32))
    }

    /// Up to so many bytes up.
    fn move_up(&mut self, random: &mut Random, entry: usize, most: u32) -> Option<Expected> {
        let (phase, begin, length) = self.area(entry);
        let up = random.between(1, most as usize) as u32;
        let length = random.between(1, length as usize) as u32;
        self.put(entry, (phase, begin + up, length), (20, entry as u32))
    }

    fn lengthen(&mut self, entry: usize) -> Expected {
        let (phase, begin, length) = self.area(entry);
        self.areas[entry] = Some((phase, begin, length + 1));
        match self.next_of(phase, entry) {
            Some(next) if length < self.set.data_limit => (19, next),
            _ => (18, entry as u32),
        }
    }

    fn shorten(&mut self, entry: usize) -> Expected {
        let (phase, begin, length) = self.area(entry);
        self.areas[entry] = Some((phase, begin, length - 1));
        match length {
            1 => (18, entry as u32),
            _ => self.gap_behind(phase, entry),
        }
    }

    /// The area of an entry. It begins at the covered end of its phase.
    fn area(&self, entry: usize) -> Area {
        self.areas[entry].expect("an entry")
    }

    /// Gives an entry another area, and its phase so many bytes that 18 does
    /// not hold; none where the log has no room.
    fn put(&mut self, entry: usize, area: Area, expected: Expected) -> Option<Expected> {
        let (phase, begin, length) = area;
        let log_length = &mut self.lengths[usize::from(phase) - 1];
        *log_length = (begin + length).max(*log_length);
        self.areas[entry] = Some(area);
        (*log_length <= self.set.log_capacity).then_some(expected)
    }

    /// A phase whose covered end is not that of the entry's, and what refuses
    /// the entry there.
    fn other_phase(&self, random: &mut Random, entry: usize) -> Option<(u8, u32)> {
        let (_, begin, _) = self.area(entry);
        let phases = 1..=self.lengths.len() as u8;
        let others: Vec<(u8, u32)> = phases
            .map(|phase| (phase, self.covered_end(phase, entry)))
            .filter(|(_, end)| *end != begin)
            .map(|(phase, end)| (phase, if begin < end { 19 } else { 20 }))
            .collect();
        (!others.is_empty()).then(|| random.pick(&others))
    }

    /// Where the bytes of a phase end that the entries before this one have.
    fn covered_end(&self, phase: u8, entry: usize) -> u32 {
        let before = self.areas[..entry].iter().flatten();
        let lengths = before.filter(|area| area.0 == phase).map(|area| area.2);
        lengths.sum()
    }

    /// What an audit answers where bytes at the end of an entry's area are in
    /// none.
    fn gap_behind(&self, phase: u8, entry: usize) -> Expected {
        match self.next_of(phase, entry) {
            Some(next) => (20, next),
            None => (23, 0),
        }
    }

    /// The number of the next entry of this phase.
    fn next_of(&self, phase: u8, entry: usize) -> Option<u32> {
        let mut behind = (0..).zip(&self.areas).skip(entry + 1);
        let next = behind.find(|(_, area)| area.is_some_and(|area| area.0 == phase));
        next.map(|(number, _)| number)
    }
}

/// The index of a random entry of this phase, if there is one.
fn random_entry_of(random: &mut Random, phase: u8, areas: &[Option<Area>]) -> Option<usize> {
    let of_phase: Vec<Option<Area>> = areas
        .iter()
        .map(|area| area.filter(|area| area.0 == phase))
        .collect();
    random_entry(random, &of_phase)
}
