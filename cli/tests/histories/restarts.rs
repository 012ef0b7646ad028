//! Restarts sealed by somebody who knows every key, one at each place of a seal
//! file: as it may stand there, and with one thing changed. What the audit
//! answers is known beforehand.

use pahyndoi::model::{Head, Material, Position, Set};

use crate::answer::split;
use crate::areas::Area;
use crate::device::Shape;
use crate::forgery::{Forger, due_behind, heads_with_restarts, restart_at};
use crate::messages::Rules;
use crate::random::{Case, Random};
use crate::tally::Tally;

const RIGHT: &str = "restart as it may stand";
const AT_OFFSET_0: &str = "restart where offset 0 is due";
const CHUNK: &str = "restart that names another chunk";
const OFFSET: &str = "restart that names another offset";
const NUMBER: &str = "restart with another number";
const UNBURNED: &str = "restart in a chunk that is not burned";
const CUT_KEY: &str = "restart under the key that was due";
const OTHER_KEY: &str = "restart under the key of another chunk";
const NO_RESTART: &str = "filler in the place of a restart";
const ENDS_HALF_WAY: &str = "file that ends half way through a chunk";
const ENDS_AT_RESTART: &str = "file that ends with a restart";
const CHUNK_TOO_FEW: &str = "file that ends a chunk too early";
const TOO_MANY: &str = "filler in a chunk that is not burned";

/// What is counted.
pub const COUNTED: [&str; 13] = [
    RIGHT,
    AT_OFFSET_0,
    CHUNK,
    OFFSET,
    NUMBER,
    UNBURNED,
    CUT_KEY,
    OTHER_KEY,
    NO_RESTART,
    ENDS_HALF_WAY,
    ENDS_AT_RESTART,
    CHUNK_TOO_FEW,
    TOO_MANY,
];

/// The refusal and the number.
type Expected = (u32, u32);

/// Fails where the audit answers another than it must at some place of a file.
pub fn check(case: &mut Case, tally: &mut Tally) {
    let base = Base::random(&mut case.random, case.own_set);
    for number in 0..=base.heads.len() {
        case.step = format!("{:?}, N = {}, item {number}", base.heads, base.ratchet);
        let at = At::new(&base, number);
        at.check_restarts(&mut case.random, tally);
        at.check_keys(&mut case.random, tally);
        at.check_fillers(&mut case.random, tally);
        at.check_endings(&mut case.random, tally);
    }
}

/// Items that the audit takes, restarts among them.
struct Base {
    set: Set,
    unused: Material,
    ratchet: u32,
    heads: Vec<Head>,
}

const PHASES: usize = 2;

impl Base {
    /// Single bytes and fillers, and three chunks behind them.
    fn random(random: &mut Random, own_set: Option<Set>) -> Base {
        let ratchet = random.pick(&[1, 2, 2, 3, 3, 4, 5, 9]);
        let areas = random_bytes(random);
        let between = random.pick(&[1, 2, 5, 1000]);
        let heads = heads_with_restarts(&areas, ratchet, |_| random.once_in(between));
        let used = due_behind(&heads, ratchet).chunk as usize;
        let shape = Shape {
            own_set,
            phases: PHASES,
            chunk_count: used + 3,
            ratchet: ratchet as usize,
            seal_memory: 0,
        };
        Base {
            set: shape.set(),
            unused: shape.material(random),
            ratchet,
            heads,
        }
    }
}

/// Up to eight entries of one byte, and fillers.
fn random_bytes(random: &mut Random) -> Vec<Option<Area>> {
    let mut lengths = [0; PHASES];
    let mut areas = Vec::new();
    for _ in 0..random.up_to(8) {
        if random.once_in(3) {
            areas.push(None);
            continue;
        }
        let phase = random.index(PHASES);
        areas.push(Some((phase as u8 + 1, lengths[phase], 1)));
        lengths[phase] += 1;
    }
    areas
}

/// A place of the file: what stands before it is taken.
struct At<'a> {
    base: &'a Base,
    number: u32,
    before: &'a [Head],
    due: Position,
    /// The chunk of a restart that stands here.
    chunk: u32,
}

impl At<'_> {
    fn new(base: &Base, number: usize) -> At<'_> {
        let before = &base.heads[..number];
        let due = due_behind(before, base.ratchet);
        At {
            base,
            number: number as u32,
            before,
            due,
            chunk: due.chunk + u32::from(due.offset > 0),
        }
    }

    fn is_half_way(&self) -> bool {
        self.due.offset > 0
    }

    /// Each with its chunk unburned, burned as the last one, and not the last.
    fn check_restarts(&self, random: &mut Random, tally: &mut Tally) {
        for (name, head) in self.restarts() {
            let behind = self.fillers_behind();
            let items = [self.before, &[head], &behind].concat();
            let taken = items.len() as u32;
            let here = |refusal| (refusal, self.number);
            let (last, not_last) = match name {
                RIGHT => ((0, taken), (22, 0)),
                _ => (here(17), here(17)),
            };
            self.expect(random, tally, &items, self.chunk, here(16));
            self.expect(random, tally, &items, self.chunk + 1, last);
            self.expect(random, tally, &items, self.chunk + 2, not_last);
            tally.count(name, 1);
            tally.count(UNBURNED, 1);
        }
    }

    /// The right one, if one may stand here, and others with one thing changed.
    fn restarts(&self) -> Vec<(&'static str, Head)> {
        let Position { chunk, offset } = self.due;
        let ratchet = self.base.ratchet;
        let restart = |chunk, offset, number| Head::Restart {
            position: Position { chunk, offset },
            number,
        };
        if !self.is_half_way() {
            let numbers = [0, 1, ratchet - 1, ratchet];
            let both = numbers.map(|number| [chunk, chunk + 1].map(|c| restart(c, 0, number)));
            let all = both.into_iter().flatten();
            return all.map(|head| (AT_OFFSET_0, head)).collect();
        }
        let mut restarts = vec![(RIGHT, restart_at(self.due))];
        for other in [chunk, chunk + 2, (chunk + 1) | (1 << 16), u32::MAX] {
            restarts.push((CHUNK, restart(other, 0, offset)));
        }
        for other in [1, offset, ratchet, 1 << 24] {
            restarts.push((OFFSET, restart(chunk + 1, other, offset)));
        }
        for other in [offset - 1, offset + 1, offset | (1 << 8), u32::MAX] {
            restarts.push((NUMBER, restart(chunk + 1, 0, other)));
        }
        restarts
    }

    /// Up to the end of the chunk of a restart.
    fn fillers_behind(&self) -> Vec<Head> {
        let filler = |offset| Head::Filler {
            position: Position {
                chunk: self.chunk,
                offset,
            },
        };
        (1..self.base.ratchet).map(filler).collect()
    }

    /// The right restart, under other keys than that of its own place.
    fn check_keys(&self, random: &mut Random, tally: &mut Tally) {
        if !self.is_half_way() {
            return;
        }
        let items = [self.before, &[restart_at(self.due)]].concat();
        let behind = self.due.next_chunk().next_chunk();
        for (name, key) in [(CUT_KEY, self.due), (OTHER_KEY, behind)] {
            let mut places: Vec<Position> = items.iter().map(Head::position).collect();
            places[self.before.len()] = key;
            let forger = self.forger(self.chunk + 1);
            let items = forger.seal_all(&items, &places);
            let answer = forger
                .present_cut(self.base.set, items)
                .compare(random, tally);
            assert_eq!(split(answer), (21, self.number), "{name}");
            tally.count(name, 1);
        }
    }

    /// A filler in the next chunk, where a restart would have to stand first,
    /// and one where it is due.
    fn check_fillers(&self, random: &mut Random, tally: &mut Tally) {
        let filler = |position| [self.before, &[Head::Filler { position }]].concat();
        let next = filler(self.due.next_chunk());
        let here = |refusal| (refusal, self.number);
        if self.is_half_way() {
            self.expect(random, tally, &next, self.chunk, here(17));
            self.expect(random, tally, &next, self.chunk + 1, here(17));
            tally.count(NO_RESTART, 1);
        } else {
            let due = filler(self.due);
            self.expect(random, tally, &due, self.chunk, here(16));
            tally.count(TOO_MANY, 1);
        }
    }

    /// What comes before this place, and nothing behind it; and a restart at the
    /// end.
    fn check_endings(&self, random: &mut Random, tally: &mut Tally) {
        let taken = (0, self.number);
        if self.is_half_way() {
            self.expect(random, tally, self.before, self.chunk, (22, 0));
            tally.count(ENDS_HALF_WAY, 1);
            let items = [self.before, &[restart_at(self.due)]].concat();
            self.expect(random, tally, &items, self.chunk + 1, (22, 0));
            tally.count(ENDS_AT_RESTART, 1);
        } else {
            self.expect(random, tally, self.before, self.chunk, taken);
        }
        self.expect(random, tally, self.before, self.chunk + 1, (22, 0));
        tally.count(CHUNK_TOO_FEW, 1);
    }

    /// Audits the items, each under the key of its own place, with so many
    /// chunks burned.
    fn expect(
        &self,
        random: &mut Random,
        tally: &mut Tally,
        items: &[Head],
        burned: u32,
        expected: Expected,
    ) {
        let forger = self.forger(burned);
        let sealed = forger.seal_in_place(items);
        let presented = forger.present_cut(self.base.set, sealed);
        let answer = presented.compare_at(random, tally, &[(1, 0)]);
        assert_eq!(split(answer), expected, "{items:?}, {burned} burned");
    }

    /// The logs end where the entries before this place do.
    fn forger(&self, burned: u32) -> Forger {
        let mut lengths = [0; PHASES];
        for (phase, area) in self.before.iter().filter_map(Head::area) {
            lengths[usize::from(phase) - 1] = area.end as u32;
        }
        Forger::new(&self.base.unused, burned as usize, &lengths, Rules::RIGHT)
    }
}
