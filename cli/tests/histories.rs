//! The library's open, append, close, restart, audit, lookups and plans compared
//! with the model's on random cases: answers, states and every byte.
//! `PAHYNDOI_SEED` and `PAHYNDOI_CASES` choose other cases than the usual ones.

#[path = "histories/accounts.rs"]
mod accounts;
#[path = "histories/answer.rs"]
mod answer;
#[path = "histories/areas.rs"]
mod areas;
#[path = "histories/attempts.rs"]
mod attempts;
#[path = "histories/bits.rs"]
mod bits;
#[path = "histories/calls.rs"]
mod calls;
#[path = "histories/cards.rs"]
mod cards;
#[path = "histories/compromises.rs"]
mod compromises;
#[path = "histories/damage.rs"]
mod damage;
#[path = "histories/device.rs"]
mod device;
#[path = "histories/edges.rs"]
mod edges;
#[path = "histories/every_key.rs"]
mod every_key;
#[path = "histories/exchanges.rs"]
mod exchanges;
#[path = "common/fence.rs"]
mod fence;
#[path = "histories/fenced.rs"]
mod fenced;
#[path = "histories/forgery.rs"]
mod forgery;
#[path = "histories/honest.rs"]
mod honest;
#[path = "histories/intruders.rs"]
mod intruders;
#[path = "histories/largest.rs"]
mod largest;
#[path = "histories/lent.rs"]
mod lent;
#[path = "histories/library.rs"]
mod library;
#[path = "histories/lookups.rs"]
mod lookups;
#[path = "histories/messages.rs"]
mod messages;
#[path = "histories/mishap.rs"]
mod mishap;
#[path = "histories/places.rs"]
mod places;
#[path = "histories/plans.rs"]
mod plans;
#[path = "histories/presentation.rs"]
mod presentation;
#[path = "histories/random.rs"]
mod random;
#[path = "histories/ranges.rs"]
mod ranges;
#[path = "histories/requests.rs"]
mod requests;
#[path = "histories/restarts.rs"]
mod restarts;
#[path = "histories/rising.rs"]
mod rising;
#[path = "histories/rows.rs"]
mod rows;
#[path = "histories/sets.rs"]
mod sets;
#[path = "histories/standby.rs"]
mod standby;
#[path = "histories/tally.rs"]
mod tally;

use std::collections::BTreeSet;

use pahyndoi::model::Set;

use answer::{is_accepted, split};
use device::Device;
use exchanges::Exchange;
use lent::Stand;
use places::Place;
use plans::Outcomes;
use presentation::Presentation;
use random::{Case, Random, Run};
use rows::Row;
use tally::{Tallies, Tally};

#[test]
fn calls_are_those_of_the_model() {
    let run = Run::new(4000);
    let mut tallies = Tallies::default();
    for case in run.each() {
        let tally = tallies.of(case.own_set);
        make_calls(case, tally);
    }
    tallies.print();
    if run.whole {
        tallies.assert_all_met("open", &[0, 2, 3, 4, 5, 6], 100);
        tallies.assert_all_met("append", &[0, 2, 3, 6, 7, 8, 9, 10, 11], 100);
        tallies.assert_all_met("close", &[0, 2, 3, 6, 10], 100);
        tallies.assert_all_met("restart", &[0, 2, 3, 6, 10, 11, 27], 100);
        tallies.of_kind_6.assert_all_tags(100);
        for reached in edges::REACHED {
            tallies.assert_more(reached, 3);
        }
    }
}

/// Calls on one device. Mishaps and refused opens are mostly undone, so that
/// the others do their work.
fn make_calls(mut case: Case, tally: &mut Tally) {
    let mut device = Device::random(&mut case.random, case.own_set);
    for number in 0..case.random.between(5, 50) {
        let random = &mut case.random;
        let kept = device.clone();
        let struck = random.once_in(4);
        if struck {
            mishap::strike(random, &mut device);
        }
        let call = requests::random_call(random, &device);
        case.step = format!("call {number}: {}", calls::describe(&call));
        let (set, edges) = (device.set(), edges::of(&device, &call));
        let stand = Stand::random(&mut case.random);
        let answer = calls::compare(stand, &mut device, &call);
        tally.note(calls::name(&call), answer);
        edges::note(tally, &edges, answer);
        if calls::has_sealed(&call, answer) {
            tally.note_tags(set, 1);
        }
        let lost = struck || calls::lost_state(&call, answer);
        if lost && !(device.is_whole() && case.random.once_in(4)) {
            device = kept;
        }
    }
}

#[test]
fn histories_are_those_of_their_account() {
    let run = Run::new(2000);
    let mut tallies = Tallies::default();
    for mut case in run.each() {
        let tally = tallies.of(case.own_set);
        let recorded = accounts::check_history(&mut case, tally);
        recorded.compare_lists(&mut case.random, tally);
        recorded.go_on_anyhow(&mut case, tally);
    }
    tallies.print();
    if run.whole {
        tallies.assert_all_met("open", &[0, 5, 6], 50);
        tallies.assert_all_met("append", &[0, 6, 7, 8, 9, 10, 11], 50);
        tallies.assert_all_met("close", &[0, 6, 10], 50);
        tallies.assert_all_met("restart", &[0, 6, 10, 11, 27], 50);
        tallies.assert_all_met("audit", &[0, 17, 22], 50);
        tallies.assert_all_met("lookup", &[0, 22, 24], 50);
        for counted in accounts::COUNTED {
            tallies.assert_more(counted, 50);
        }
        for counted in accounts::MISPLACED {
            tallies.assert_more(counted, 25);
        }
    }
}

/// What is presented for a device that was compromised behind a history.
#[test]
fn compromised_devices_keep_their_items_up_to_b() {
    let run = Run::new(2000);
    let mut tallies = Tallies::default();
    for mut case in run.each() {
        let tally = tallies.of(case.own_set);
        let recorded = accounts::check_history(&mut case, tally);
        case.step = "compromised".to_string();
        compromises::check(&mut case.random, tally, &recorded);
        intruders::check_tight(&mut case.random, tally, &recorded);
        every_key::check(&mut case.random, tally, &recorded);
    }
    tallies.print();
    if run.whole {
        for counted in compromises::COUNTED.iter().chain(&every_key::COUNTED) {
            tallies.assert_more(counted, 30);
        }
        tallies.assert_more(intruders::TIGHT, run.cases / 2);
    }
}

/// By who holds the keys that a device had left, and no others: at every place
/// of its seal file, whatever these keys can seal.
#[test]
fn keys_left_drop_items_behind_b_and_forge_none() {
    let run = Run::new(150);
    let mut tallies = Tallies::default();
    for mut case in run.each() {
        let tally = tallies.of(case.own_set);
        let recorded = accounts::check_short_history(&mut case, tally);
        case.step = "made up".to_string();
        attempts::check(&mut case.random, tally, &recorded);
    }
    tallies.print();
    if run.whole {
        for counted in intruders::COUNTED {
            tallies.assert_more(counted, run.cases / 50);
        }
        for counted in attempts::COUNTED {
            tallies.assert_more(counted, run.cases / 15);
        }
    }
}

/// The refusals of an audit, 0 for none.
const AUDIT_REFUSALS: [u32; 17] = [
    0, 2, 3, 4, 5, 12, 13, 14, 15, 16, 17, 18, 19, 20, 21, 22, 23,
];

const ACCEPTED: &str = "accepted with a count above 0";

#[test]
fn audits_and_lookups_are_those_of_the_model() {
    let run = Run::new(4000);
    let mut tallies = Tallies::default();
    for mut case in run.each() {
        let tally = tallies.of(case.own_set);
        let damaged = audit_damaged(&mut case, tally);
        let forged = audit_forged(&mut case, tally);
        let answers = damaged.iter().chain(&forged);
        let accepted = answers.filter(|answer| is_accepted(**answer)).count();
        tally.count(ACCEPTED, accepted);
        tally.note_tags(sets::in_effect(case.own_set), accepted);
    }
    tallies.print();
    if run.whole {
        tallies.assert_all_met("audit", &AUDIT_REFUSALS, 50);
        tallies.assert_all_met("lookup", &[&AUDIT_REFUSALS[..], &[24]].concat(), 50);
        tallies.assert_more(ACCEPTED, run.cases);
        tallies.of_kind_6.assert_all_tags(100);
    }
}

/// Audits honest material as it is, then with up to two damages.
fn audit_damaged(case: &mut Case, tally: &mut Tally) -> Vec<u64> {
    let (honest, other) = honest::random_pair(&mut case.random, case.own_set);
    let mut answers = Vec::new();
    for round in 0..6 {
        case.step = format!("honest material, damage {round}");
        let damages = case.random.up_to(2).min(round);
        let damaged = damage::damaged(&mut case.random, &honest, &other, damages);
        answers.push(damaged.compare(&mut case.random, tally));
    }
    answers
}

fn audit_forged(case: &mut Case, tally: &mut Tally) -> Vec<u64> {
    let mut answers = Vec::new();
    for round in 0..3 {
        case.step = format!("forgery {round}");
        let forgery = forgery::random_forgery(&mut case.random, case.own_set);
        answers.push(forgery.compare(&mut case.random, tally));
    }
    answers
}

/// The most entries of one material that are looked for from their bytes.
const ENTRIES_LOOKED_FOR: usize = 60;

/// From entries to their bytes and back, in what controllers left and in what
/// forgers sealed.
#[test]
fn entries_are_found_again_from_their_bytes() {
    let run = Run::new(100);
    let mut tallies = Tallies::default();
    for mut case in run.each() {
        let tally = tallies.of(case.own_set);
        find_entries_again(&mut case, tally);
    }
    tallies.print();
    if run.whole {
        tallies.assert_more(LOOKED_UP, 50 * run.cases);
    }
}

const LOOKED_UP: &str = "bytes looked up there and back";

fn find_entries_again(case: &mut Case, tally: &mut Tally) {
    let Case {
        own_set, random, ..
    } = case;
    let (honest, other) = honest::random_pair(random, *own_set);
    let forgeries = [0; 4].map(|_| forgery::random_forgery(random, *own_set));
    let controllers = [honest, other].map(|honest| honest.presentation);
    for (number, material) in controllers.iter().chain(&forgeries).enumerate() {
        case.step = format!("material {number}");
        if is_accepted(material.compare(&mut case.random, tally)) {
            let looked_up = material.go_there_and_back(&mut case.random, ENTRIES_LOOKED_FOR);
            tally.count(LOOKED_UP, looked_up);
        }
    }
}

/// Forged entries whose answer is known beforehand.
#[test]
fn areas_are_taken_as_written() {
    let mut case = Run::new(1).case(0);
    let mut tallies = Tallies::default();
    for own_set in sets::none_and_corners() {
        for row in rows::rows(sets::in_effect(own_set)) {
            case.step = format!("{own_set:?}, {}", row.name);
            check_row(&mut case.random, tallies.of(own_set), own_set, &row);
        }
    }
    tallies.print();
    tallies.assert_all_met("audit", &[0, 5, 18, 19, 20, 23], 2);
}

fn check_row(random: &mut Random, tally: &mut Tally, own_set: Option<Set>, row: &Row) {
    let forgery = forgery::seal_areas(random, own_set, &row.lengths, &row.areas);
    let answer = forgery.compare(random, tally);
    assert_eq!(split(answer), row.answer);
    if is_accepted(answer) {
        forgery.go_there_and_back(random, row.areas.len());
    }
}

/// By somebody who knows every key: entries in rising order, and one of them
/// elsewhere.
#[test]
fn entries_begin_at_the_covered_end() {
    let run = Run::new(1000);
    let mut tallies = Tallies::default();
    for mut case in run.each() {
        let tally = tallies.of(case.own_set);
        rising::check(&mut case, tally);
    }
    tallies.print();
    if run.whole {
        let refusals = [0, 18, 19, 20, 21, 23];
        tallies.assert_all_met("audit", &refusals, 100);
        tallies.assert_all_met("lookup", &[&refusals[..], &[24]].concat(), 100);
        for (_, counted) in rising::Change::ALL {
            tallies.assert_more(counted, run.cases / 3);
        }
        tallies.assert_more(rising::IN_TURNS, run.cases / 3);
        tallies.assert_more(rising::LOOKED_UP, 3 * run.cases);
    }
}

/// By somebody who knows every key: restarts at every place of a file, right
/// and wrong ones.
#[test]
fn restarts_are_taken_where_a_chunk_was_cut() {
    let run = Run::new(200);
    let mut tallies = Tallies::default();
    for mut case in run.each() {
        let tally = tallies.of(case.own_set);
        restarts::check(&mut case, tally);
    }
    tallies.print();
    if run.whole {
        tallies.assert_all_met("audit", &[0, 16, 17, 21, 22], run.cases);
        for counted in restarts::COUNTED {
            tallies.assert_more(counted, run.cases);
        }
    }
}

/// All bits of one small material, one after the other, and every length of
/// each part of it.
#[test]
fn no_bit_and_no_length_can_be_changed() {
    let mut case = Run::new(1).case(0);
    let mut tallies = Tallies::default();
    for own_set in sets::none_and_corners() {
        bits::check_changes(&mut case, tallies.of(own_set), own_set);
    }
    tallies.print();
    tallies.assert_all_met("audit", &AUDIT_REFUSALS, 1);
}

/// Sets one beyond each edge of the range, and those at the edges.
#[test]
fn sets_are_taken_up_to_their_edges() {
    let mut case = Run::new(1).case(0);
    let mut tally = Tally::default();
    for (set, in_range) in ranges::ROWS {
        case.step = format!("{set:?}");
        ranges::check(&mut case.random, &mut tally, set, in_range);
    }
    tally.print();
    tally.assert_met("audit", &[0, 2, 12], 20);
}

/// Every set presented as every other one.
#[test]
fn sets_cannot_be_exchanged() {
    let mut case = Run::new(1).case(0);
    let mut tallies = Tallies::default();
    for own_set in sets::none_and_corners() {
        let tally = tallies.of(own_set);
        for other in sets::none_and_corners().filter(|other| *other != own_set) {
            let exchange = Exchange { own_set, other };
            case.step = format!("{exchange:?}");
            exchange.check(&mut case.random, tally);
        }
        case.step = format!("{own_set:?}, the other kind");
        exchanges::check_kinds(&mut case.random, tally, own_set);
    }
    tallies.print();
    tallies.assert_met("audit", &[0, 2, 3, 12, 13, 15, 18], 1);
    tallies.of_kind_6.assert_met("audit", &[5, 21], 40);
}

#[test]
fn tags_cannot_be_cut_or_lengthened() {
    let mut case = Run::new(1).case(0);
    let mut tallies = Tallies::default();
    for own_set in sets::none_and_corners() {
        case.step = format!("{own_set:?}");
        exchanges::check_tags(&mut case.random, tallies.of(own_set), own_set);
    }
    tallies.print();
    tallies.assert_met("audit", &[15, 21], 20);
}

/// Two stores with equal chunks: what is sealed with the one is nothing to the
/// other.
#[test]
fn standby_cannot_stand_in() {
    let run = Run::new(500);
    let mut tallies = Tallies::default();
    for mut case in run.each() {
        let tally = tallies.of(case.own_set);
        case.step = "sealed by the calls".to_string();
        standby::check_sealed(&mut case.random, tally, case.own_set);
        case.step = "forged".to_string();
        standby::check_forged(&mut case.random, tally, case.own_set);
    }
    tallies.print();
    if run.whole {
        tallies.assert_met("audit", &[0, 13, 21], run.cases);
        for counted in standby::KINDS_EXCHANGED {
            tallies.assert_more(counted, run.cases / 4);
        }
        tallies.assert_more(standby::SEAL_FILES, run.cases);
        tallies.assert_more(standby::IDS, run.cases);
    }
}

/// By somebody who knows every key, but puts messages together in another way.
#[test]
fn messages_begin_with_the_id() {
    let mut case = Run::new(1).case(0);
    let mut tallies = Tallies::default();
    for own_set in sets::none_and_corners() {
        case.step = format!("{own_set:?}");
        standby::check_rules(&mut case.random, tallies.of(own_set), own_set);
    }
    tallies.print();
    tallies.assert_all_met("audit", &[0, 21], 20);
    for counted in standby::KINDS_EXCHANGED {
        tallies.assert_more(counted, 20);
    }
}

#[test]
fn largest_material_is_audited_to_its_last_byte() {
    let mut case = Run::new(1).case(0);
    let mut tallies = Tallies::default();
    for plan in largest::PLANS {
        case.step = format!("{plan:?}");
        audit_largest(&mut case.random, tallies.of(plan.own_set), &plan);
    }
    tallies.print();
}

fn audit_largest(random: &mut Random, tally: &mut Tally, plan: &largest::Plan) {
    let mut largest: Presentation = largest::material(random, plan);
    let items = largest::ITEMS as u32;
    let (last, behind) = ((8, plan.log_length() - 1), (8, plan.log_length()));
    // Every lookup audits anew, which takes long here.
    let (places, entries, when_altered): (&[Place], usize, &[Place]) = match plan.own_set {
        None => (&[last, behind], 2, &[last]),
        Some(_) => (&[last], 0, &[]),
    };
    let answer = largest.compare_at(random, tally, places);
    assert_eq!(split(answer), (0, items));
    largest.go_there_and_back(random, entries);
    *largest.seal_file.last_mut().expect("a tag") ^= 1;
    let answer = largest.compare_at(random, tally, when_altered);
    assert_eq!(split(answer), (21, items - 1));
}

#[test]
fn plans_are_those_of_the_model() {
    let run = Run::new(100_000);
    let mut outcomes = Outcomes::default();
    for plan in plans::at_the_edges() {
        outcomes.note(plan.compare(Stand::Shifted(0)));
    }
    for number in 0..run.cases {
        let mut case = run.case(number);
        let plan = plans::random_plan(&mut case.random);
        outcomes.note(plan.compare(Stand::random(&mut case.random)));
    }
    outcomes.print();
    if run.whole {
        outcomes.assert_met(5000);
    }
}

#[test]
fn followed_plans_burn_what_they_take() {
    let run = Run::new(1000);
    let mut tallies = Tallies::default();
    for mut case in run.each() {
        let (lasted, spent) = cards::use_up(&mut case);
        let tally = tallies.of(case.own_set);
        tally.count(LASTED, lasted);
        tally.count(SPENT, spent);
    }
    tallies.print();
    if run.whole {
        tallies.assert_more(LASTED, run.cases / 2);
        tallies.assert_more(SPENT, run.cases / 2);
    }
}

const LASTED: &str = "plans that lasted";
const SPENT: &str = "plans that met the last key";

#[test]
fn least_ratchet_lasts_and_no_smaller_one_does() {
    let run = Run::new(1000);
    let mut tallies = Tallies::default();
    let mut met = BTreeSet::new();
    for mut case in run.each() {
        let least = cards::try_least(&mut case);
        let tally = tallies.of(case.own_set);
        match least {
            None => tally.count(NONE_LASTS, 1),
            Some(ratchet) if met.insert((case.own_set.is_some(), ratchet)) => {
                tally.count(RATCHETS_MET, 1);
            }
            Some(_) => (),
        }
    }
    tallies.print();
    if run.whole {
        tallies.assert_more(NONE_LASTS, run.cases / 20);
        tallies.assert_more(RATCHETS_MET, 20);
    }
}

const NONE_LASTS: &str = "plans for which none lasts";
const RATCHETS_MET: &str = "ratchets that were the least";

#[test]
fn no_key_is_missing_where_memory_is() {
    let run = Run::new(500);
    let mut tallies = Tallies::default();
    for mut case in run.each() {
        let refused = cards::run_out_of_memory(&mut case);
        tallies.of(case.own_set).count(REFUSED_BY_10, refused);
    }
    tallies.print();
    if run.whole {
        tallies.assert_more(REFUSED_BY_10, run.cases);
    }
}

const REFUSED_BY_10: &str = "calls refused by 10";
