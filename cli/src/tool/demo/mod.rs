//! `pahyndoi demo`: a junction's day, its audit, and an intruder.

mod intruder;
mod junction;

use std::ffi::OsString;
use std::fs;
use std::io::Write;
use std::ops::Range;
use std::path::Path;

use pahyndoi::Refusal;

use self::intruder::{ACTS, AtHand, LAST_SAFE, TARGET, TOO_FAR, drop_item};
use self::junction::{HEADER, Junction, SEED, SET, STANDBY};
use super::Status;
use super::arguments::Syntax;
use super::coverage::Coverage;
use super::evidence::Evidence;
use super::failure::Failure;
use super::picture;
use super::reading::Reading;
use super::text::{counted, hexadecimal, shown, wrapped};
use super::verdict::Verdict;

const SYNTAX: Syntax = Syntax {
    command: "demo",
    valued: &["--out"],
    switches: &[],
    operands: 0,
};

const COPIED_STORE: &str = "\
j. passes: a copy of the store from noon shows chunks that the controller has \
burned since, and the seals rest on nobody having those. The count alone tells \
it from the evening's.";

/// What is printed waits for the files: where they fail, nothing is.
pub fn run(arguments: &[OsString], out: &mut dyn Write) -> Result<Status, Failure> {
    let arguments = SYNTAX.read(arguments)?;
    let mut text = Vec::new();
    let evening = story(&mut text)?;
    if let Some(folder) = arguments.path("--out") {
        write_folder(&evening, folder, &mut text)?;
    }
    out.write_all(&text)?;
    Ok(Status::Done)
}

/// Tells all of the demo, and returns the untouched material.
fn story(out: &mut dyn Write) -> Result<Evidence, Failure> {
    let mut junction = Junction::new(HEADER).map_err(refused)?;
    writeln!(out, "A junction's day, sealed and audited\n")?;
    keys(out)?;
    writeln!(out, "\n2. A day is sealed\n")?;
    half_day(&mut junction, 0..12, out)?;
    let noon = junction.evidence();
    half_day_with_a_cut(&mut junction, out)?;
    let evening = junction.evidence();
    let standby = standby_day(out)?;
    log_lines(&evening, out)?;
    audit(&evening, out)?;
    intruder(&evening, &AtHand { noon, standby }, out)?;
    Ok(evening)
}

/// No call of the demo is refused; if one were, this would name it.
fn refused(refusal: Refusal) -> Failure {
    Failure::File(format!("a call of the demo was {refusal}"))
}

fn paragraph(out: &mut dyn Write, text: &str) -> Result<(), Failure> {
    Ok(out.write_all(wrapped("   ", text).as_bytes())?)
}

fn keys(out: &mut dyn Write) -> Result<(), Failure> {
    writeln!(out, "1. A key store is made\n")?;
    let text = format!(
        "Junction {}: {}, {} of 32 bytes, {} keys from each, so {} can be sealed. The \
         controller gets one copy of the store, the auditor keeps another. The controller's \
         standby gets a store with equal chunks and an id of its own, {}.",
        hexadecimal(&HEADER.id),
        counted(usize::from(HEADER.phases), "phase"),
        counted(HEADER.chunks as usize, "chunk"),
        HEADER.ratchet,
        counted(HEADER.keys_of(HEADER.chunks as usize), "item"),
        hexadecimal(&STANDBY.id),
    );
    paragraph(out, &text)?;
    let warning = format!(
        "THESE KEYS ARE NOT RANDOM: they are SHA-256 digests of the text \"{SEED}\" and the \
         chunk's number. Never use them."
    );
    paragraph(out, &warning)
}

fn half_day(
    junction: &mut Junction,
    hours: Range<usize>,
    out: &mut dyn Write,
) -> Result<(), Failure> {
    let (from, to) = (hours.start, hours.end);
    let (entries, fillers) = junction.half_day(hours).map_err(refused)?;
    let text = format!(
        "{from:02}:00 to {to}:00: open, {entries} appends, close with {}; {} burned.",
        counted(fillers as usize, "filler"),
        counted(junction.burned(), "chunk"),
    );
    paragraph(out, &text)
}

/// The power goes at 18:00, with a chunk half used.
fn half_day_with_a_cut(junction: &mut Junction, out: &mut dyn Write) -> Result<(), Failure> {
    junction.open().map_err(refused)?;
    let entries = junction.counts(12..18).map_err(refused)?;
    junction.lose_power();
    let due = junction.due();
    let text = format!(
        "12:00 to 18:00: open, {entries} appends. Then the power goes, and with it the state and \
         the key in it: chunk {} has sealed {}, and its other {} keys are lost.",
        due.chunk,
        counted(due.offset as usize, "item"),
        u64::from(HEADER.ratchet) - due.offset,
    );
    paragraph(out, &text)?;
    junction.open().map_err(refused)?;
    let place = junction.restart(due.offset as u32).map_err(refused)?;
    let entries = junction.counts(18..24).map_err(refused)?;
    let fillers = junction.close().map_err(refused)?;
    let text = format!(
        "18:00 to 24:00: open with the lengths kept, restart with the number {}, which the last \
         item tells, in chunk {}; {entries} appends, close with {}; {} burned.",
        due.offset,
        place / u64::from(HEADER.ratchet),
        counted(fillers as usize, "filler"),
        counted(junction.burned(), "chunk"),
    );
    paragraph(out, &text)
}

/// What the standby has in the evening: the same counts as the junction.
fn standby_day(out: &mut dyn Write) -> Result<Evidence, Failure> {
    let mut standby = Junction::new(STANDBY).map_err(refused)?;
    for hours in [0..12, 12..24] {
        standby.half_day(hours).map_err(refused)?;
    }
    paragraph(out, "The standby seals the same counts, without a cut.")?;
    Ok(standby.evidence())
}

/// The side road's log from 06:00 to 08:00.
fn log_lines(evening: &Evidence, out: &mut dyn Write) -> Result<(), Failure> {
    writeln!(out, "\n   From the log of phase 2:\n")?;
    let log = String::from_utf8_lossy(&evening.logs[SET.log_start(2)..]);
    for line in log.lines().skip(6).take(3) {
        writeln!(out, "      {line}")?;
    }
    Ok(())
}

fn audit(evening: &Evidence, out: &mut dyn Write) -> Result<(), Failure> {
    writeln!(out, "\n3. The material comes home and is audited\n")?;
    let reading = Reading::of(evening.material());
    let verdict = Verdict::of(&reading);
    let picture = picture::draw(&reading, None);
    write!(out, "{}\n{picture}", verdict.words("   "))?;
    Ok(())
}

/// Each act on a fresh copy of the evening's material, and its audit.
fn intruder(evening: &Evidence, at_hand: &AtHand, out: &mut dyn Write) -> Result<(), Failure> {
    writeln!(
        out,
        "\n4. An intruder takes the evening's material, each time afresh, and\n"
    )?;
    for (letter, act) in ('a'..).zip(&ACTS) {
        let mut altered = evening.clone();
        (act.alter)(&mut altered, at_hand);
        let verdict = Verdict::of(&Reading::of(altered.material()));
        writeln!(out, "   {letter}. {}", act.words)?;
        writeln!(out, "{}", verdict.words("      "))?;
    }
    paragraph(out, COPIED_STORE)?;
    paragraph(out, &made_up_cuts(evening))?;
    gap(evening, at_hand, out)
}

/// Why the one passes and the other does not.
fn made_up_cuts(evening: &Evidence) -> String {
    let reading = Reading::of(evening.material());
    let last_burned = reading.items[LAST_SAFE].chunk;
    format!(
        "k. passes too: whoever has the controller has its next chunk, {}, and can seal a restart \
         with it, as the controller itself would after a cut. Nothing tells the two apart. But \
         item {LAST_SAFE} is the first one of chunk {last_burned}, the last that is burned, and up \
         to that one nothing can be dropped: behind item {}, as l. tries it, a restart takes chunk \
         {last_burned}, and nobody has that any more.",
        last_burned + 1,
        TOO_FAR - 1,
    )
}

/// The picture of a log whose item was dropped.
fn gap(evening: &Evidence, at_hand: &AtHand, out: &mut dyn Write) -> Result<(), Failure> {
    writeln!(
        out,
        "\n   What b. leaves of phase 2, the gap where item {TARGET} was:\n"
    )?;
    let mut altered = evening.clone();
    drop_item(&mut altered, at_hand);
    let reading = Reading::of(altered.material());
    let coverage = Coverage::of(reading.set, &reading.lengths, &reading.items);
    out.write_all(picture::draw_log(&coverage.logs[1], None).as_bytes())?;
    Ok(())
}

fn write_folder(evening: &Evidence, folder: &Path, out: &mut dyn Write) -> Result<(), Failure> {
    fs::create_dir_all(folder)
        .map_err(|error| Failure::file(folder, format!("cannot make this folder: {error}")))?;
    evening.write(folder)?;
    let place = shown(folder);
    writeln!(out, "\nThe evening's files are in {place}.")?;
    writeln!(out, "Try 'pahyndoi audit {place}'.")?;
    Ok(())
}
