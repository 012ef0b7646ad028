//! The key bytes of a store that is packed, and what is refused of them.

use std::collections::BTreeMap;
use std::ops::Range;

use super::store::{CHUNK_LENGTH, is_burned};
use super::text::{counted, grouped};

/// The most chunk numbers that a refusal lists.
const NUMBERS_LISTED: usize = 8;

/// Whether the bytes are so many chunks, none of them all zeros and no two of
/// them equal; else why not.
pub fn check(keys: &[u8], chunk_count: usize) -> Result<(), String> {
    check_length(keys.len(), chunk_count)?;
    check_zeros(keys)?;
    check_equal(keys)
}

fn check_length(length: usize, chunk_count: usize) -> Result<(), String> {
    let needed = CHUNK_LENGTH * chunk_count;
    let fault = match length.checked_sub(needed) {
        Some(0) => return Ok(()),
        Some(more) => {
            let more = counted(more, "byte");
            format!("{more} too many behind chunk {}", chunk_count - 1)
        }
        None => lacking(length, chunk_count),
    };
    Err(format!(
        "has {}, not the {} of {}: {fault}",
        counted(length, "byte"),
        grouped(needed as u64),
        counted(chunk_count, "chunk")
    ))
}

/// The chunk that ends too early, and those of which there is nothing.
fn lacking(length: usize, chunk_count: usize) -> String {
    let (whole, rest) = (length / CHUNK_LENGTH, length % CHUNK_LENGTH);
    let lacked = counted(CHUNK_LENGTH - rest, "byte");
    match rest {
        0 => missing(whole..chunk_count),
        _ if whole + 1 == chunk_count => format!("chunk {whole} lacks {lacked}"),
        _ => format!(
            "chunk {whole} lacks {lacked}, {}",
            missing(whole + 1..chunk_count)
        ),
    }
}

fn missing(numbers: Range<usize>) -> String {
    let (first, last) = (numbers.start, numbers.end - 1);
    match first == last {
        true => format!("chunk {first} is missing"),
        false => format!("chunks {first} to {last} are missing"),
    }
}

fn check_zeros(keys: &[u8]) -> Result<(), String> {
    let chunks = keys.chunks(CHUNK_LENGTH).enumerate();
    let zeros = chunks.filter(|(_, chunk)| is_burned(chunk));
    let zeros: Vec<usize> = zeros.map(|(number, _)| number).collect();
    match zeros[..] {
        [] => Ok(()),
        [number] => Err(format!("chunk {number} is all zeros, as if it were burned")),
        _ => Err(format!(
            "chunks {} are all zeros, as if they were burned",
            listed(&zeros)
        )),
    }
}

/// A chunk that is not burned yet holds the keys of a burned one that equals it.
fn check_equal(keys: &[u8]) -> Result<(), String> {
    let mut numbers: BTreeMap<&[u8], Vec<usize>> = BTreeMap::new();
    for (number, chunk) in keys.chunks(CHUNK_LENGTH).enumerate() {
        numbers.entry(chunk).or_default().push(number);
    }
    let equal = numbers.into_values().filter(|numbers| numbers.len() > 1);
    let mut groups: Vec<Vec<usize>> = equal.collect();
    groups.sort();
    let Some((first, others)) = groups.split_first() else {
        return Ok(());
    };
    let others = match others.len() {
        0 => String::new(),
        more => format!(", as are those of {}", counted(more, "other group")),
    };
    Err(format!(
        "chunks {} are equal{others}: with one not burned yet, what a burned one sealed could be \
         forged",
        listed(first)
    ))
}

/// Two numbers or more: the first of them, and how many more there are.
fn listed(numbers: &[usize]) -> String {
    let first = numbers.iter().take(NUMBERS_LISTED);
    let mut parts: Vec<String> = first.map(usize::to_string).collect();
    let more = numbers.len() - parts.len();
    if more > 0 {
        parts.push(format!("{} more", grouped(more as u64)));
    }
    let last = parts.pop().unwrap_or_default();
    format!("{} and {last}", parts.join(", "))
}
