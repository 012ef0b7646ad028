//! What a call answers in one number.

/// The refusal, 0 for none, and the number.
pub fn split(answer: u64) -> (u32, u32) {
    ((answer >> 32) as u32, answer as u32)
}

/// Whether an audit accepted, with a count above 0.
pub fn is_accepted(answer: u64) -> bool {
    let (refusal, count) = split(answer);
    refusal == 0 && count > 0
}
