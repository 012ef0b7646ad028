//! Numbers as the format writes them: 4 bytes, little-endian.

/// Single bytes, then numbers of 4 bytes each.
pub fn bytes_of(first: &[u8], numbers: &[u32]) -> Vec<u8> {
    let mut bytes = first.to_vec();
    bytes.extend(numbers.iter().flat_map(|number| number.to_le_bytes()));
    bytes
}

/// The number at these 4 bytes.
pub fn u32_at(bytes: &[u8], index: usize) -> u32 {
    u32::from_le_bytes(bytes[index..index + 4].try_into().expect("4 bytes"))
}
