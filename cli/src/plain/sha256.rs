//! SHA-256 as FIPS 180-4 writes it; the names are the standard's.

pub(super) const BLOCK_LENGTH: usize = 64;
pub(super) const DIGEST_LENGTH: usize = 32;

/// Section 4.2.2: fractional parts of the cube roots of the first 64 primes.
#[rustfmt::skip]
const K: [u32; 64] = [
    0x428a2f98, 0x71374491, 0xb5c0fbcf, 0xe9b5dba5, 0x3956c25b, 0x59f111f1, 0x923f82a4, 0xab1c5ed5,
    0xd807aa98, 0x12835b01, 0x243185be, 0x550c7dc3, 0x72be5d74, 0x80deb1fe, 0x9bdc06a7, 0xc19bf174,
    0xe49b69c1, 0xefbe4786, 0x0fc19dc6, 0x240ca1cc, 0x2de92c6f, 0x4a7484aa, 0x5cb0a9dc, 0x76f988da,
    0x983e5152, 0xa831c66d, 0xb00327c8, 0xbf597fc7, 0xc6e00bf3, 0xd5a79147, 0x06ca6351, 0x14292967,
    0x27b70a85, 0x2e1b2138, 0x4d2c6dfc, 0x53380d13, 0x650a7354, 0x766a0abb, 0x81c2c92e, 0x92722c85,
    0xa2bfe8a1, 0xa81a664b, 0xc24b8b70, 0xc76c51a3, 0xd192e819, 0xd6990624, 0xf40e3585, 0x106aa070,
    0x19a4c116, 0x1e376c08, 0x2748774c, 0x34b0bcb5, 0x391c0cb3, 0x4ed8aa4a, 0x5b9cca4f, 0x682e6ff3,
    0x748f82ee, 0x78a5636f, 0x84c87814, 0x8cc70208, 0x90befffa, 0xa4506ceb, 0xbef9a3f7, 0xc67178f2,
];

/// Section 5.3.3: fractional parts of the square roots of the first 8 primes.
const INITIAL_HASH: [u32; 8] = [
    0x6a09e667, 0xbb67ae85, 0x3c6ef372, 0xa54ff53a, 0x510e527f, 0x9b05688c, 0x1f83d9ab, 0x5be0cd19,
];

/// Section 6.2.
pub fn sha256(message: &[u8]) -> [u8; DIGEST_LENGTH] {
    let blocks = message.chunks_exact(BLOCK_LENGTH);
    let padding = padding(blocks.remainder(), message.len());
    let mut hash = INITIAL_HASH;
    for block in blocks.chain(padding.chunks_exact(BLOCK_LENGTH)) {
        compress(&mut hash, block.try_into().expect("64 bytes"));
    }
    let mut digest = [0; DIGEST_LENGTH];
    for (bytes, word) in digest.chunks_exact_mut(4).zip(hash) {
        bytes.copy_from_slice(&word.to_be_bytes());
    }
    digest
}

/// Section 5.1.1: the last bytes of the message, a one bit, zeros, and the
/// message's length in bits as 64 bits.
fn padding(rest: &[u8], message_length: usize) -> Vec<u8> {
    let mut bytes = rest.to_vec();
    bytes.push(0x80);
    while bytes.len() % BLOCK_LENGTH != BLOCK_LENGTH - 8 {
        bytes.push(0);
    }
    bytes.extend_from_slice(&(message_length as u64 * 8).to_be_bytes());
    bytes
}

/// Section 6.2.2, steps 2 to 4.
fn compress(hash: &mut [u32; 8], block: &[u8; BLOCK_LENGTH]) {
    let schedule = message_schedule(block);
    let [mut a, mut b, mut c, mut d, mut e, mut f, mut g, mut h] = *hash;
    for t in 0..64 {
        let t1 = h
            .wrapping_add(upper_sigma1(e))
            .wrapping_add(ch(e, f, g))
            .wrapping_add(K[t])
            .wrapping_add(schedule[t]);
        let t2 = upper_sigma0(a).wrapping_add(maj(a, b, c));
        h = g;
        g = f;
        f = e;
        e = d.wrapping_add(t1);
        d = c;
        c = b;
        b = a;
        a = t1.wrapping_add(t2);
    }
    for (word, working) in hash.iter_mut().zip([a, b, c, d, e, f, g, h]) {
        *word = word.wrapping_add(working);
    }
}

/// Section 6.2.2, step 1.
fn message_schedule(block: &[u8; BLOCK_LENGTH]) -> [u32; 64] {
    let mut w = [0; 64];
    for (t, word) in w.iter_mut().take(16).enumerate() {
        let bytes = [0, 1, 2, 3].map(|index| block[4 * t + index]);
        *word = u32::from_be_bytes(bytes);
    }
    for t in 16..64 {
        w[t] = lower_sigma1(w[t - 2])
            .wrapping_add(w[t - 7])
            .wrapping_add(lower_sigma0(w[t - 15]))
            .wrapping_add(w[t - 16]);
    }
    w
}

// Section 4.1.2, functions (4.2) to (4.7).

fn ch(x: u32, y: u32, z: u32) -> u32 {
    (x & y) ^ (!x & z)
}

fn maj(x: u32, y: u32, z: u32) -> u32 {
    (x & y) ^ (x & z) ^ (y & z)
}

fn upper_sigma0(x: u32) -> u32 {
    x.rotate_right(2) ^ x.rotate_right(13) ^ x.rotate_right(22)
}

fn upper_sigma1(x: u32) -> u32 {
    x.rotate_right(6) ^ x.rotate_right(11) ^ x.rotate_right(25)
}

fn lower_sigma0(x: u32) -> u32 {
    x.rotate_right(7) ^ x.rotate_right(18) ^ (x >> 3)
}

fn lower_sigma1(x: u32) -> u32 {
    x.rotate_right(17) ^ x.rotate_right(19) ^ (x >> 10)
}

#[cfg(test)]
mod tests {
    use super::{BLOCK_LENGTH, INITIAL_HASH, K, padding};

    /// Whether a prime's root of the given degree has this fractional part,
    /// to 32 bits.
    fn is_root(prime: u128, degree: u32, fraction: u32) -> bool {
        let scaled = prime << (32 * degree);
        let whole = (1_u128..).take_while(|n| n.pow(degree) <= prime).count() as u128;
        let root = (whole << 32) | u128::from(fraction);
        root.pow(degree) <= scaled && (root + 1).pow(degree) > scaled
    }

    fn primes() -> impl Iterator<Item = u128> {
        (2..).filter(|n| (2..*n).all(|divisor| n % divisor != 0))
    }

    #[test]
    fn padding_of_55_and_of_56_bytes() {
        assert_eq!(padding(&[7; 55], 55).len(), BLOCK_LENGTH);
        assert_eq!(padding(&[7; 56], 56).len(), 2 * BLOCK_LENGTH);
    }

    #[test]
    fn constants_are_roots_of_primes() {
        for (prime, word) in primes().zip(K) {
            assert!(is_root(prime, 3, word), "cube root of {prime}");
        }
        for (prime, word) in primes().zip(INITIAL_HASH) {
            assert!(is_root(prime, 2, word), "square root of {prime}");
        }
    }
}
