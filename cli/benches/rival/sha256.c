/*
 * The benchmark's rival: SHA-256 (FIPS 180-4) and HMAC-SHA-256 (RFC 2104) in
 * portable C, written for speed. No processor-specific instructions. Of the
 * shapes tried, this one is the fastest when built by gcc -O3:
 * all 64 rounds unrolled with renamed variables, a rolling schedule of 16
 * words, sigmas as nested rotations, and Maj sharing a ^ b with the next round.
 */

#include <stddef.h>
#include <stdint.h>
#include <string.h>

#define BLOCK_LENGTH 64
#define DIGEST_LENGTH 32

void rival_sha256(const uint8_t *message, size_t message_length,
                  uint8_t digest[DIGEST_LENGTH]);
void rival_hmac_sha256(const uint8_t *key, size_t key_length,
                       const uint8_t *message, size_t message_length,
                       uint8_t tag[DIGEST_LENGTH]);

/* FIPS 180-4 section 4.2.2. */
static const uint32_t K[64] = {
    0x428a2f98, 0x71374491, 0xb5c0fbcf, 0xe9b5dba5, 0x3956c25b, 0x59f111f1,
    0x923f82a4, 0xab1c5ed5, 0xd807aa98, 0x12835b01, 0x243185be, 0x550c7dc3,
    0x72be5d74, 0x80deb1fe, 0x9bdc06a7, 0xc19bf174, 0xe49b69c1, 0xefbe4786,
    0x0fc19dc6, 0x240ca1cc, 0x2de92c6f, 0x4a7484aa, 0x5cb0a9dc, 0x76f988da,
    0x983e5152, 0xa831c66d, 0xb00327c8, 0xbf597fc7, 0xc6e00bf3, 0xd5a79147,
    0x06ca6351, 0x14292967, 0x27b70a85, 0x2e1b2138, 0x4d2c6dfc, 0x53380d13,
    0x650a7354, 0x766a0abb, 0x81c2c92e, 0x92722c85, 0xa2bfe8a1, 0xa81a664b,
    0xc24b8b70, 0xc76c51a3, 0xd192e819, 0xd6990624, 0xf40e3585, 0x106aa070,
    0x19a4c116, 0x1e376c08, 0x2748774c, 0x34b0bcb5, 0x391c0cb3, 0x4ed8aa4a,
    0x5b9cca4f, 0x682e6ff3, 0x748f82ee, 0x78a5636f, 0x84c87814, 0x8cc70208,
    0x90befffa, 0xa4506ceb, 0xbef9a3f7, 0xc67178f2,
};

/* FIPS 180-4 section 5.3.3. */
static const uint32_t INITIAL_HASH[8] = {
    0x6a09e667, 0xbb67ae85, 0x3c6ef372, 0xa54ff53a,
    0x510e527f, 0x9b05688c, 0x1f83d9ab, 0x5be0cd19,
};

static inline uint32_t big_endian32(uint32_t word) {
#if __BYTE_ORDER__ == __ORDER_LITTLE_ENDIAN__
    return __builtin_bswap32(word);
#else
    return word;
#endif
}

static inline uint32_t load(const uint8_t *bytes) {
    uint32_t word;
    memcpy(&word, bytes, sizeof word);
    return big_endian32(word);
}

static inline void store(uint8_t *bytes, uint32_t word) {
    word = big_endian32(word);
    memcpy(bytes, &word, sizeof word);
}

static inline uint32_t rotate_right(uint32_t word, int count) {
    return (word >> count) | (word << (32 - count));
}

#define UPPER_SIGMA0(x) \
    rotate_right((x) ^ rotate_right((x) ^ rotate_right((x), 9), 11), 2)
#define UPPER_SIGMA1(x) \
    rotate_right((x) ^ rotate_right((x) ^ rotate_right((x), 14), 5), 6)
#define LOWER_SIGMA0(x) (rotate_right((x) ^ rotate_right((x), 11), 7) ^ ((x) >> 3))
#define LOWER_SIGMA1(x) (rotate_right((x) ^ rotate_right((x), 2), 17) ^ ((x) >> 10))
#define CH(x, y, z) ((z) ^ ((x) & ((y) ^ (z))))

/* Rounds 0 to 15 take the schedule's words from the block, later ones from the
 * 16 words before. */
#define FIRST(t) (w[t] = load(block + 4 * (t)))
#define NEXT(t)                                                \
    (w[(t) & 15] += LOWER_SIGMA1(w[((t) - 2) & 15]) +          \
                    w[((t) - 7) & 15] + LOWER_SIGMA0(w[((t) - 15) & 15]))

/* b_xor_c is the a ^ b of the round before: Maj = b ^ ((a ^ b) & (b ^ c)). */
#define ROUND(a, b, c, d, e, f, g, h, t, WORD)  \
    do {                                        \
        uint32_t a_xor_b = (a) ^ (b);           \
        uint32_t word = WORD(t);                \
        (h) += K[t] + word;                     \
        (h) += CH(e, f, g);                     \
        (h) += UPPER_SIGMA1(e);                 \
        (d) += (h);                             \
        (h) += (b) ^ (a_xor_b & b_xor_c);       \
        (h) += UPPER_SIGMA0(a);                 \
        b_xor_c = a_xor_b;                      \
    } while (0)

#define EIGHT_ROUNDS(t, WORD)                         \
    ROUND(a, b, c, d, e, f, g, h, (t) + 0, WORD);     \
    ROUND(h, a, b, c, d, e, f, g, (t) + 1, WORD);     \
    ROUND(g, h, a, b, c, d, e, f, (t) + 2, WORD);     \
    ROUND(f, g, h, a, b, c, d, e, (t) + 3, WORD);     \
    ROUND(e, f, g, h, a, b, c, d, (t) + 4, WORD);     \
    ROUND(d, e, f, g, h, a, b, c, (t) + 5, WORD);     \
    ROUND(c, d, e, f, g, h, a, b, (t) + 6, WORD);     \
    ROUND(b, c, d, e, f, g, h, a, (t) + 7, WORD)

/* Not inlined: one copy of the unrolled rounds keeps the code cache small. */
static __attribute__((noinline)) void
compress(uint32_t hash[8], const uint8_t *block, size_t block_count) {
    uint32_t a = hash[0], b = hash[1], c = hash[2], d = hash[3];
    uint32_t e = hash[4], f = hash[5], g = hash[6], h = hash[7];
    for (; block_count != 0; block_count--, block += BLOCK_LENGTH) {
        uint32_t w[16];
        uint32_t b_xor_c = b ^ c;
        EIGHT_ROUNDS(0, FIRST);
        EIGHT_ROUNDS(8, FIRST);
        EIGHT_ROUNDS(16, NEXT);
        EIGHT_ROUNDS(24, NEXT);
        EIGHT_ROUNDS(32, NEXT);
        EIGHT_ROUNDS(40, NEXT);
        EIGHT_ROUNDS(48, NEXT);
        EIGHT_ROUNDS(56, NEXT);
        a = hash[0] += a;
        b = hash[1] += b;
        c = hash[2] += c;
        d = hash[3] += d;
        e = hash[4] += e;
        f = hash[5] += f;
        g = hash[6] += g;
        h = hash[7] += h;
    }
}

/* Hashes the message and the padding; length_before bytes, whole blocks, are
 * in the hash already. */
static void finish(uint32_t hash[8], size_t length_before,
                   const uint8_t *message, size_t message_length,
                   uint8_t digest[DIGEST_LENGTH]) {
    size_t whole_blocks = message_length / BLOCK_LENGTH;
    size_t rest = message_length % BLOCK_LENGTH;
    size_t end = rest < BLOCK_LENGTH - 8 ? BLOCK_LENGTH : 2 * BLOCK_LENGTH;
    uint64_t bits = (uint64_t)(length_before + message_length) * 8;
    uint8_t last[2 * BLOCK_LENGTH];

    if (whole_blocks != 0) {
        compress(hash, message, whole_blocks);
    }
    memcpy(last, message + whole_blocks * BLOCK_LENGTH, rest);
    last[rest] = 0x80;
    memset(last + rest + 1, 0, end - 8 - (rest + 1));
    store(last + end - 8, (uint32_t)(bits >> 32));
    store(last + end - 4, (uint32_t)bits);
    compress(hash, last, end / BLOCK_LENGTH);
    for (int i = 0; i < 8; i++) {
        store(digest + 4 * i, hash[i]);
    }
}

void rival_sha256(const uint8_t *message, size_t message_length,
                  uint8_t digest[DIGEST_LENGTH]) {
    uint32_t hash[8];
    memcpy(hash, INITIAL_HASH, sizeof hash);
    finish(hash, 0, message, message_length, digest);
}

static void keyed_hash(const uint8_t key[BLOCK_LENGTH], uint8_t pad,
                       const uint8_t *text, size_t text_length,
                       uint8_t digest[DIGEST_LENGTH]) {
    uint32_t hash[8];
    uint8_t block[BLOCK_LENGTH];
    memcpy(hash, INITIAL_HASH, sizeof hash);
    for (int i = 0; i < BLOCK_LENGTH; i++) {
        block[i] = key[i] ^ pad;
    }
    compress(hash, block, 1);
    finish(hash, BLOCK_LENGTH, text, text_length, digest);
}

void rival_hmac_sha256(const uint8_t *key, size_t key_length,
                       const uint8_t *message, size_t message_length,
                       uint8_t tag[DIGEST_LENGTH]) {
    uint8_t block_key[BLOCK_LENGTH] = {0};
    uint8_t inner[DIGEST_LENGTH];
    if (key_length > BLOCK_LENGTH) {
        rival_sha256(key, key_length, block_key);
    } else {
        memcpy(block_key, key, key_length);
    }
    keyed_hash(block_key, 0x36, message, message_length, inner);
    keyed_hash(block_key, 0x5c, inner, DIGEST_LENGTH, tag);
}
