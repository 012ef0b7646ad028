/* The benchmark's hash, for its compression function: the expected values come from no code of the
   archive. */
#include "../../cli/benches/rival/sha256.c"

#include "secrets.h"

enum { IPAD = 0x36, OPAD = 0x5c };

/* The forms as bytes; each has the same as words behind it. */
enum { KEY = 0, INNER_KEY = 2, OUTER_KEY = 4, INNER_VALUE = 6, OUTER_VALUE = 8 };

const char *const form_names[FORMS] = {
    "key",
    "key, as words",
    "key xor 0x36",
    "key xor 0x36, as words",
    "key xor 0x5c",
    "key xor 0x5c, as words",
    "inner hash value",
    "inner hash value, as words",
    "outer hash value",
    "outer hash value, as words",
};

/* The same eight words, each with its bytes in the other order. */
static void swap_words(uint8_t words[KEY_SIZE], const uint8_t bytes[KEY_SIZE])
{
    for (size_t i = 0; i < KEY_SIZE; i++)
        words[i] = bytes[i ^ 3];
}

/* The hash value after the block of the key masked with the pad, big-endian. */
static void keyed_value(uint8_t value[KEY_SIZE], const uint8_t key[KEY_SIZE], uint8_t pad)
{
    uint8_t block[BLOCK_LENGTH];
    uint32_t hash[8];
    memset(block, pad, sizeof block);
    for (size_t i = 0; i < KEY_SIZE; i++)
        block[i] ^= key[i];
    memcpy(hash, INITIAL_HASH, sizeof hash);
    compress(hash, block, 1);
    for (size_t i = 0; i < 8; i++)
        store(value + 4 * i, hash[i]);
}

void make_secret(struct secret *secret, const uint8_t key[KEY_SIZE])
{
    memcpy(secret->forms[KEY], key, KEY_SIZE);
    for (size_t i = 0; i < KEY_SIZE; i++) {
        secret->forms[INNER_KEY][i] = key[i] ^ IPAD;
        secret->forms[OUTER_KEY][i] = key[i] ^ OPAD;
    }
    keyed_value(secret->forms[INNER_VALUE], key, IPAD);
    keyed_value(secret->forms[OUTER_VALUE], key, OPAD);
    for (size_t form = 0; form < FORMS; form += 2)
        swap_words(secret->forms[form + 1], secret->forms[form]);
}

/* The digest of a block with this hash value, and the text behind it. */
static void finish_value(uint8_t digest[KEY_SIZE], const uint8_t value[KEY_SIZE],
                         const uint8_t *text, size_t size)
{
    uint32_t hash[8];
    for (size_t i = 0; i < 8; i++)
        hash[i] = load(value + 4 * i);
    finish(hash, BLOCK_LENGTH, text, size, digest);
}

void tag_by_values(uint8_t tag[KEY_SIZE], const struct secret *secret, const uint8_t *message,
                   size_t size)
{
    uint8_t inner[KEY_SIZE];
    finish_value(inner, secret->forms[INNER_VALUE], message, size);
    finish_value(tag, secret->forms[OUTER_VALUE], inner, sizeof inner);
}

size_t piece_found(const uint8_t value[KEY_SIZE], const uint8_t *memory, size_t size)
{
    size_t longest = 0;
    for (size_t at = 0; at + PIECE_SIZE <= size; at++) {
        for (size_t from = 0; from + PIECE_SIZE <= KEY_SIZE; from++) {
            if (memory[at] != value[from] || memcmp(memory + at, value + from, PIECE_SIZE) != 0)
                continue;
            if (from == 0 && at + KEY_SIZE <= size && memcmp(memory + at, value, KEY_SIZE) == 0)
                return KEY_SIZE;
            longest = PIECE_SIZE;
        }
    }
    return longest;
}
