/* What gives a key away, and the search for it. */

#ifndef SECRETS_H
#define SECRETS_H

#include <stddef.h>
#include <stdint.h>

enum { KEY_SIZE = 32, PIECE_SIZE = 8, FORMS = 10 };

/* The forms in which a key may stand in memory: as it is, masked with a pad of HMAC, and as the
   hash value after the block of the masked key, which makes tags as well as the key does. Each as
   bytes, and as words in the processor's order. */
struct secret {
    uint8_t forms[FORMS][KEY_SIZE];
};
extern const char *const form_names[FORMS];

/* The forms of a key. */
void make_secret(struct secret *secret, const uint8_t key[KEY_SIZE]);

/* The HMAC-SHA-256 of a message, from the two hash values of the key alone. */
void tag_by_values(uint8_t tag[KEY_SIZE], const struct secret *secret, const uint8_t *message,
                   size_t size);

/* 32 if the whole value stands in the memory at any byte, 8 if some 8 bytes of it in a row do, else
   0. */
size_t piece_found(const uint8_t value[KEY_SIZE], const uint8_t *memory, size_t size);

#endif
