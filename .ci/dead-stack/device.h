/* A device and its auditor. Their memories lie outside the painted stack: store and state hold keys
   by right. Each call is a job without arguments, for the painted stack; what it is handed stands
   in the variables here. */

#ifndef DEVICE_H
#define DEVICE_H

#include <stddef.h>
#include <stdint.h>

#include "pahyndoi.h"
#include "secrets.h"

enum { PHASES = 8, CHUNKS = 4, RATCHET_MOST = 256, KEYS_MOST = CHUNKS * RATCHET_MOST };

/* What a store sets, and its kind. Tried are kind 1; and of kind 6 the same set, the least of
   everything, the longest data in logs with room for nothing else, and the most of everything. */
struct set {
    uint8_t kind, tag_length;
    uint32_t data_limit, log_capacity;
};
enum { KIND_1, SAME_SET, SMALLEST, NO_ROOM, LARGEST, SETS };
extern const struct set sets[SETS];

/* The one of these that the device has. */
extern const struct set *set;

/* So many bytes of data, or the data limit if that is less. */
size_t allowed(size_t size);

/* Device and auditor share an unused store of four chunks with so many keys each; logs and seal
   file are empty. */
void unused_device(uint32_t ratchet);

/* The chunk of this number in a store of the device's kind. */
uint8_t *chunk_of(uint8_t *of_store, size_t number);

/* Writes parameters, whether in range or not, into a header of kind 6. */
void put_set(uint8_t *of_store, const struct set *parameters);

/* The forms of the keys of the store, by item number, and how many there are. */
extern struct secret secrets[KEYS_MOST];
extern size_t keys_count;

/* What is lent. A test may shorten, damage or overfill it. */
extern uint8_t store[PAHYNDOI_STORE_SIZE_OF(PAHYNDOI_OWN_SET_HEADER_SIZE, CHUNKS)];
extern uint8_t auditor[sizeof store];
extern uint8_t logs[PAHYNDOI_LOGS_SIZE_OF(PAHYNDOI_LARGEST_LOG_CAPACITY, PHASES)];
extern uint8_t seal[PAHYNDOI_SEAL_SIZE_OF(PAHYNDOI_LONGEST_TAG, CHUNKS, RATCHET_MOST)];
extern size_t store_size, auditor_size, logs_size, seal_size, lengths_count;
extern pahyndoi_state state;

/* What append is handed besides, and what sha256 and hmac are: the bytes are zeros. wanted is how
   many bytes of its tag hmac is asked for. */
extern uint8_t phase;
extern size_t data_size, key_size, message_size, wanted;

/* What restart is handed besides: how many items the cut chunk had. */
extern uint32_t cut_items;

/* The byte of the phase's log that is looked up. */
extern uint32_t offset;

/* The plan that least_ratchet is handed, every count of it the same. */
enum { COUNTS_MOST = 64 };
extern size_t counts_count;
extern uint32_t count, planned_chunks;

/* What the last call answered; of sha256 and hmac the refusal, in its place. */
extern uint64_t answer;

void open_job(void);
void append_job(void);
void close_job(void);
void restart_job(void);
void audit_job(void);
void item_at_job(void);
void data_at_job(void);
void sha256_job(void);
void hmac_job(void);
void least_ratchet_job(void);

/* What close_job calls: pahyndoi_close, or another function in its place. */
typedef uint64_t close_call(pahyndoi_state *, const uint8_t *, size_t, const uint8_t *, size_t,
                            uint8_t *, size_t);
extern close_call *close_function;

/* An entry item behind the seal file for the key due, made without the archive. */
void craft_entry(uint8_t of_phase, uint32_t from, uint32_t size);

#endif
