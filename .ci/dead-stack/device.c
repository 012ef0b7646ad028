#include "device.h"

#include <string.h>

enum { ENTRY_KIND = 2, RATCHET_KIND = 4, ID_SIZE = 8, HEAD_SIZE = 18, RATCHET_HEAD_SIZE = 9 };

#if PAHYNDOI_ENTRY_SIZE_OF(PAHYNDOI_TAG_SIZE) != PAHYNDOI_ENTRY_SIZE || \
    PAHYNDOI_FILLER_SIZE_OF(PAHYNDOI_TAG_SIZE) != PAHYNDOI_FILLER_SIZE || \
    PAHYNDOI_RESTART_SIZE_OF(PAHYNDOI_TAG_SIZE) != PAHYNDOI_RESTART_SIZE
#error "the items of kind 1 have other sizes than those of its set"
#endif

const struct set sets[SETS] = {
    [KIND_1] = {PAHYNDOI_COMMON_SET_KIND, PAHYNDOI_TAG_SIZE, PAHYNDOI_DATA_LIMIT,
                PAHYNDOI_LOG_SIZE},
    [SAME_SET] = {PAHYNDOI_OWN_SET_KIND, PAHYNDOI_TAG_SIZE, PAHYNDOI_DATA_LIMIT,
                  PAHYNDOI_LOG_SIZE},
    [SMALLEST] = {PAHYNDOI_OWN_SET_KIND, PAHYNDOI_SHORTEST_TAG, PAHYNDOI_SMALLEST_DATA_LIMIT,
                  PAHYNDOI_SMALLEST_LOG_CAPACITY},
    [NO_ROOM] = {PAHYNDOI_OWN_SET_KIND, PAHYNDOI_SHORTEST_TAG + 1, PAHYNDOI_LARGEST_DATA_LIMIT,
                 PAHYNDOI_LARGEST_DATA_LIMIT},
    [LARGEST] = {PAHYNDOI_OWN_SET_KIND, PAHYNDOI_LONGEST_TAG, PAHYNDOI_LARGEST_DATA_LIMIT,
                 PAHYNDOI_LARGEST_LOG_CAPACITY},
};
const struct set *set = &sets[KIND_1];

struct secret secrets[KEYS_MOST];
size_t keys_count;

uint8_t store[PAHYNDOI_STORE_SIZE_OF(PAHYNDOI_OWN_SET_HEADER_SIZE, CHUNKS)];
uint8_t auditor[sizeof store];
uint8_t logs[PAHYNDOI_LOGS_SIZE_OF(PAHYNDOI_LARGEST_LOG_CAPACITY, PHASES)];
uint8_t seal[PAHYNDOI_SEAL_SIZE_OF(PAHYNDOI_LONGEST_TAG, CHUNKS, RATCHET_MOST)];
size_t store_size, auditor_size, logs_size, seal_size, lengths_count;
pahyndoi_state state;

uint8_t phase;
size_t data_size, key_size, message_size, wanted;
uint32_t cut_items, offset;
size_t counts_count;
uint32_t count, planned_chunks;
uint64_t answer;
close_call *close_function = pahyndoi_close;

static uint8_t zeros[PAHYNDOI_LENGTH_LIMIT + 1];
static uint8_t result[32];

static void put_number(uint8_t *bytes, uint32_t number)
{
    for (size_t i = 0; i < 4; i++)
        bytes[i] = (uint8_t)(number >> (8 * i));
}

size_t allowed(size_t size)
{
    return size < set->data_limit ? size : set->data_limit;
}

static size_t header_size(void)
{
    return set->kind == PAHYNDOI_OWN_SET_KIND ? PAHYNDOI_OWN_SET_HEADER_SIZE : PAHYNDOI_HEADER_SIZE;
}

uint8_t *chunk_of(uint8_t *of_store, size_t number)
{
    return of_store + header_size() + number * PAHYNDOI_CHUNK_SIZE;
}

void put_set(uint8_t *of_store, const struct set *parameters)
{
    of_store[18] = parameters->tag_length;
    put_number(of_store + 19, parameters->data_limit);
    put_number(of_store + 23, parameters->log_capacity);
}

/* Every message begins with the id of the store; answers where it goes on. */
static uint8_t *begin_message(uint8_t *message)
{
    memcpy(message, auditor + 1, ID_SIZE);
    return message + ID_SIZE;
}

/* The keys of each chunk: the chunk, then each the HMAC of the ratchet message under the one
   before. */
static void make_keys(uint32_t ratchet)
{
    uint8_t key[KEY_SIZE];
    keys_count = CHUNKS * ratchet;
    for (uint32_t k = 0; k < keys_count; k++) {
        if (k % ratchet == 0) {
            memcpy(key, chunk_of(auditor, k / ratchet), KEY_SIZE);
        } else {
            uint8_t message[ID_SIZE + RATCHET_HEAD_SIZE];
            uint8_t *head = begin_message(message);
            head[0] = RATCHET_KIND;
            put_number(head + 1, k % ratchet);
            put_number(head + 5, ratchet);
            tag_by_values(key, &secrets[k - 1], message, sizeof message);
        }
        make_secret(&secrets[k], key);
    }
}

static void unused_store(uint32_t ratchet)
{
    memset(store, 0, sizeof store);
    store[0] = set->kind;
    memcpy(store + 1, "device 7", ID_SIZE);
    store[9] = PHASES;
    put_number(store + 10, CHUNKS);
    put_number(store + 14, ratchet);
    if (set->kind == PAHYNDOI_OWN_SET_KIND)
        put_set(store, set);
    for (uint8_t c = 0; c < CHUNKS; c++)
        pahyndoi_sha256(&c, 1, chunk_of(store, c));
}

void unused_device(uint32_t ratchet)
{
    unused_store(ratchet);
    memcpy(auditor, store, sizeof store);
    make_keys(ratchet);
    memset(&state, 0, sizeof state);
    store_size = PAHYNDOI_STORE_SIZE_OF(header_size(), CHUNKS);
    auditor_size = store_size;
    logs_size = PAHYNDOI_LOGS_SIZE_OF(set->log_capacity, PHASES);
    seal_size = PAHYNDOI_SEAL_SIZE_OF(set->tag_length, CHUNKS, RATCHET_MOST);
    lengths_count = PHASES;
    phase = 1;
    cut_items = 1;
    offset = 0;
    data_size = 1;
}

void open_job(void)
{
    static uint32_t lengths[8];
    memcpy(lengths, state.lengths, sizeof lengths);
    answer = pahyndoi_open(&state, store, store_size, logs, logs_size, lengths, lengths_count,
                           seal, seal_size, state.seal_length);
}

void append_job(void)
{
    answer = pahyndoi_append(&state, store, store_size, logs, logs_size, seal, seal_size, phase,
                             zeros, data_size);
}

void close_job(void)
{
    answer = close_function(&state, store, store_size, logs, logs_size, seal, seal_size);
}

void restart_job(void)
{
    answer = pahyndoi_restart(&state, store, store_size, logs, logs_size, seal, seal_size,
                              cut_items);
}

/* The log lengths that the state holds, as bytes. */
static const uint8_t *lengths_of_state(void)
{
    static uint8_t lengths[4 * PHASES];
    for (size_t i = 0; i < PHASES; i++)
        put_number(lengths + 4 * i, state.lengths[i]);
    return lengths;
}

void audit_job(void)
{
    answer = pahyndoi_audit(store, store_size, auditor, auditor_size, logs, logs_size,
                            lengths_of_state(), 4 * lengths_count, seal,
                            (size_t)state.seal_length);
}

void item_at_job(void)
{
    answer = pahyndoi_item_at(store, store_size, auditor, auditor_size, logs, logs_size,
                              lengths_of_state(), 4 * lengths_count, seal,
                              (size_t)state.seal_length, phase, offset);
}

void data_at_job(void)
{
    answer = pahyndoi_data_at(store, store_size, auditor, auditor_size, logs, logs_size,
                              lengths_of_state(), 4 * lengths_count, seal,
                              (size_t)state.seal_length, phase, offset);
}

void sha256_job(void)
{
    answer = (uint64_t)pahyndoi_sha256(zeros, message_size, result) << 32;
}

void hmac_job(void)
{
    answer = (uint64_t)pahyndoi_hmac_sha256(zeros, key_size, zeros, message_size, wanted, result)
             << 32;
}

void least_ratchet_job(void)
{
    static uint32_t counts[COUNTS_MOST + 1];
    for (size_t i = 0; i < counts_count; i++)
        counts[i] = count;
    answer = pahyndoi_least_ratchet(counts, counts_count, planned_chunks);
}

void craft_entry(uint8_t of_phase, uint32_t from, uint32_t size)
{
    uint8_t *item = seal + state.seal_length;
    uint32_t ratchet = (uint32_t)keys_count / CHUNKS;
    uint32_t entry_size = PAHYNDOI_ENTRY_SIZE_OF(set->tag_length);
    uint32_t number = (uint32_t)(state.seal_length / entry_size);
    uint8_t message[ID_SIZE + HEAD_SIZE + PAHYNDOI_LARGEST_DATA_LIMIT], tag[KEY_SIZE];
    uint8_t *head = begin_message(message);
    memset(chunk_of(store, number / ratchet), 0, PAHYNDOI_CHUNK_SIZE);
    item[0] = ENTRY_KIND;
    item[1] = of_phase;
    put_number(item + 2, from);
    put_number(item + 6, size);
    put_number(item + 10, number / ratchet);
    put_number(item + 14, number % ratchet);
    memcpy(head, item, HEAD_SIZE);
    memcpy(head + HEAD_SIZE, logs + PAHYNDOI_LOG_PLACE_OF(set->log_capacity, of_phase) + from,
           size);
    tag_by_values(tag, &secrets[number], message, ID_SIZE + HEAD_SIZE + size);
    memcpy(item + HEAD_SIZE, tag, set->tag_length);
    state.seal_length += entry_size;
}
