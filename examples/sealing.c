/* Sealed logs from the plan of their card to the audit, with every call of pahyndoi.h: on a card
   with a store of kind 1, which has a standby, on one whose controller loses its power, and on a
   small card, whose store has a set of parameters of its own, through losses of power as well. */

#include <stdio.h>
#include <string.h>

#include "pahyndoi.h"
#include "wipe_stack.h"

enum { PHASES = 2, CHUNKS = 2, RATCHET = 3 };

/* The set of the small card. */
enum { TAG_LENGTH = 16, DATA_LIMIT = 64, LOG_CAPACITY = 512 };

/* Where a store's header has the ratchet and, in kind 6, the tag length. */
enum { RATCHET_PLACE = 14, TAG_LENGTH_PLACE = 18 };

static uint8_t store[PAHYNDOI_HEADER_SIZE + CHUNKS * PAHYNDOI_CHUNK_SIZE];
static uint8_t auditor[sizeof store];
static uint8_t logs[PHASES * PAHYNDOI_LOG_SIZE];
static uint8_t seal[CHUNKS * RATCHET * PAHYNDOI_ENTRY_SIZE];

static uint8_t standby_store[sizeof store];
static uint8_t standby_logs[sizeof logs];
static uint8_t standby_seal[sizeof seal];

static uint8_t cut_store[sizeof store];
static uint8_t cut_auditor[sizeof store];
static uint8_t cut_logs[sizeof logs];
static uint8_t cut_seal[sizeof seal];

static uint8_t small_store[PAHYNDOI_STORE_SIZE_OF(PAHYNDOI_OWN_SET_HEADER_SIZE, CHUNKS)];
static uint8_t small_auditor[sizeof small_store];
static uint8_t small_logs[PAHYNDOI_LOGS_SIZE_OF(LOG_CAPACITY, PHASES)];
static uint8_t small_seal[PAHYNDOI_SEAL_SIZE_OF(TAG_LENGTH, CHUNKS, RATCHET)];

/* What the state knows and must outlast it: kept where a power cut takes nothing, as the memories
   are. Zeros on a card that is new. The key is never kept. */
struct kept {
    uint32_t lengths[PHASES];
    uint64_t seal_length;
};

/* The memories of a card, with the auditor's copy of its unused store, and the state. */
struct card {
    uint8_t *store, *auditor;
    size_t store_size;
    uint8_t *logs;
    size_t logs_size;
    uint8_t *seal;
    size_t seal_size;
    struct kept kept;
    pahyndoi_state state;
};

static void print_bytes(const char *name, const uint8_t *bytes, size_t size)
{
    printf("%s: ", name);
    for (size_t i = 0; i < size; i++)
        printf("%02x", bytes[i]);
    printf("\n");
}

static void print_answer(const char *call, uint64_t answer)
{
    printf("%s: refusal %u, number %u\n", call, (unsigned)PAHYNDOI_REFUSAL(answer),
           (unsigned)PAHYNDOI_NUMBER(answer));
}

/* Before the card is packed: up to five entries and a close need the ratchet above. With four more
   and a second close it must be larger, on one chunk none will do; no plan has 65,537 before a
   close. */
static void plan_card(void)
{
    const uint32_t counts[3] = {5, 4, 65537};
    print_answer("plan of 5 entries", pahyndoi_least_ratchet(counts, 1, CHUNKS));
    print_answer("plan of 5 and 4", pahyndoi_least_ratchet(counts, 2, CHUNKS));
    print_answer("plan of 5 and 4 on one chunk", pahyndoi_least_ratchet(counts, 2, 1));
    print_answer("plan with 65,537", pahyndoi_least_ratchet(counts, 3, CHUNKS));
}

static void put_number(uint8_t bytes[4], uint32_t number)
{
    for (size_t i = 0; i < 4; i++)
        bytes[i] = (uint8_t)(number >> (8 * i));
}

/* What every message of the store begins with. */
static void put_id(uint8_t *header, const char id[8])
{
    memcpy(header + 1, id, 8);
}

/* The fields that both kinds of store have. */
static void put_fields(uint8_t *header, uint8_t kind)
{
    header[0] = kind;
    put_id(header, "device 7");
    header[9] = PHASES;
    put_number(header + 10, CHUNKS);
    put_number(header + RATCHET_PLACE, RATCHET);
}

/* The fields behind them in kind 6. */
static void put_set(uint8_t *header, uint8_t tag_length, uint32_t data_limit, uint32_t log_capacity)
{
    header[TAG_LENGTH_PLACE] = tag_length;
    put_number(header + 19, data_limit);
    put_number(header + 23, log_capacity);
}

/* Chunks, and the auditor's copy of the unused store. The chunks of a real store are random bytes,
   no two the same, known to device and auditor alone. */
static void put_chunks(struct card *card, size_t header_size)
{
    for (size_t i = header_size; i < card->store_size; i++)
        card->store[i] = (uint8_t)i;
    memcpy(card->auditor, card->store, card->store_size);
}

/* The sealing calls, each in a function of its own, as wipe_stack.h asks. */
static NEVER_INLINED uint64_t call_open(struct card *card)
{
    return pahyndoi_open(&card->state, card->store, card->store_size, card->logs, card->logs_size,
                         card->kept.lengths, PHASES, card->seal, card->seal_size,
                         card->kept.seal_length);
}

static NEVER_INLINED uint64_t call_append(struct card *card, uint8_t phase, const char *text)
{
    return pahyndoi_append(&card->state, card->store, card->store_size, card->logs,
                           card->logs_size, card->seal, card->seal_size, phase,
                           (const uint8_t *)text, strlen(text));
}

static NEVER_INLINED uint64_t call_close(struct card *card)
{
    return pahyndoi_close(&card->state, card->store, card->store_size, card->logs,
                          card->logs_size, card->seal, card->seal_size);
}

static NEVER_INLINED uint64_t call_restart(struct card *card, uint32_t number)
{
    return pahyndoi_restart(&card->state, card->store, card->store_size, card->logs,
                            card->logs_size, card->seal, card->seal_size, number);
}

/* The lengths reached, after each call that was not refused. With the memories as the call left them
   they must be taken over as one: the power may go before or after that, not between. */
static void keep(struct card *card, uint64_t answer)
{
    if (PAHYNDOI_REFUSAL(answer) != 0)
        return;
    memcpy(card->kept.lengths, card->state.lengths, sizeof card->kept.lengths);
    card->kept.seal_length = card->state.seal_length;
}

/* And each followed by the wipe: the keys that the call used must be gone. */
static uint64_t open_store(struct card *card)
{
    uint64_t answer = call_open(card);
    wipe_stack();
    return answer;
}

static uint64_t append(struct card *card, uint8_t phase, const char *text)
{
    uint64_t answer = call_append(card, phase, text);
    wipe_stack();
    keep(card, answer);
    return answer;
}

static uint64_t close_store(struct card *card)
{
    uint64_t answer = call_close(card);
    wipe_stack();
    keep(card, answer);
    return answer;
}

static uint64_t restart(struct card *card, uint32_t number)
{
    uint64_t answer = call_restart(card, number);
    wipe_stack();
    keep(card, answer);
    return answer;
}

static uint32_t get_number(const uint8_t bytes[4])
{
    uint32_t number = 0;
    for (size_t i = 0; i < 4; i++)
        number |= (uint32_t)bytes[i] << (8 * i);
    return number;
}

/* How many keys a chunk of the card has, and how many bytes a tag: its store says. */
static uint32_t ratchet(const struct card *card)
{
    return get_number(card->store + RATCHET_PLACE);
}

static size_t tag_length(const struct card *card)
{
    return card->store[0] == PAHYNDOI_OWN_SET_KIND ? card->store[TAG_LENGTH_PLACE]
                                                   : PAHYNDOI_TAG_SIZE;
}

/* Where no key is held any more: with what number a restart is due, 0 where none is. The last item
   of the seal file tells, by its ratchet offset: so many keys of its chunk were used, and one. With
   all of them used, or with no item, nothing was cut. How long an item is, its kind and the card's
   tag length say. To be asked behind an open that was not refused: the store is then good, and the
   seal file within its memory. */
static uint32_t restart_due(const struct card *card)
{
    const size_t tag = tag_length(card);
    uint32_t used = 0;
    size_t place = 0;
    while (place < card->kept.seal_length) {
        const uint8_t *item = card->seal + place;
        if (item[0] == PAHYNDOI_ENTRY_KIND) {
            used = get_number(item + PAHYNDOI_ENTRY_OFFSET_PLACE) + 1;
            place += PAHYNDOI_ENTRY_SIZE_OF(tag);
        } else if (item[0] == PAHYNDOI_FILLER_KIND) {
            used = get_number(item + PAHYNDOI_FILLER_OFFSET_PLACE) + 1;
            place += PAHYNDOI_FILLER_SIZE_OF(tag);
        } else {
            used = get_number(item + PAHYNDOI_RESTART_OFFSET_PLACE) + 1;
            place += PAHYNDOI_RESTART_SIZE_OF(tag);
        }
    }
    return used < ratchet(card) ? used : 0;
}

/* The power goes, and with it the state. It comes back: the controller opens with the lengths kept,
   and restarts where a chunk was cut. With a refused open it writes nothing more. */
static void lose_power(struct card *card)
{
    uint64_t opened;
    uint32_t number;
    memset(&card->state, 0, sizeof card->state);
    opened = open_store(card);
    print_answer("power cut, open", opened);
    if (PAHYNDOI_REFUSAL(opened) != 0)
        return;
    number = restart_due(card);
    printf("restart due: number %u\n", (unsigned)number);
    if (number > 0)
        print_answer("restart", restart(card, number));
}

/* The lengths that the state holds, 4 bytes each. */
static void put_lengths(uint8_t lengths[4 * PHASES], const pahyndoi_state *state)
{
    for (size_t i = 0; i < PHASES; i++)
        put_number(lengths + 4 * i, state->lengths[i]);
}

/* The audit of the memories as they stand. */
static uint64_t audit(const struct card *card)
{
    uint8_t lengths[4 * PHASES];
    put_lengths(lengths, &card->state);
    return pahyndoi_audit(card->store, card->store_size, card->auditor, card->store_size,
                          card->logs, card->logs_size, lengths, sizeof lengths, card->seal,
                          (size_t)card->state.seal_length);
}

/* Which item sealed a byte of a phase's log, and the text that it sealed, if it is not refused. */
static void look_up(const struct card *card, uint8_t phase, uint32_t offset)
{
    uint8_t lengths[4 * PHASES];
    uint64_t item, data;
    put_lengths(lengths, &card->state);
    item = pahyndoi_item_at(card->store, card->store_size, card->auditor, card->store_size,
                            card->logs, card->logs_size, lengths, sizeof lengths, card->seal,
                            (size_t)card->state.seal_length, phase, offset);
    data = pahyndoi_data_at(card->store, card->store_size, card->auditor, card->store_size,
                            card->logs, card->logs_size, lengths, sizeof lengths, card->seal,
                            (size_t)card->state.seal_length, phase, offset);
    printf("byte %u of phase %u: refusal %u, number %u, \"%.*s\"\n", (unsigned)offset,
           (unsigned)phase, (unsigned)PAHYNDOI_REFUSAL(item), (unsigned)PAHYNDOI_NUMBER(item),
           (int)PAHYNDOI_LENGTH(data), (const char *)card->logs + PAHYNDOI_PLACE(data));
}

/* A tag of so many bytes, or by which number it is refused. */
static void print_tag(const char *name, const char *key, const char *message, size_t wanted)
{
    uint8_t tag[PAHYNDOI_LONGEST_TAG];
    uint32_t answer = pahyndoi_hmac_sha256((const uint8_t *)key, strlen(key),
                                           (const uint8_t *)message, strlen(message), wanted, tag);
    if (answer == PAHYNDOI_DONE)
        print_bytes(name, tag, wanted);
    else
        printf("%s: refusal %u\n", name, (unsigned)answer);
}

/* The digest of "abc" (an example of FIPS 180-4), the tag of RFC 4231's second case, and that of
   its fifth, which the RFC truncates to 128 bits; a byte less is refused. */
static void hash_known(void)
{
    uint8_t digest[32];
    char key[21] = "";
    memset(key, 0x0c, sizeof key - 1);
    if (pahyndoi_sha256((const uint8_t *)"abc", 3, digest) == PAHYNDOI_DONE)
        print_bytes("sha256", digest, sizeof digest);
    print_tag("hmac", "Jefe", "what do ya want for nothing?", PAHYNDOI_LONGEST_TAG);
    print_tag("hmac, 16 bytes", key, "Test With Truncation", PAHYNDOI_SHORTEST_TAG);
    print_tag("hmac, 15 bytes", key, "Test With Truncation", PAHYNDOI_SHORTEST_TAG - 1);
}

/* The standby has equal chunks and an id of its own. Its first entry is of the same text and under
   the same key as the device's, and yet is refused in its place. */
static void use_standby(const struct card *card)
{
    static struct card standby = {.store = standby_store, .store_size = sizeof standby_store,
                                  .logs = standby_logs, .logs_size = sizeof standby_logs,
                                  .seal = standby_seal, .seal_size = sizeof standby_seal};
    memcpy(standby_store, card->auditor, card->store_size);
    put_id(standby_store, "device 8");
    print_answer("standby, open", open_store(&standby));
    print_answer("append", append(&standby, 1, "door opened"));
    memcpy(card->seal, standby_seal, PAHYNDOI_ENTRY_SIZE);
    print_answer("audit with the standby's entry", audit(card));
}

/* A store of kind 1. */
static void use_card(void)
{
    static struct card card = {.store = store, .auditor = auditor, .store_size = sizeof store,
                               .logs = logs, .logs_size = sizeof logs,
                               .seal = seal, .seal_size = sizeof seal};
    put_fields(store, PAHYNDOI_COMMON_SET_KIND);
    put_chunks(&card, PAHYNDOI_HEADER_SIZE);

    print_answer("open", open_store(&card));
    print_answer("append", append(&card, 1, "door opened"));
    print_answer("append", append(&card, 2, "fan at 40 %"));
    print_answer("append", append(&card, 1, "door shut"));
    print_answer("append", append(&card, 2, "fan off"));
    print_answer("append to phase 3", append(&card, 3, "nowhere"));
    print_answer("close", close_store(&card));
    print_answer("audit", audit(&card));

    /* "door shut" stands behind the 11 bytes of "door opened" and ends before byte 20. */
    look_up(&card, 1, 10);
    look_up(&card, 1, 11);
    look_up(&card, 2, 17);
    look_up(&card, 1, 20);
    logs[11] = 'D';
    print_answer("audit of an altered log", audit(&card));
    look_up(&card, 1, 0);

    logs[11] = 'd';
    print_answer("audit of the log as it was", audit(&card));
    use_standby(&card);
}

/* A store of kind 1 whose controller loses its power twice: between two entries, with a chunk half
   used, and behind a close, where nothing is lost. */
static void use_card_through_cuts(void)
{
    static struct card card = {.store = cut_store, .auditor = cut_auditor,
                               .store_size = sizeof cut_store,
                               .logs = cut_logs, .logs_size = sizeof cut_logs,
                               .seal = cut_seal, .seal_size = sizeof cut_seal};
    put_fields(cut_store, PAHYNDOI_COMMON_SET_KIND);
    put_chunks(&card, PAHYNDOI_HEADER_SIZE);

    print_answer("card with cuts, open", open_store(&card));
    print_answer("restart of a new card", restart(&card, 1));
    print_answer("append", append(&card, 1, "door opened"));
    print_answer("append", append(&card, 2, "fan at 40 %"));
    print_answer("restart without a cut", restart(&card, 2));
    lose_power(&card);
    print_bytes("restart item", cut_seal + 2 * PAHYNDOI_ENTRY_SIZE, PAHYNDOI_RESTART_SIZE);
    print_answer("append", append(&card, 1, "door shut"));
    print_answer("close", close_store(&card));
    lose_power(&card);
    print_answer("audit", audit(&card));
    look_up(&card, 1, 11);
}

/* A store of kind 6, and memories sized by its set. Its controller loses its power too, with a
   chunk half used and behind a close. Refused are a set with tags of 15 bytes, data a byte longer
   than the limit, and the audit beside a store with another set. */
static void use_small_card(void)
{
    static struct card card = {.store = small_store, .auditor = small_auditor,
                               .store_size = sizeof small_store,
                               .logs = small_logs, .logs_size = sizeof small_logs,
                               .seal = small_seal, .seal_size = sizeof small_seal};
    char line[DATA_LIMIT + 2] = "";
    memset(line, '-', DATA_LIMIT + 1);
    put_fields(small_store, PAHYNDOI_OWN_SET_KIND);
    put_set(small_store, PAHYNDOI_SHORTEST_TAG - 1, DATA_LIMIT, LOG_CAPACITY);
    print_answer("small card, open with tags of 15 bytes", open_store(&card));
    put_set(small_store, TAG_LENGTH, DATA_LIMIT, LOG_CAPACITY);
    put_chunks(&card, PAHYNDOI_OWN_SET_HEADER_SIZE);

    print_answer("small card, open", open_store(&card));
    print_answer("append of 65 bytes", append(&card, 1, line));
    print_answer("append of 64 bytes", append(&card, 1, line + 1));
    print_answer("append", append(&card, 2, "fan off"));
    print_bytes("second entry", small_seal + PAHYNDOI_ENTRY_SIZE_OF(TAG_LENGTH),
                PAHYNDOI_ENTRY_SIZE_OF(TAG_LENGTH));
    lose_power(&card);
    print_answer("close", close_store(&card));
    print_bytes("filler", small_seal + card.state.seal_length - PAHYNDOI_FILLER_SIZE_OF(TAG_LENGTH),
                PAHYNDOI_FILLER_SIZE_OF(TAG_LENGTH));
    lose_power(&card);
    print_answer("audit", audit(&card));
    look_up(&card, 2, 6);

    put_set(small_auditor, PAHYNDOI_LONGEST_TAG, DATA_LIMIT, LOG_CAPACITY);
    print_answer("audit beside tags of 32 bytes", audit(&card));
}

int main(void)
{
    hash_known();
    plan_card();
    use_card();
    use_card_through_cuts();
    use_small_card();
    return 0;
}
