#include "checks.h"

#include <stdio.h>
#include <string.h>

#include "device.h"
#include "painted.h"

/* Where a restart item has its number. */
enum { RESTART_NUMBER = 9 };

struct call {
    const char *name;
    void (*job)(void);
    size_t figure;
    size_t deepest;
};

static struct call opening = {"open", open_job, PAHYNDOI_SEALING_STACK, 0};
static struct call appending = {"append", append_job, PAHYNDOI_SEALING_STACK, 0};
static struct call closing = {"close", close_job, PAHYNDOI_SEALING_STACK, 0};
static struct call restarting = {"restart", restart_job, PAHYNDOI_SEALING_STACK, 0};
static struct call auditing = {"audit", audit_job, PAHYNDOI_AUDIT_STACK, 0};
static struct call item_finding = {"item_at", item_at_job, PAHYNDOI_AUDIT_STACK, 0};
static struct call data_finding = {"data_at", data_at_job, PAHYNDOI_AUDIT_STACK, 0};
static struct call hashing = {"sha256", sha256_job, PAHYNDOI_HASH_STACK, 0};
static struct call tagging = {"hmac_sha256", hmac_job, PAHYNDOI_HASH_STACK, 0};
static struct call planning = {"least_ratchet", least_ratchet_job, PAHYNDOI_HASH_STACK, 0};

/* The call as the device stands, which must keep to its figure. */
static void measure_depth(struct call *call)
{
    paint(PAINT);
    run(call->job, 0);
    if (depth() > call->figure)
        fail("%s went %zu bytes deep, its figure in pahyndoi.h is %zu", call->name, depth(),
             call->figure);
    if (depth() > call->deepest)
        call->deepest = depth();
}

/* The same for a call that must give this refusal. */
static void measure(struct call *call, uint32_t refusal)
{
    measure_depth(call);
    if (PAHYNDOI_REFUSAL(answer) != refusal)
        fail("%s gave refusal %u, not %u", call->name, (unsigned)PAHYNDOI_REFUSAL(answer),
             (unsigned)refusal);
}

/* Both lookups, which must give this refusal: data_at does not say which it is. */
static void measure_lookups(uint32_t refusal)
{
    measure(&item_finding, refusal);
    measure_depth(&data_finding);
    if ((answer == 0) != (refusal != 0))
        fail("data_at gave %u bytes with refusal %u of item_at",
             (unsigned)PAHYNDOI_LENGTH(answer), (unsigned)refusal);
}

static void measure_open(void)
{
    unused_device(4);
    measure(&opening, 0);
    memset(chunk_of(store, 0), 0, PAHYNDOI_CHUNK_SIZE);
    measure(&opening, 0);
    memset(chunk_of(store, 2), 0, PAHYNDOI_CHUNK_SIZE);
    measure(&opening, PAHYNDOI_BURNED_AFTER_UNBURNED);
    logs_size = 0;
    measure(&opening, PAHYNDOI_BAD_LOGS);
    store_size = 0;
    measure(&opening, PAHYNDOI_BAD_STORE);
    unused_device(4);
    lengths_count = PHASES - 1;
    measure(&opening, PAHYNDOI_BAD_LENGTHS);
    unused_device(4);
    state.seal_length = seal_size + 1;
    measure(&opening, PAHYNDOI_STATE_UNFIT);
}

/* Data that, with the 26 bytes of a message before them, end before, at and behind the ends of the
   hash's blocks, and the longest, under chunks and held keys; each at the front of an empty log. */
static void measure_append(void)
{
    static const size_t sizes[] = {1,  28, 29, 30,  37,  38,
                                   39, 64, 93, 102, 103, PAHYNDOI_LARGEST_DATA_LIMIT};
    unused_device(3);
    for (size_t i = 0; i < sizeof sizes / sizeof sizes[0]; i++) {
        data_size = allowed(sizes[i]);
        measure(&appending, 0);
        state.lengths[0] = 0;
    }
    measure(&appending, PAHYNDOI_KEYS_SPENT);
    seal_size = (size_t)state.seal_length;
    measure(&appending, PAHYNDOI_SEAL_FULL);
    state.lengths[0] = set->log_capacity;
    measure(&appending, PAHYNDOI_LOG_FULL);
    data_size = set->data_limit + 1;
    measure(&appending, PAHYNDOI_BAD_DATA_LENGTH);
    phase = 0;
    measure(&appending, PAHYNDOI_NO_SUCH_PHASE);
    state.chunk = CHUNKS + 1;
    measure(&appending, PAHYNDOI_STATE_UNFIT);
    logs_size = 0;
    measure(&appending, PAHYNDOI_BAD_LOGS);
    store_size = 0;
    measure(&appending, PAHYNDOI_BAD_STORE);
}

static void measure_close(void)
{
    unused_device(RATCHET_MOST);
    measure(&closing, 0);
    append_job();
    measure(&closing, 0);
    if (PAHYNDOI_NUMBER(answer) != RATCHET_MOST - 1)
        fail("close wrote %u fillers", (unsigned)PAHYNDOI_NUMBER(answer));
    append_job();
    seal_size = (size_t)state.seal_length;
    measure(&closing, PAHYNDOI_SEAL_FULL);
    state.chunk = CHUNKS + 1;
    measure(&closing, PAHYNDOI_STATE_UNFIT);
    logs_size = 0;
    measure(&closing, PAHYNDOI_BAD_LOGS);
    store_size = 0;
    measure(&closing, PAHYNDOI_BAD_STORE);
}

/* Behind a chunk that was cut, behind a restart that was, and where no chunk is left. */
static void measure_restart(void)
{
    unused_device(4);
    measure(&restarting, PAHYNDOI_BAD_RESTART);
    append_job();
    measure(&restarting, PAHYNDOI_BAD_RESTART);
    for (size_t i = 1; i < CHUNKS; i++) {
        open_job();
        measure(&restarting, 0);
    }
    open_job();
    measure(&restarting, PAHYNDOI_KEYS_SPENT);
    seal_size = (size_t)state.seal_length;
    measure(&restarting, PAHYNDOI_SEAL_FULL);
    cut_items = 0;
    measure(&restarting, PAHYNDOI_BAD_RESTART);
    cut_items = 4;
    measure(&restarting, PAHYNDOI_BAD_RESTART);
    state.chunk = CHUNKS + 1;
    measure(&restarting, PAHYNDOI_STATE_UNFIT);
    logs_size = 0;
    measure(&restarting, PAHYNDOI_BAD_LOGS);
    store_size = 0;
    measure(&restarting, PAHYNDOI_BAD_STORE);
}

/* In every phase so many entries of one byte, one behind the other; the phases take turns. */
static void craft_bytes(uint32_t entries)
{
    unused_device(PHASES * entries);
    for (uint32_t from = 0; from < entries; from++)
        for (uint8_t p = 1; p <= PHASES; p++)
            craft_entry(p, from, 1);
    for (size_t p = 0; p < PHASES; p++)
        state.lengths[p] = entries;
}

/* In every phase one area, as long as may be. */
static void craft_longest(void)
{
    unused_device(PHASES);
    for (uint8_t p = 1; p <= PHASES; p++)
        craft_entry(p, 0, set->data_limit);
    for (size_t p = 0; p < PHASES; p++)
        state.lengths[p] = set->data_limit;
}

/* The audit and both lookups, all refused alike. */
static void measure_refused(uint32_t refusal)
{
    measure(&auditing, refusal);
    measure_lookups(refusal);
}

/* Material of so many items, of which the last of all has the last phase's last bytes, so many. */
static void measure_last(uint32_t items, uint32_t size)
{
    measure(&auditing, 0);
    if (PAHYNDOI_NUMBER(answer) != items)
        fail("the audit counted %u items", (unsigned)PAHYNDOI_NUMBER(answer));
    phase = PHASES;
    offset = state.lengths[PHASES - 1] - 1;
    measure_lookups(0);
    if (PAHYNDOI_PLACE(answer) !=
            PAHYNDOI_LOG_PLACE_OF(set->log_capacity, PHASES) + state.lengths[PHASES - 1] - size ||
        PAHYNDOI_LENGTH(answer) != size)
        fail("data_at found %u bytes from byte %u of the logs on",
             (unsigned)PAHYNDOI_LENGTH(answer), (unsigned)PAHYNDOI_PLACE(answer));
    offset = state.lengths[PHASES - 1];
    measure_lookups(PAHYNDOI_NO_SUCH_BYTE);
}

static void measure_accepted(void)
{
    unused_device(4);
    measure(&auditing, 0);
    measure_lookups(PAHYNDOI_NO_SUCH_BYTE);
    craft_bytes(RATCHET_MOST / PHASES);
    measure_last(RATCHET_MOST, 1);
    craft_longest();
    measure_last(PHASES, set->data_limit);
}

/* An entry, then a restart in each chunk but the first, and fillers to the end of the last one. */
static void measure_restarted(void)
{
    unused_device(4);
    append_job();
    for (size_t i = 1; i < CHUNKS; i++) {
        open_job();
        restart_job();
    }
    measure_refused(PAHYNDOI_ITEMS_MISSING);
    close_job();
    measure(&auditing, 0);
    if (PAHYNDOI_NUMBER(answer) != CHUNKS + 3)
        fail("the audit counted %u items", (unsigned)PAHYNDOI_NUMBER(answer));
    measure_lookups(0);
    seal[PAHYNDOI_ENTRY_SIZE_OF(set->tag_length) + RESTART_NUMBER] ^= 2;
    measure_refused(PAHYNDOI_WRONG_PLACE);
}

static void measure_audit(void)
{
    measure_accepted();
    measure_restarted();
    craft_bytes(RATCHET_MOST / PHASES);
    state.lengths[PHASES - 1]++;
    measure_refused(PAHYNDOI_NOT_COVERED);
    seal[state.seal_length - 1] ^= 1;
    measure_refused(PAHYNDOI_WRONG_TAG);
    state.seal_length -= PAHYNDOI_ENTRY_SIZE_OF(set->tag_length);
    measure_refused(PAHYNDOI_ITEMS_MISSING);
    craft_bytes(2);
    craft_entry(1, 3, 1);
    state.lengths[0] = 4;
    measure_refused(PAHYNDOI_AREA_BEYOND);
    craft_bytes(2);
    craft_entry(1, 0, set->data_limit);
    if (state.lengths[0] < set->data_limit)
        state.lengths[0] = set->data_limit;
    measure_refused(PAHYNDOI_AREA_SHARED);
    *chunk_of(auditor, 2) ^= 1;
    measure_refused(PAHYNDOI_CHUNK_DIFFERS);
    auditor[1] ^= 1;
    measure_refused(PAHYNDOI_HEADERS_DIFFER);
    auditor[0] = 0;
    measure_refused(PAHYNDOI_BAD_AUDITOR_STORE);
}

/* Every call that is handed a store, with one that no call takes. */
static void measure_bad_store(void)
{
    measure(&opening, PAHYNDOI_BAD_STORE);
    measure(&appending, PAHYNDOI_BAD_STORE);
    measure(&closing, PAHYNDOI_BAD_STORE);
    measure(&restarting, PAHYNDOI_BAD_STORE);
    measure_refused(PAHYNDOI_BAD_STORE);
}

/* Each parameter at both sides of its range, and a log capacity below the data limit; in the
   device's store, and in the auditor's alone. */
static void measure_bad_sets(void)
{
    static const struct set bad[] = {
        {PAHYNDOI_OWN_SET_KIND, 15, 512, 8192},  {PAHYNDOI_OWN_SET_KIND, 33, 512, 8192},
        {PAHYNDOI_OWN_SET_KIND, 32, 0, 8192},    {PAHYNDOI_OWN_SET_KIND, 32, 4097, 8192},
        {PAHYNDOI_OWN_SET_KIND, 32, 511, 511},   {PAHYNDOI_OWN_SET_KIND, 32, 512, 65537},
        {PAHYNDOI_OWN_SET_KIND, 32, 4096, 4095},
    };
    set = &sets[SAME_SET];
    for (size_t i = 0; i < sizeof bad / sizeof bad[0]; i++) {
        unused_device(4);
        put_set(store, &bad[i]);
        measure_bad_store();
        unused_device(4);
        put_set(auditor, &bad[i]);
        measure_refused(PAHYNDOI_BAD_AUDITOR_STORE);
    }
}

/* The auditor's store is of kind 1, the device's of kind 6 with the same set and chunks. */
static void measure_other_kind(void)
{
    set = &sets[SAME_SET];
    unused_device(4);
    auditor[0] = PAHYNDOI_COMMON_SET_KIND;
    memcpy(auditor + PAHYNDOI_HEADER_SIZE, chunk_of(store, 0), CHUNKS * PAHYNDOI_CHUNK_SIZE);
    auditor_size = PAHYNDOI_STORE_SIZE_OF(PAHYNDOI_HEADER_SIZE, CHUNKS);
    measure_refused(PAHYNDOI_HEADERS_DIFFER);
}

/* Tags of the fewest and of the most bytes under the key. */
static void measure_tags(void)
{
    wanted = PAHYNDOI_SHORTEST_TAG;
    measure(&tagging, 0);
    wanted = PAHYNDOI_LONGEST_TAG;
    measure(&tagging, 0);
}

static void measure_hashes(void)
{
    static const size_t sizes[] = {0, 55, 56, 63, 64, 65, 119, 120, 128, PAHYNDOI_LENGTH_LIMIT};
    const size_t count = sizeof sizes / sizeof sizes[0];
    for (size_t i = 0; i < count; i++) {
        message_size = sizes[i];
        measure(&hashing, 0);
        for (size_t j = 0; j < count; j++) {
            key_size = sizes[j];
            measure_tags();
        }
    }
    wanted = PAHYNDOI_SHORTEST_TAG - 1;
    measure(&tagging, PAHYNDOI_BAD_TAG_LENGTH);
    wanted = PAHYNDOI_LONGEST_TAG + 1;
    measure(&tagging, PAHYNDOI_BAD_TAG_LENGTH);
    message_size = PAHYNDOI_LENGTH_LIMIT + 1;
    measure(&hashing, PAHYNDOI_TOO_LONG);
    measure(&tagging, PAHYNDOI_TOO_LONG);
    wanted = PAHYNDOI_LONGEST_TAG;
    measure(&tagging, PAHYNDOI_TOO_LONG);
}

/* Lists of every length with small and large counts, so that ratchets from 1 to 256 and none last;
   then a list too long, chunk counts that no card has, and a count too large. */
static void measure_plans(void)
{
    static const uint32_t counts[] = {0, 16, 256, 4096, 4097, 65536};
    planned_chunks = 1024;
    for (counts_count = 0; counts_count <= COUNTS_MOST; counts_count++) {
        for (size_t i = 0; i < sizeof counts / sizeof counts[0]; i++) {
            count = counts[i];
            measure(&planning, 0);
        }
    }
    measure(&planning, PAHYNDOI_BAD_PLAN);
    counts_count = COUNTS_MOST;
    planned_chunks = 0;
    measure(&planning, PAHYNDOI_BAD_PLAN);
    planned_chunks = 1025;
    measure(&planning, PAHYNDOI_BAD_PLAN);
    planned_chunks = 1024;
    count = 65537;
    measure(&planning, PAHYNDOI_BAD_PLAN);
}

void check_figures(void)
{
    const struct call *calls[] = {&opening,      &appending,    &closing, &restarting, &auditing,
                                  &item_finding, &data_finding, &hashing, &tagging,    &planning};
    for (size_t i = 0; i < SETS; i++) {
        set = &sets[i];
        measure_open();
        measure_append();
        measure_close();
        measure_restart();
        measure_audit();
    }
    measure_bad_sets();
    measure_other_kind();
    measure_hashes();
    measure_plans();
    for (size_t i = 0; listing && i < sizeof calls / sizeof calls[0]; i++)
        printf("%s: %zu bytes deep\n", calls[i]->name, calls[i]->deepest);
}
