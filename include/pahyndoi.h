/*
 * Sealed phase logs: SHA-256 (FIPS 180-4), HMAC-SHA-256 whole or cut (RFC 2104,
 * FIPS 198-1), the sealer that opens a key store, appends, closes and restarts
 * after a power cut, the audit, which item sealed a byte, and the ratchet that
 * a card needs. The archive asks for memcpy and memset alone, and allocates
 * nothing.
 */

#ifndef PAHYNDOI_H
#define PAHYNDOI_H

#include <stddef.h>
#include <stdint.h>

#ifdef __cplusplus
extern "C" {
#endif

/* ---- Hash and tag ---- */

/* The longest message, and the longest key, in bytes. */
#define PAHYNDOI_LENGTH_LIMIT 1048576

/* The fewest and the most bytes of a tag that may be wanted. */
#define PAHYNDOI_SHORTEST_TAG 16
#define PAHYNDOI_LONGEST_TAG 32

/*
 * What the hash and the tag call answer. The tag call may also answer
 * PAHYNDOI_BAD_TAG_LENGTH, so compare its answer with PAHYNDOI_DONE.
 */
#define PAHYNDOI_DONE 0
#define PAHYNDOI_REFUSED 1

/*
 * Writes the SHA-256 digest of the message to the 32 bytes at digest and
 * answers 0.
 *
 * A message of more than 1,048,576 bytes is refused: the call answers 1 and
 * the 32 bytes at digest are zeros. Check the answer before using them.
 *
 * message must be readable for message_length bytes and digest writable for
 * 32. Neither may be a null pointer, even for an empty message. The two must
 * not overlap. No alignment is asked of either. The message is only read.
 * The call keeps no pointer and no state, and may run in several threads.
 */
uint32_t pahyndoi_sha256(const uint8_t *message, size_t message_length,
                         uint8_t digest[32]);

/*
 * Writes the first bytes of the HMAC-SHA-256 of the message under the key to
 * tag, as many as are wanted, from 16 to 32, and zeros behind them, so that all
 * 32 bytes at tag are written; and answers 0. 32 are the whole HMAC; fewer are
 * the leftmost bytes of it, as RFC 2104, section 5, allows. A key of more than
 * 64 bytes is hashed first, as RFC 2104 says; an empty key is taken as it is.
 *
 * Refused in this order: 1, 26. A message or a key of more than 1,048,576
 * bytes gives 1; if neither is so long, a value of wanted below 16 or above 32
 * gives 26. The call answers this refusal, and the 32 bytes at tag are zeros.
 * Check the answer before using them.
 *
 * 16 is the least that RFC 2104 recommends: not less than half the length of
 * the hash, to match the birthday bound, and not less than 80 bits. Half of
 * SHA-256's 256 bits is 128 bits, the greater of the two.
 *
 * key must be readable for key_length bytes, message for message_length, and
 * tag writable for 32, however few are wanted. None may be a null pointer, even
 * with length 0. tag must overlap neither key nor message. No alignment is
 * asked of any. Key and message are only read. The call keeps no pointer and no
 * state, and may run in several threads.
 *
 * To verify a tag, compare the wanted bytes, all of them, in constant time, not
 * with memcmp. The verifier fixes how many they are: never take a length that
 * comes with the message, for a forger would choose the shortest.
 */
uint32_t pahyndoi_hmac_sha256(const uint8_t *key, size_t key_length,
                              const uint8_t *message, size_t message_length,
                              size_t wanted, uint8_t tag[32]);

/* ---- Sealer, audit, lookups and plans ---- */

/*
 * Of the calls below: every pointer must be readable, and writable where it is
 * not const, for the size behind it. None may be a null pointer, even with
 * size 0. What a call writes must overlap nothing else that it is lent.
 * pahyndoi_state and uint32_t pointers must be aligned as their types ask;
 * byte pointers need no alignment. The calls keep no pointer and no state of
 * their own, and may run in several threads, each on memory of its own.
 */

/*
 * A key store is a header and its chunks of 32 bytes. Its first byte is its
 * kind. In kind 1 the header has 18 bytes: kind (1 byte), id (8), phases (1),
 * chunk count (4) and ratchet (4). In kind 6 it has 27: these fields, and
 * behind them a set of three parameters of the store's own,
 *
 *   from byte 18, 1 byte   the tag length: how many bytes the tag of an item
 *                          has, from the front of its HMAC; 16 to 32;
 *   from byte 19, 4 bytes  the data limit: how many bytes the data of an entry
 *                          have at most; 1 to 4,096;
 *   from byte 23, 4 bytes  the log capacity: how many bytes of the log memory
 *                          each phase has; 512 to 65,536, and not below the
 *                          data limit.
 *
 * Numbers are little-endian. A store of kind 1 has the set 32, 512, 8,192.
 * docs/FORMAT.md, 2 to 4, gives the layouts.
 *
 * Whoever makes the store makes its chunks random and all different; no call
 * checks that. A chunk that equals a burned one still has that one's keys:
 * whoever takes the device can forge what they sealed, and the audit accepts
 * it.
 *
 * The id, from byte 1 on, is any 8 bytes. Every message, of an item or for the
 * next key, begins with them; no item has them. Give each store an id of its
 * own, a standby's with equal chunks too: with one id for both an item of the
 * one passes in the other's seal file. With two it is refused there, by 21 at
 * the latest, unless its tag fits two different messages; docs/FORMAT.md, 10,
 * says what that takes.
 *
 * Whoever makes the store picks the set, and firmware must size its memories by
 * it. No call is handed a set: each reads it from the store that it is lent,
 * and refuses a log memory of another size (3). Firmware made for one set
 * compares the store's with it before anything else. Firmware for every store
 * needs 32,795 bytes for the store, 524,288 for the logs and 13,107,200 for the
 * seal memory.
 *
 * A store of kind 1 and one of kind 6 with the set 32, 512, 8,192 have items,
 * logs and limits alike, but are different stores: their headers have 18 and 27
 * bytes, and the audit refuses the one beside the other (13).
 */
#define PAHYNDOI_COMMON_SET_KIND 1
#define PAHYNDOI_OWN_SET_KIND 6

/* The bytes of the header in kind 1, of that in kind 6, and of a chunk. */
#define PAHYNDOI_HEADER_SIZE 18
#define PAHYNDOI_OWN_SET_HEADER_SIZE 27
#define PAHYNDOI_CHUNK_SIZE 32

/*
 * The least and the most that a data limit and a log capacity may be. Those of
 * the tag length are PAHYNDOI_SHORTEST_TAG and PAHYNDOI_LONGEST_TAG.
 */
#define PAHYNDOI_SMALLEST_DATA_LIMIT 1
#define PAHYNDOI_LARGEST_DATA_LIMIT 4096
#define PAHYNDOI_SMALLEST_LOG_CAPACITY 512
#define PAHYNDOI_LARGEST_LOG_CAPACITY 65536

/*
 * A seal file is items, one behind the other. The first byte of an item is its
 * kind: 2 an entry, 3 a filler, 5 a restart. Which key sealed it stands in its
 * chunk number and, in the 4 bytes behind that, its ratchet offset, which is 0
 * for the first key of a chunk. These are the kinds, and the places of the
 * ratchet offset in items of each. An entry has another offset as well, that of
 * its data in the phase's log, which says nothing of keys: its place is
 * PAHYNDOI_ENTRY_LOG_OFFSET_PLACE.
 */
#define PAHYNDOI_ENTRY_KIND 2
#define PAHYNDOI_FILLER_KIND 3
#define PAHYNDOI_RESTART_KIND 5
#define PAHYNDOI_ENTRY_OFFSET_PLACE 14
#define PAHYNDOI_FILLER_OFFSET_PLACE 5
#define PAHYNDOI_RESTART_OFFSET_PLACE 5
#define PAHYNDOI_ENTRY_LOG_OFFSET_PLACE 2

/*
 * Of kind 1: tag length, data limit and log capacity, and the bytes of an
 * entry, of a filler and of a restart item.
 */
#define PAHYNDOI_TAG_SIZE 32
#define PAHYNDOI_DATA_LIMIT 512
#define PAHYNDOI_LOG_SIZE 8192
#define PAHYNDOI_ENTRY_SIZE 50
#define PAHYNDOI_FILLER_SIZE 41
#define PAHYNDOI_RESTART_SIZE 45

/*
 * Of every set, in bytes. Each is a constant where its arguments are, in #if as
 * well, and evaluates each argument once. Its type is unsigned where those of
 * its arguments are, or are no wider than unsigned int. Nothing is checked: of
 * arguments that no store has it says nothing.
 *
 *   ENTRY_SIZE_OF    An entry item: 18 bytes and the tag.
 *   FILLER_SIZE_OF   A filler item: 9 bytes and the tag.
 *   RESTART_SIZE_OF  A restart item: 13 bytes and the tag.
 *   LOGS_SIZE_OF     The log memory, exactly: a log for each phase.
 *   LOG_PLACE_OF     Where in it the log of a phase begins; phase 1 is the
 *                    first, at 0.
 *   STORE_SIZE_OF    The store, exactly: a header of this size and the chunks.
 *   SEAL_SIZE_OF     A seal memory that has room for an entry under every key.
 *                    Each item of a seal file takes a key, and an entry is the
 *                    longest, so no seal file is longer. A smaller memory may
 *                    fill up (10).
 */
#define PAHYNDOI_ENTRY_SIZE_OF(tag_length) (18u + (tag_length))
#define PAHYNDOI_FILLER_SIZE_OF(tag_length) (9u + (tag_length))
#define PAHYNDOI_RESTART_SIZE_OF(tag_length) (13u + (tag_length))
#define PAHYNDOI_LOGS_SIZE_OF(log_capacity, phases) \
    (1u * (log_capacity) * (phases))
#define PAHYNDOI_LOG_PLACE_OF(log_capacity, phase) \
    ((log_capacity) * ((phase) - 1u))
#define PAHYNDOI_STORE_SIZE_OF(header_size, chunks) \
    ((header_size) + 32u * (chunks))
#define PAHYNDOI_SEAL_SIZE_OF(tag_length, chunks, ratchet) \
    (PAHYNDOI_ENTRY_SIZE_OF(tag_length) * (chunks) * (ratchet))

/*
 * Open, append, close, restart, the audit, item_at and least_ratchet answer one
 * 64-bit number: the refusal times 2 to the 32, plus a number that each call
 * explains. Nothing is refused exactly if the refusal is 0; the answer is then
 * just the number. data_at answers a place and a length in the same way.
 */
#define PAHYNDOI_REFUSAL(answer) ((uint32_t)((uint64_t)(answer) >> 32))
#define PAHYNDOI_NUMBER(answer) ((uint32_t)(uint64_t)(answer))

/*
 * The refusals, in checking order, save that restart checks 27 before 10 and
 * 11: of those that a call checks, the first that holds is the answer. A chunk
 * is burned if all its bytes are zero; P says how many chunks at the front of
 * the device store are burned, N is the ratchet, the number of keys of a chunk.
 *
 * What is due is a chunk and a ratchet offset: 0 and 0 at first, behind an item
 * the next offset of its chunk, and behind offset N - 1 the next chunk at
 * offset 0. An entry and a filler stand where it is due. A restart item may
 * stand only where the offset due is above 0, so where a chunk is half used: in
 * the next chunk at offset 0, with the offset that was due as its number.
 *
 * Data limit and log capacity are the store's, 512 and 8,192 in kind 1. The
 * covered bytes of a phase end where the last of its entries that the audit has
 * taken ends, at 0 if there is none. When a state fits stands at
 * pahyndoi_state; docs/FORMAT.md, 8 and 9, has the exact conditions.
 */
enum pahyndoi_refusal {
    /* A message or a key handed to the hash has more than 1,048,576 bytes. */
    PAHYNDOI_TOO_LONG = 1,
    /* The store lacks a whole header of kind 1 or 6, has phases, chunk count,
       ratchet or set out of range, or is not as long as its header says. */
    PAHYNDOI_BAD_STORE = 2,
    /* The log memory is not the log capacity times the phases. */
    PAHYNDOI_BAD_LOGS = 3,
    /* A chunk is burned although an earlier one is not. */
    PAHYNDOI_BURNED_AFTER_UNBURNED = 4,
    /* The lengths are not one for each phase, or one is above the log
       capacity. */
    PAHYNDOI_BAD_LENGTHS = 5,
    /* Open is given a seal length beyond the seal memory, or append, close or
       restart a state that does not fit. */
    PAHYNDOI_STATE_UNFIT = 6,
    /* The phase is not one of the store's. */
    PAHYNDOI_NO_SUCH_PHASE = 7,
    /* The data are empty or longer than the data limit. */
    PAHYNDOI_BAD_DATA_LENGTH = 8,
    /* The phase's log has no room for the data. */
    PAHYNDOI_LOG_FULL = 9,
    /* The seal memory has no room for the items to be written. */
    PAHYNDOI_SEAL_FULL = 10,
    /* The keys of all chunks are spent. */
    PAHYNDOI_KEYS_SPENT = 11,
    /* The auditor's store is malformed (rule 2) or has a burned chunk. */
    PAHYNDOI_BAD_AUDITOR_STORE = 12,
    /* The headers of the two stores differ. */
    PAHYNDOI_HEADERS_DIFFER = 13,
    /* Behind the P burned chunks, a chunk differs between the two stores. */
    PAHYNDOI_CHUNK_DIFFERS = 14,
    /* The item is no entry, no filler and no restart, or the seal file ends
       before the item does. */
    PAHYNDOI_BAD_ITEM = 15,
    /* The chunk in which the item is due is not below P (P burned chunks). */
    PAHYNDOI_ITEM_NOT_DUE = 16,
    /* The item has another chunk number or ratchet offset than is due, or is a
       restart where no chunk was cut or with another number than the cut chunk
       had items. */
    PAHYNDOI_WRONG_PLACE = 17,
    /* The entry names no phase of the store, has a data length outside 1 to
       the data limit, or reaches past its phase's length. */
    PAHYNDOI_BAD_AREA = 18,
    /* The entry begins below the end of its phase's covered bytes. */
    PAHYNDOI_AREA_SHARED = 19,
    /* The entry begins beyond the end of its phase's covered bytes. */
    PAHYNDOI_AREA_BEYOND = 20,
    /* The item's tag is not the one that its key gives for its message. */
    PAHYNDOI_WRONG_TAG = 21,
    /* After the last item chunk P at offset 0 is not what is due (P burned
       chunks). */
    PAHYNDOI_ITEMS_MISSING = 22,
    /* Some phase's log is not covered up to its length. */
    PAHYNDOI_NOT_COVERED = 23,
    /* The phase is not one of the store's, or the offset is not below the
       phase's length. */
    PAHYNDOI_NO_SUCH_BYTE = 24,
    /* The plan has more than 64 counts, a count above 65,536, or a chunk count
       outside 1 to 1,024. */
    PAHYNDOI_BAD_PLAN = 25,
    /* A tag of fewer than 16 or more than 32 bytes is wanted. */
    PAHYNDOI_BAD_TAG_LENGTH = 26,
    /* Restart is given a number outside 1 to N - 1 (N keys from each chunk), a
       state whose offset is not 0, or a store with no burned chunk. */
    PAHYNDOI_BAD_RESTART = 27
};

/*
 * The sealing state: chunk and offset say which key is next, key is that key
 * if offset is above 0, lengths has a log length for each phase, and
 * seal_length is how much of the seal memory is used. The caller keeps it and
 * lends it to each call; set it to zeros before its first use, or have open
 * fill it. Above offset 0 it holds a secret key.
 *
 * A state fits a store and a seal memory if all of this holds:
 *  - offset is below N;
 *  - at offset 0: chunk is the chunk count, or it is less and that chunk is
 *    not burned;
 *  - above offset 0: chunk is less than the chunk count, and that chunk is
 *    burned;
 *  - no length is above the log capacity, and those of phases that the store
 *    does not have are 0;
 *  - seal_length is at most the size of the seal memory.
 * Any key fits.
 */
struct pahyndoi_state {
    uint32_t chunk;
    uint32_t offset;
    uint8_t key[32];
    uint32_t lengths[8];
    uint64_t seal_length;
};
typedef struct pahyndoi_state pahyndoi_state;

/*
 * Opens a key store. Whatever the state was before, its chunk becomes the
 * first that is not burned (the chunk count if all are), its offset 0 and its
 * key zeros; lengths and seal_length are those given, with zeros behind the
 * last phase's length. The number answered is 0.
 *
 * Refused in this order: 2, 3, 4, 5, 6 (of 6, a seal length above seal_size
 * alone). A refused open leaves a state of zeros: half way through a chunk it
 * takes the state as a power cut does, and the remedy is the same.
 *
 * Open with the lengths reached: those of the state after the last call that
 * was not refused. Where a state was lost with a chunk half used, as by a power
 * cut, the keys left in that chunk are gone, and a restart is due before the
 * next append: see pahyndoi_restart. Open can't tell, since a half-used chunk
 * is burned like any other. Where you can, close before the state is lost.
 *
 * lengths_count counts entries, not bytes. Only the state is written.
 */
uint64_t pahyndoi_open(pahyndoi_state *state,
                       const uint8_t *store, size_t store_size,
                       const uint8_t *logs, size_t logs_size,
                       const uint32_t *lengths, size_t lengths_count,
                       const uint8_t *seal, size_t seal_size,
                       uint64_t seal_length);

/*
 * Copies the data behind the log of the phase (1 is the first), writes one
 * entry item, 18 bytes and the tag, behind the seal file, sets the chunk in the
 * store to zeros if the offset was 0, and brings the state up to date. The
 * number answered is chunk times N plus offset as the state had them: that of
 * the item, counted from 0, where the calls are a history (docs/FORMAT.md, 10)
 * with no restart; behind a restart it is more.
 *
 * Refused in this order: 2, 3, 6, 7, 8, 9, 10, 11. A refused append alters
 * neither state nor store, logs or seal, and answers the number 0.
 *
 * state, store, logs and seal are written; all bytes but the named ones stay as
 * they are. The data are only read.
 */
uint64_t pahyndoi_append(pahyndoi_state *state,
                         uint8_t *store, size_t store_size,
                         uint8_t *logs, size_t logs_size,
                         uint8_t *seal, size_t seal_size,
                         uint8_t phase,
                         const uint8_t *data, size_t data_size);

/*
 * Writes filler items, each 9 bytes and the tag, behind the seal file until
 * every key of the half-used chunk is used, and brings the state up to date: it
 * then has offset 0 and a key of zeros. Where the offset is 0 it writes nothing
 * and leaves the state as it is. The number answered is that of the fillers.
 *
 * Refused in this order: 2, 3, 6, 10. A refused close alters neither state nor
 * seal, and answers the number 0.
 *
 * state and seal are written. Store and logs are only read.
 */
uint64_t pahyndoi_close(pahyndoi_state *state,
                        const uint8_t *store, size_t store_size,
                        const uint8_t *logs, size_t logs_size,
                        uint8_t *seal, size_t seal_size);

/*
 * Goes on behind a chunk whose state a power cut took, and with it the keys
 * left. Writes one restart item, 13 bytes and the tag, behind the seal file,
 * sealed by the first key of the state's chunk, which open has made the first
 * that is not burned; sets that chunk in the store to zeros, and brings the
 * state up to date as append does. The item holds the number given: how many
 * items the cut chunk had. The number answered is chunk times N plus offset as
 * the state had them, so chunk times N.
 *
 * Refused in this order: 2, 3, 6, 27, 10, 11. A refused restart alters neither
 * state nor store, logs or seal, and answers the number 0.
 *
 * state, store and seal are written; all bytes but the named ones stay as they
 * are. The logs are only read.
 *
 * The cuts meant are those between two calls; a reset that loses the state is
 * one as well. To firmware, a call and the keeping of what it left are one
 * step: let the supply last for both, or write in such a way that after a cut
 * all of it stands or nothing. Of a cut in the middle of a call, with an item
 * half written, or a chunk burned and no item, nothing is said.
 *
 * What firmware does:
 *
 *  1. After each call that is not refused it keeps, where a cut takes nothing,
 *     store, logs and seal as the call left them, and the log lengths and the
 *     seal length of the state, which is lost at a cut. No copy of a burned
 *     chunk may stay, and the state's key is never kept: keys must be gone once
 *     they are used, and memory that lasts may still have them.
 *  2. After a cut it opens with the lengths kept.
 *  3. It walks through the seal file, from byte 0 on, by kinds and the sizes of
 *     the store's set, to the last item, and takes that item's ratchet offset
 *     plus 1. Where this is below N the chunk was half used: firmware restarts
 *     with it as the number. Where it is N the chunk was used up, and where
 *     there is no item nothing was used: then no restart is due. (The state's
 *     offset after the last call that wrote an item is the same number, or 0
 *     where no restart is due. Firmware may keep that as well; not the one
 *     after any other call: after an open it is 0 although a restart may be
 *     due, and a close that writes nothing, or a refused append, leaves it so.)
 *  4. It goes on as after any open.
 *
 * A restart item is an item like any other, at ratchet offset 0: where the next
 * cut comes right behind it, the next restart has the number 1.
 *
 * No call refuses these, the audit does, and nothing mends them later:
 *  - an append where a restart is due (17);
 *  - at offset 0, behind a burned chunk, a restart where none is due, or with
 *    another number from 1 to N - 1 (17): restart right after an open, and only
 *    where step 3 says so.
 * The audit refuses as well what is presented while a restart is due (22): a
 * close in its place writes nothing, for after an open the offset is 0.
 * Restart, then close. An open with other lengths than those reached is not
 * refused for that either: open again, with the right ones, before anything is
 * written. Of what is written without that nothing is said.
 *
 * What to plan for:
 *  - The keys left in the cut chunk, up to N - 1, are never used, and the
 *    restart takes a key of the next. pahyndoi_least_ratchet knows of no cuts:
 *    count each as a close, and its restart as an entry behind it.
 *  - Where the cut chunk was the card's last, there is no next: restart is
 *    refused by 11, or by 10, which comes first, where the seal memory has no
 *    room either, and the audit refuses what comes home by 22. Collect the card
 *    before its last chunk is begun, or close right behind what takes it.
 *  - The seal memory needs room for the restart item (10). One of
 *    PAHYNDOI_SEAL_SIZE_OF bytes has it.
 *  - With N = 1 no chunk is ever half used, and every restart is refused by 27.
 *
 * What it costs: whoever takes the controller holds the chunks that are left,
 * and can make up a cut. They can drop items from the end of the seal file, as
 * far back as the first one of the last burned chunk, which stays, put a
 * restart behind and seal what they like; the audit accepts that. So up to
 * N - 1 items of the last burned chunk are not safe from being dropped. Its
 * first, and all before, are. A close alone does not help: the chunk stays the
 * last burned one, until the next entry begins another. Take a smaller N, or,
 * where entries must be safe at once, close and append one more.
 */
uint64_t pahyndoi_restart(pahyndoi_state *state,
                          uint8_t *store, size_t store_size,
                          const uint8_t *logs, size_t logs_size,
                          uint8_t *seal, size_t seal_size,
                          uint32_t number);

/*
 * Audits a device's store, logs and seal file against the auditor's copy of
 * the unused store. The number answered is the count of items where nothing is
 * refused (P times N where no restart is among them), the refused item's,
 * counted from 0, with refusals 15 to 21, and 0 with the others.
 *
 * Refused in this order: 2 to 5 and 12 to 14; then 15 to 21 for one item
 * before the next; then 22 and 23.
 *
 * In accepted material the entries of a phase stand in the seal file in the
 * order of their data in the log: the first begins at 0, each other where the
 * one before it ends (19, 20), and the last ends at the phase's length (23). So
 * whoever looks for a byte of a phase can stop at the first entry of that phase
 * that ends beyond the byte's offset: it holds the byte.
 *
 * The set is the device store's, which is the auditor's as well or is refused
 * (13): nobody gets shorter tags accepted than the auditor's store says.
 *
 * lengths is 4 bytes a phase, little-endian, and lengths_size counts bytes:
 * another count than 4 times the phases gives refusal 5 in its place in the
 * order. seal is the seal file alone, so seal_size is the state's seal_length
 * and not the size of the seal memory. Everything is only read.
 */
uint64_t pahyndoi_audit(const uint8_t *device, size_t device_size,
                        const uint8_t *auditor, size_t auditor_size,
                        const uint8_t *logs, size_t logs_size,
                        const uint8_t *lengths, size_t lengths_size,
                        const uint8_t *seal, size_t seal_size);

/*
 * Which item sealed the byte at the offset of the phase's log (1 is the first
 * phase): audits the material, then looks for the entry whose area holds the
 * byte. In accepted material exactly one does; the number answered is that of
 * this item, counted from 0.
 *
 * What the audit refuses is refused so, with the number that the audit
 * answers; then comes 24, with the number 0. Material and lengths are lent as
 * to the audit. Everything is only read.
 */
uint64_t pahyndoi_item_at(const uint8_t *device, size_t device_size,
                          const uint8_t *auditor, size_t auditor_size,
                          const uint8_t *logs, size_t logs_size,
                          const uint8_t *lengths, size_t lengths_size,
                          const uint8_t *seal, size_t seal_size,
                          uint8_t phase, uint32_t offset);

/*
 * Where the data of that item stand in the log memory, all of them and not
 * only the byte asked for: the answer is the place of their first byte in logs
 * times 2 to the 32, plus how many they are (1 to the data limit). It is 0
 * where pahyndoi_item_at, handed the same, is refused, and only there; that
 * call says by which rule. Everything is only read.
 */
uint64_t pahyndoi_data_at(const uint8_t *device, size_t device_size,
                          const uint8_t *auditor, size_t auditor_size,
                          const uint8_t *logs, size_t logs_size,
                          const uint8_t *lengths, size_t lengths_size,
                          const uint8_t *seal, size_t seal_size,
                          uint8_t phase, uint32_t offset);

/* The two halves of what pahyndoi_data_at answers. */
#define PAHYNDOI_PLACE(answer) ((uint32_t)((uint64_t)(answer) >> 32))
#define PAHYNDOI_LENGTH(answer) ((uint32_t)(uint64_t)(answer))

/*
 * The least ratchet N with which the chunks of a card last. counts says how
 * many entries will be appended before each close, for each close to come, and
 * chunks how many chunks fit the card. So many entries and a close burn count /
 * N chunks, rounded up. The number answered is the least N from 1 to 256 for
 * which these quotients together are at most chunks, 0 where there is none: the
 * card is then too small for any N. A count may be 0. An empty list needs 1.
 *
 * It speaks of chunks alone, and is the same for every set. The logs of a card
 * take the log capacity for each phase, so in kind 1 never more than 65,536
 * entries; the seal memory needs 18 bytes and the tag for an entry, 9 and the
 * tag for a filler. It knows of no cuts: see pahyndoi_restart.
 *
 * Refused in this order: 25. The number is then 0.
 *
 * counts_count is how many counts there are, not bytes. Everything is only
 * read.
 */
uint64_t pahyndoi_least_ratchet(const uint32_t *counts, size_t counts_count,
                                uint32_t chunks);

/* ---- Stack and registers ---- */

/*
 * The proofs speak of what a call answers and of what it is lent. Dead stack,
 * which a call has used below its caller's frame, and registers are outside
 * every proof. No call clears them. Until other code overwrites them, they may
 * hold, whole or in pieces, after
 *
 *   open, least_ratchet    no key of its own; what earlier calls left stays;
 *   append, restart        the key that sealed the item (at offset 0 the chunk
 *                          that it burned), and the key that the state holds;
 *   close                  the keys that sealed the fillers;
 *   append, close,         the key that the state holds;
 *   restart refused
 *   audit, item_at,        the auditor's keys of the items that the audit came
 *   data_at                to, and the key due after them;
 *   hmac_sha256            the key, or its digest if it is over 64 bytes, the
 *                          whole tag, also where less of it is wanted, and
 *                          what sha256 leaves;
 *   sha256                 the end of the message, and hash values on the way.
 *
 * A key may stand there as it is, masked with a pad of HMAC (0x36 or 0x5c), or
 * as the hash values after its two masked blocks. These two are as good as the
 * key: whoever has them makes its tags, and the next key of the chunk.
 *
 * The scheme lives on keys that are gone: overwrite the dead stack after each
 * open, append, close and restart, refused or not. examples/wipe_stack.h does
 * so.
 */

/*
 * The stack that a call uses at most, in bytes below the caller's frame, with
 * arguments and return address: open, append, close and restart; audit, item_at
 * and data_at; sha256, hmac_sha256 and least_ratchet. None depends on the set.
 * Measured and read off the machine code for the archive as rt lib builds it
 * for x86-64, with 380 bytes and more to spare for memcpy and memset; not
 * proved. Running out of stack is outside the proofs as well.
 *
 * Link memcpy and memset statically or with -z now. A dynamic linker that
 * looks them up at their first call saves registers kilobytes deeper.
 */
#define PAHYNDOI_SEALING_STACK 3072
#define PAHYNDOI_AUDIT_STACK 3840
#define PAHYNDOI_HASH_STACK 2048

#ifdef __cplusplus
}
#endif

#endif
