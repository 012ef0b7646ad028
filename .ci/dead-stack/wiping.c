#include "checks.h"

#include <stdio.h>
#include <string.h>

#include "device.h"
#include "painted.h"

static const uint8_t *frame_end;

/* In pahyndoi_close's place: where its frame ends, the return address included. Open, append and
   restart are handed more on the stack, so that their frames end deeper. */
static uint64_t frame_of_close(pahyndoi_state *s, const uint8_t *a, size_t a_size,
                               const uint8_t *b, size_t b_size, uint8_t *c, size_t c_size)
{
    (void)s, (void)a, (void)a_size, (void)b, (void)b_size, (void)c, (void)c_size;
    frame_end = (const uint8_t *)__builtin_frame_address(0) + 2 * sizeof(void *);
    return 0;
}

static void nothing(void)
{
}

/* A byte that keeps two colours was not written. */
void check_wipe(void)
{
    static const uint8_t colours[] = {PAINT, (uint8_t)~PAINT};
    static int kept[PAHYNDOI_SEALING_STACK];
    close_function = frame_of_close;
    run(close_job, 0);
    close_function = pahyndoi_close;
    for (size_t c = 0; c < sizeof colours; c++) {
        paint(colours[c]);
        run(nothing, 1);
        for (size_t i = 0; i < PAHYNDOI_SEALING_STACK; i++)
            kept[i] += frame_end[-1 - (ptrdiff_t)i] == colours[c];
    }
    for (size_t i = 0; i < PAHYNDOI_SEALING_STACK; i++)
        if (kept[i] == sizeof colours)
            fail("the wipe leaves byte %zu below the end of close's frame", i + 1);
}

/* The longest piece of a key in any form that stands in the memory, and the form. */
static size_t found(size_t key, const char *where, const uint8_t *memory, size_t size,
                    size_t *form)
{
    size_t longest = 0;
    for (size_t f = 0; f < FORMS; f++) {
        size_t piece = piece_found(secrets[key].forms[f], memory, size);
        if (listing && piece != 0)
            printf("  %s: %zu bytes of key %zu: %s\n", where, piece, key, form_names[f]);
        if (piece > longest) {
            longest = piece;
            *form = f;
        }
    }
    return longest;
}

static const uint8_t *planted;
static void *(*volatile copy)(void *, const void *, size_t) = memcpy;

/* Leaves half of a value in its dead frame: as deep as that of a library's call, and in one piece
   since the compiler does not know what copy does. */
static void plant(void)
{
    uint8_t array[128];
    copy(array, planted + KEY_SIZE / 2, KEY_SIZE / 2);
}

/* The search finds each form, and what it finds is gone after a wipe. */
void check_search(void)
{
    unused_device(4);
    for (size_t f = 0; f < FORMS; f++) {
        planted = secrets[0].forms[f];
        paint(PAINT);
        run(plant, 0);
        if (piece_found(planted, touched(), touched_size()) == 0)
            fail("the search does not see what was planted: %s", form_names[f]);
        run(nothing, 1);
        if (piece_found(planted, touched(), touched_size()) != 0)
            fail("the wipe leaves what was planted: %s", form_names[f]);
    }
}

enum { LONGEST = PAHYNDOI_LARGEST_DATA_LIMIT };

/* Calls of a device: each with the size of the data, where it appends, or the most that the set
   allows. The last open but one comes behind a power cut, half way through a chunk. */
static const struct step {
    const char *name;
    void (*job)(void);
    size_t size;
} steps[] = {
    {"open", open_job, 0},      {"append", append_job, 1},       {"append", append_job, LONGEST},
    {"append", append_job, 20}, {"append", append_job, 64},      {"append", append_job, LONGEST},
    {"append", append_job, 2},  {"close", close_job, 0},         {"open", open_job, 0},
    {"append", append_job, 40}, {"append", append_job, LONGEST}, {"append", append_job, 0},
    {"open", open_job, 0},      {"restart", restart_job, 0},     {"restart", restart_job, 0},
    {"append", append_job, 1},  {"close", close_job, 0},         {"open", open_job, 0},
};
enum { CUT_ITEMS = 2 };

static size_t next_item(void)
{
    return (size_t)state.chunk * keys_count / CHUNKS + state.offset;
}

/* Without the wipe the key that sealed the last item is in the dead stack. An open seals none, though
   behind a cut it passes over the keys that are left. */
static void check_left(const struct step *step, size_t before)
{
    size_t form = 0;
    int sealed = step->job != open_job && next_item() != before;
    for (size_t key = 0; key < keys_count; key++) {
        size_t piece = found(key, "stack", touched(), touched_size(), &form);
        if (piece == 0 && key + 1 == next_item() && sealed)
            fail("unwiped, %s left nothing of its last key: the search is blind", step->name);
        if (listing)
            found(key, "registers", vectors(), vectors_size(), &form);
    }
}

/* After the wipe no key is there, used, held or to come. */
static void check_gone(const struct step *step)
{
    size_t form = 0;
    for (size_t key = 0; key < keys_count; key++) {
        size_t on_stack = found(key, "stack", touched(), touched_size(), &form);
        size_t in_registers = found(key, "registers", vectors(), vectors_size(), &form);
        if (on_stack != 0 || in_registers != 0)
            fail("wiped after %s, the %s has a piece of key %zu: %s", step->name,
                 on_stack != 0 ? "stack" : "processor", key, form_names[form]);
    }
}

/* Every append goes to the front of an empty log. */
static void check_steps(int wiped)
{
    unused_device(4);
    cut_items = CUT_ITEMS;
    paint(PAINT);
    for (size_t i = 0; i < sizeof steps / sizeof steps[0]; i++) {
        size_t before = next_item();
        state.lengths[0] = 0;
        data_size = allowed(steps[i].size);
        run(steps[i].job, wiped);
        if (listing)
            printf("%s, %zu bytes, next item %zu%s\n", steps[i].name, data_size, next_item(),
                   wiped ? ", wiped" : "");
        if (wiped)
            check_gone(&steps[i]);
        else
            check_left(&steps[i], before);
    }
    if (state.chunk != CHUNKS || state.offset != 0)
        fail("the steps did not use up the store");
}

void check_keys(int wiped)
{
    for (size_t i = 0; i < SETS; i++) {
        set = &sets[i];
        if (listing)
            printf("kind %u, tags of %u bytes, data of up to %u, logs of %u\n", set->kind,
                   set->tag_length, (unsigned)set->data_limit, (unsigned)set->log_capacity);
        check_steps(wiped);
    }
}
