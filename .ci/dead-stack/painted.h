/* A stack of the test's own, which it can paint before a call and read after it. */

#ifndef PAINTED_H
#define PAINTED_H

#include <stddef.h>
#include <stdint.h>

#define PAINT 0xa5

/* Paints the whole stack in one colour. */
void paint(uint8_t colour);

/* Runs the job on the stack, and the wipe after it from the same frame if asked to. */
void run(void (*job)(void), int wiped);

/* The part of the stack from the deepest byte that has lost its paint up to the end. */
const uint8_t *touched(void);
size_t touched_size(void);

/* The vector registers as they stood after the job or its wipe; none where the wipe leaves them. */
const uint8_t *vectors(void);
size_t vectors_size(void);

/* How far below the frame that called the job the deepest touched byte lies. */
size_t depth(void);

#endif
