/*
 * Overwrites the dead stack below its caller, where a sealing call leaves keys (see "Stack and
 * registers" in pahyndoi.h). C99, for gcc and clang.
 */

#ifndef WIPE_STACK_H
#define WIPE_STACK_H

#include <stddef.h>
#include <stdint.h>

#include "pahyndoi.h"

#define NEVER_INLINED __attribute__((noinline))

/* Sets the registers that a call may use to zeros as well, where the compiler can: gcc from 11 on,
   clang from 15 on. */
#ifdef __has_attribute
#if __has_attribute(zero_call_used_regs)
#define ZEROES_REGISTERS __attribute__((zero_call_used_regs("all")))
#endif
#endif
#ifndef ZEROES_REGISTERS
#define ZEROES_REGISTERS
#define REGISTERS_STAY
#endif

/* What the functions between the caller of wipe_stack and the library's call use. Measure yours,
   and add what interrupt and signal handlers use that run on the same stack: they save registers
   there. */
#define WRAPPERS_STACK 512

/*
 * Make each sealing call in a function of its own that is never inlined, and call wipe_stack where
 * that function returns to, before anything else. The library's frames then begin below a frame of
 * yours. They have to: the array begins some bytes below the caller's frame (return address, saved
 * registers, alignment), and what a call leaves in the alignment would stay.
 *
 * The writes are volatile. The compiler removes a memset of a local array, since nobody reads the
 * array before it ends with the function. And if wipe_stack were inlined, its array would lie in
 * the caller's frame, beside the dead stack.
 */
static NEVER_INLINED ZEROES_REGISTERS void wipe_stack(void)
{
    volatile uint64_t dead[(PAHYNDOI_SEALING_STACK + WRAPPERS_STACK) / sizeof(uint64_t)];
    for (size_t i = 0; i < sizeof dead / sizeof dead[0]; i++)
        dead[i] = 0;
}

#endif
