/* The checks. Each ends the program by fail if it does not hold. */

#ifndef CHECKS_H
#define CHECKS_H

/* Whether what is measured and found is listed as well. */
extern int listing;

void fail(const char *format, ...);

/* With no set does a call go deeper than the figure of pahyndoi.h. */
void check_figures(void);

/* The wipe overwrites every byte that a sealing call may have touched. */
void check_wipe(void);

/* The search sees each form of a key, and after a wipe it does not. */
void check_search(void);

/* With every set keys stand in the dead stack after a call, and after its wipe no piece of one in
   any form. */
void check_keys(int wiped);

#endif
