/*
 * What the calls leave below their caller's frame, how deep they go, and that the example's wipe
 * removes it, on a painted stack. With an argument it lists what was measured and found.
 */

#include <stdarg.h>
#include <stdio.h>
#include <stdlib.h>

#include "checks.h"

int listing;

void fail(const char *format, ...)
{
    va_list arguments;
    va_start(arguments, format);
    fprintf(stderr, "dead stack: ");
    vfprintf(stderr, format, arguments);
    fprintf(stderr, "\n");
    va_end(arguments);
    exit(1);
}

int main(int count, char **arguments)
{
    (void)arguments;
    listing = count > 1;
    check_figures();
    check_wipe();
    check_search();
    check_keys(0);
    check_keys(1);
    printf("dead stack: keys without the wipe, none after it, no call deeper than its figure\n");
    return 0;
}
