/* The start list, the step lists and the calls check and refine, written once over any package of decision diagrams. Beneath it stand
   BuDDy, for its time, and a plain package that counts. */
#ifndef LISTS_H
#define LISTS_H

#include "sheet.h"

/* One more operation beside the gates'. */
enum { EQUAL = 9 };

/* A diagram is a number; two are the same function exactly when their numbers are equal. */
typedef struct {
    int (*variable)(int level);
    int (*complement)(int f);
    int (*combine)(int operation, int f, int g);
    /* A function that is kept is held until it is dropped. */
    void (*hold)(int f);
    void (*drop)(int f);
    /* A list begins. NULL: what the lists share is kept from list to list. */
    void (*begin)(void);
} Package;

/* Constants are the numbers 0 and 1 in every package. */

typedef struct {
    int equivalent, reason, index, rounds;
} Verdict;

typedef struct {
    const unsigned char *a, *b, *p;
    size_t a_length, b_length, p_length;
} Files;

Verdict check_on(const Package *package, const Files *files);

/* Writes the grouping, as the library does. */
Verdict refine_on(const Package *package, const Files *files, unsigned char *result);

#endif
