/* One case on both sides: the answers held to each other, and the times taken in turn. */
#ifndef MEASURE_H
#define MEASURE_H

#include "lists.h"
#include "plain.h"

/* The two sizes of table that are lent, in nodes. */
enum { SMALL = 3000, LARGE = 60000 };

typedef enum { CHECK, REFINE } Call;

/* A refine starts from one class; a check has the grouping that refine finds, so that both of its lists are worked. */
typedef struct {
    char name[32];
    Call call;
    int room;
    Sheet a, b;
} Case;

/* In microseconds of this process, the least of all repetitions: ours, and BuDDy's with each list from an emptied table, and keeping
   all it has from list to list. */
typedef struct {
    double ours, emptied, keeping;
} Times;

typedef struct {
    Verdict verdict;
    Counts counts;
    Times times;
} Measure;

/* Each case once in each pass, so that what else the machine does for a while spoils no line; the least times of all passes. Ends the
   program where the library, BuDDy and the plain package do not agree. */
void measure_all(const Case *cases, Measure *measures, size_t count);

#endif
