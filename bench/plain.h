/* A plain package of diagrams that counts. Each list starts empty; every result is remembered, so that no combination is done twice. */
#ifndef PLAIN_H
#define PLAIN_H

#include "lists.h"

extern const Package plain;

/* Over the lists worked since plain_reset: the greatest number of nodes, all nodes made, and all combinations. A combination is an
   operation on two diagrams, or a complement of one, that no constant and no equality of its operands answers at once. */
typedef struct {
    long most, nodes, combinations;
} Counts;

void plain_reset(void);
Counts plain_counts(void);

#endif
