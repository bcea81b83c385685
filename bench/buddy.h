/* BuDDy as a package of diagrams. */
#ifndef BUDDY_H
#define BUDDY_H

#include "lists.h"

/* Each list starts from an emptied table, as the paper has it: BuDDy collects all that is dead, and empties its caches. */
extern const Package buddy_emptied;

/* Nothing is emptied in a call: what the lists share is made once, and BuDDy keeps all nodes and results from list to list. */
extern const Package buddy_keeping;

void buddy_open(int nodes, int cache);
void buddy_close(void);

/* One collection, after which BuDDy remembers nothing of the calls before. */
void buddy_collect(void);

#endif
