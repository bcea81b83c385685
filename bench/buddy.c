#include "buddy.h"

#include <bdd.h>
#include <stdio.h>
#include <stdlib.h>

enum { MOST_VARIABLES = 2 * MOST_REGISTERS + 2 * MOST_INPUTS };

static int variable(int level)
{
    return bdd_ithvar(level);
}

static int complement(int f)
{
    return bdd_not(f);
}

static int combine(int operation, int f, int g)
{
    switch (operation) {
    case AND: return bdd_apply(f, g, bddop_and);
    case OR: return bdd_apply(f, g, bddop_or);
    case XOR: return bdd_apply(f, g, bddop_xor);
    default: return bdd_apply(f, g, bddop_biimp);
    }
}

static void hold(int f)
{
    bdd_addref(f);
}

static void drop(int f)
{
    bdd_delref(f);
}

const Package buddy_emptied = { variable, complement, combine, hold, drop, bdd_gbc };
const Package buddy_keeping = { variable, complement, combine, hold, drop, NULL };

static void stop(int error)
{
    fprintf(stderr, "BuDDy: %s\n", bdd_errstring(error));
    exit(2);
}

void buddy_open(int nodes, int cache)
{
    bdd_init(nodes, cache);
    bdd_error_hook(stop);
    bdd_gbc_hook(NULL);
    bdd_resize_hook(NULL);
    bdd_setvarnum(MOST_VARIABLES);
}

void buddy_close(void)
{
    bdd_done();
}

void buddy_collect(void)
{
    bdd_gbc();
}
