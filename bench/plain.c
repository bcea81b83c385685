#include "plain.h"

#include <stdint.h>
#include <stdio.h>
#include <stdlib.h>
#include <string.h>

enum { MOST_NODES = 1 << 20, SLOTS = 1 << 22, BELOW_ALL = 1 << 10 };

/* A node tests the variable of its level; constants stand below all levels. */
typedef struct {
    int level, low, high;
} Node;

/* An open hash table from keys to numbers; key 0 is an empty slot. */
typedef struct {
    uint64_t key[SLOTS];
    int value[SLOTS];
    long filled;
} Map;

static Node node[MOST_NODES];
static int used;
static Map nodes, results;
static Counts counts;

static uint64_t key_of(uint64_t tag, int a, int b)
{
    return (tag + 1) << 48 | (uint64_t)a << 24 | (uint64_t)b;
}

static size_t slot_of(const Map *map, uint64_t key)
{
    size_t i = (key * 0x9e3779b97f4a7c15u) >> 42;
    while (map->key[i] && map->key[i] != key)
        i = (i + 1) % SLOTS;
    return i;
}

static int fill(Map *map, size_t i, uint64_t key, int value)
{
    if (++map->filled > SLOTS / 4 * 3) {
        fprintf(stderr, "the plain package is full\n");
        exit(2);
    }
    map->key[i] = key;
    map->value[i] = value;
    return value;
}

static void empty(Map *map)
{
    memset(map->key, 0, sizeof map->key);
    map->filled = 0;
}

static int make(int level, int low, int high)
{
    if (low == high)
        return low;
    uint64_t key = key_of((uint64_t)level, low, high);
    size_t i = slot_of(&nodes, key);
    if (nodes.key[i])
        return nodes.value[i];
    if (used == MOST_NODES - 2) {
        fprintf(stderr, "the plain package is full\n");
        exit(2);
    }
    node[used + 2] = (Node){ level, low, high };
    return fill(&nodes, i, key, 2 + used++);
}

static int variable(int level)
{
    return make(level, 0, 1);
}

/* The answer that needs no recursion, or -1. A complement is equality with 0. */
static int early(int operation, int f, int g)
{
    switch (operation) {
    case AND: return f == 0 || g == 0 ? 0 : f == 1 ? g : g == 1 || f == g ? f : -1;
    case OR: return f == 1 || g == 1 ? 1 : f == 0 ? g : g == 0 || f == g ? f : -1;
    case XOR: return f == g ? 0 : f == 0 ? g : g == 0 ? f : -1;
    default: return f == g ? 1 : f == 1 ? g : g == 1 ? f : -1;
    }
}

static int level_of(int f)
{
    return f < 2 ? BELOW_ALL : node[f].level;
}

static int branch(int f, int level, int high)
{
    if (level_of(f) != level)
        return f;
    return high ? node[f].high : node[f].low;
}

static int combine(int operation, int f, int g)
{
    int known = early(operation, f, g);
    if (known >= 0)
        return known;
    uint64_t key = f < g ? key_of((uint64_t)operation, f, g) : key_of((uint64_t)operation, g, f);
    size_t i = slot_of(&results, key);
    if (results.key[i])
        return results.value[i];
    int level = level_of(f) < level_of(g) ? level_of(f) : level_of(g);
    int low = combine(operation, branch(f, level, 0), branch(g, level, 0));
    int high = combine(operation, branch(f, level, 1), branch(g, level, 1));
    /* The recursion may have taken the slot. */
    return fill(&results, slot_of(&results, key), key, make(level, low, high));
}

static int complement(int f)
{
    return combine(EQUAL, f, 0);
}

static void nothing(int f)
{
    (void)f;
}

/* Counts the list that ends here, and empties all for the next. */
static void begin(void)
{
    counts.most = used > counts.most ? used : counts.most;
    counts.nodes += used;
    counts.combinations += results.filled;
    used = 0;
    empty(&nodes);
    empty(&results);
}

const Package plain = { variable, complement, combine, nothing, nothing, begin };

void plain_reset(void)
{
    begin();
    counts = (Counts){ 0, 0, 0 };
}

Counts plain_counts(void)
{
    begin();
    return counts;
}
