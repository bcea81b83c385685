#define _POSIX_C_SOURCE 200809L

#include "measure.h"

#include "../include/yellopard.h"
#include "buddy.h"

#include <stdint.h>
#include <stdio.h>
#include <stdlib.h>
#include <string.h>
#include <time.h>

enum { NODE_WORDS = 10, ROW = 5 };

/* Repetitions of a case in a pass: they end after LEAST of them once the case has had ENOUGH microseconds, and after MOST in any case. */
enum { PASSES = 3, LEAST = 3, MOST = 500 };
static const double ENOUGH = 0.35e6;

typedef struct {
    unsigned char a[MOST_SHEET_BYTES], b[MOST_SHEET_BYTES], p[MOST_GROUPING_BYTES];
    Files files;
} Work;

typedef struct {
    Verdict verdict;
    long nodes;
    unsigned char grouping[MOST_GROUPING_BYTES];
} Outcome;

static uint16_t table[NODE_WORDS * LARGE];

/* The time of this process alone, so that a busy machine counts for neither side. */
static double now(void)
{
    struct timespec t;
    clock_gettime(CLOCK_PROCESS_CPUTIME_ID, &t);
    return 1e6 * (double)t.tv_sec + 1e-3 * (double)t.tv_nsec;
}

static double lesser(double x, double y)
{
    return x < y ? x : y;
}

static void stop(const Case *c, const char *what)
{
    fprintf(stderr, "%s: %s\n", c->name, what);
    exit(1);
}

/* ---- one call on each side */

static Outcome ours(const Case *c, const Work *w)
{
    Outcome o = { 0 };
    uint64_t row[ROW];
    const Files *f = &w->files;
    size_t words = (size_t)NODE_WORDS * (size_t)c->room, numbers;
    if (c->call == CHECK)
        numbers = yellopard_check(f->a, f->a_length, f->b, f->b_length, f->p, f->p_length, table, words, row, ROW);
    else
        numbers = yellopard_refine(f->a, f->a_length, f->b, f->b_length, f->p, f->p_length, table, words, o.grouping,
                                   sizeof o.grouping, row, ROW);
    if (numbers != ROW)
        stop(c, "the library refuses this case");
    o.verdict = (Verdict){ row[0] == 0, (int)row[1], (int)row[2], (int)row[3] };
    o.nodes = (long)row[4];
    return o;
}

static Outcome worked_on(const Package *package, const Case *c, const Work *w)
{
    Outcome o = { 0 };
    o.verdict = c->call == CHECK ? check_on(package, &w->files) : refine_on(package, &w->files, o.grouping);
    return o;
}

static int same(const Outcome *x, const Outcome *y)
{
    return memcmp(&x->verdict, &y->verdict, sizeof x->verdict) == 0
        && memcmp(x->grouping, y->grouping, sizeof x->grouping) == 0;
}

/* ---- a case */

static void put_files(const Case *c, Work *w)
{
    int n = c->a.signals + c->b.signals;
    for (int v = 0; v < n; v++) {
        w->p[2 * v] = CLASS;
        w->p[2 * v + 1] = 0;
    }
    w->p[2 * n] = END;
    w->files = (Files){ w->a, w->b, w->p, sheet_write(&c->a, w->a), sheet_write(&c->b, w->b), 2 * (size_t)n + 1 };
    if (c->call == CHECK) {
        unsigned char found[MOST_GROUPING_BYTES];
        refine_on(&plain, &w->files, found);
        memcpy(w->p, found, w->files.p_length);
    }
}

static void agree(const Case *c, const Outcome *x, const Outcome *y, const Outcome *expected)
{
    if (!same(x, expected) || x->nodes != expected->nodes)
        stop(c, "the library and the plain package do not agree");
    if (!same(y, expected))
        stop(c, "BuDDy and the plain package do not agree");
}

/* Ours and theirs in turn. Each call of BuDDy's begins with empty caches and no dead nodes, as a call on another pair of boards would
   find it: else it would remember the answers of the call before. That collection is no part of its time. */
static double in_turn(const Case *c, const Work *w, const Outcome *expected, const Package *package, double *best_of_ours)
{
    double best = 1e18, began = now();
    for (int i = 0; i < MOST && (i < LEAST || now() - began < ENOUGH); i++) {
        double t0 = now();
        Outcome x = ours(c, w);
        double t1 = now();
        buddy_collect();
        double t2 = now();
        Outcome y = worked_on(package, c, w);
        double t3 = now();
        *best_of_ours = lesser(*best_of_ours, t1 - t0);
        best = lesser(best, t3 - t2);
        agree(c, &x, &y, expected);
    }
    return best;
}

/* BuDDy has the sizes at which it was fastest of those tried. Where each list is emptied a collection costs what the table and the caches
   have, so they are as small as the case allows; where all is kept, they are large enough to keep it. */
static Times both_in_turn(const Case *c, const Work *w, const Outcome *expected)
{
    Times best = { 1e18, 0, 0 };
    int small = c->room <= SMALL;
    buddy_open(small ? 4000 : 61000, small ? 2000 : 6000);
    best.emptied = in_turn(c, w, expected, &buddy_emptied, &best.ours);
    buddy_close();
    buddy_open(small ? 10000 : 100000, small ? 10000 : 100000);
    best.keeping = in_turn(c, w, expected, &buddy_keeping, &best.ours);
    buddy_close();
    return best;
}

static Measure measure(const Case *c)
{
    Work w;
    Measure m;
    put_files(c, &w);
    plain_reset();
    Outcome expected = worked_on(&plain, c, &w);
    m.verdict = expected.verdict;
    m.counts = plain_counts();
    expected.nodes = m.counts.most;
    m.times = both_in_turn(c, &w, &expected);
    return m;
}

static void keep_lesser(Times *best, Times more)
{
    best->ours = lesser(best->ours, more.ours);
    best->emptied = lesser(best->emptied, more.emptied);
    best->keeping = lesser(best->keeping, more.keeping);
}

void measure_all(const Case *cases, Measure *measures, size_t count)
{
    for (size_t i = 0; i < count; i++)
        measures[i] = measure(&cases[i]);
    for (int pass = 1; pass < PASSES; pass++)
        for (size_t i = 0; i < count; i++)
            keep_lesser(&measures[i].times, measure(&cases[i]).times);
}
