/* Yellopard beside BuDDy on the same work. README.md says what is measured and how to read the two tables. */
#include "draw.h"
#include "measure.h"

#include <math.h>
#include <stdio.h>

/* ---- cases, named by the numbers they are drawn from */

static Case named(const char *kind, int x, int y, Case c)
{
    if (y)
        snprintf(c.name, sizeof c.name, "%s %d x %d", kind, x, y);
    else
        snprintf(c.name, sizeof c.name, "%s %d", kind, x);
    return c;
}

static Case lanes(int count, int bins, Call call, int room)
{
    return named("lanes", count, bins, (Case){ "", call, room, draw_lanes(count, bins), draw_changed_lanes(count, bins) });
}

static Case counter(int bits, Call call, int room)
{
    Sheet a = draw_counter(bits);
    return named("counter", bits, 0, (Case){ "", call, room, a, redraw(&a, 5) });
}

static Case adder(int bits, Call call, int room)
{
    Sheet a = draw_adder(bits, bits);
    return named("adding counter", bits, 0, (Case){ "", call, room, a, redraw(&a, 3) });
}

static Case parity(int registers, int inputs, Call call, int room)
{
    Sheet a = draw_parity(registers, inputs), b = draw_parity_tree(registers, inputs);
    return named("parity", registers, inputs, (Case){ "", call, room, a, b });
}

static Case small_random(int seed, int room)
{
    Sheet a = draw_random((unsigned)seed, 4, 6, 20);
    return named("random, small", seed, 0, (Case){ "", REFINE, room, a, redraw(&a, (unsigned)seed) });
}

static Case large_random(int seed, int room)
{
    Sheet a = draw_random((unsigned)seed, 6, 9, 35);
    return named("random, large", seed, 0, (Case){ "", REFINE, room, a, redraw(&a, (unsigned)seed) });
}

/* ---- the two tables */

static void diagram_line(const Case *c, const Measure *m)
{
    Times t = m->times;
    double nodes = (double)m->counts.nodes, combinations = (double)m->counts.combinations;
    printf("| %-12s | %5d | %5ld | %6ld ", c->name, c->room, m->counts.nodes, m->counts.combinations);
    printf("| %5.0f | %5.0f | %5.0f | %4.2f | %4.2f ", t.ours, t.emptied, t.keeping, t.ours / t.emptied, t.ours / t.keeping);
    printf("| %3.0f | %2.0f ", 1e3 * t.ours / nodes, 1e3 * t.ours / combinations);
    printf("| %4.1f | %4.1f | %4.1f | %4.1f |\n", nodes / t.ours, nodes / t.keeping, combinations / t.ours, combinations / t.keeping);
}

static void diagrams(void)
{
    const Case cases[] = {
        parity(5, 5, CHECK, SMALL), parity(5, 5, CHECK, LARGE), parity(9, 4, CHECK, LARGE),
        counter(5, CHECK, SMALL), counter(5, CHECK, LARGE), counter(10, CHECK, LARGE),
        lanes(1, 5, CHECK, SMALL), lanes(1, 5, CHECK, LARGE), lanes(1, 9, CHECK, LARGE),
    };
    enum { COUNT = sizeof cases / sizeof *cases };
    Measure m[COUNT];
    measure_all(cases, m, COUNT);
    puts("Diagrams: a check, which is one start list and one step list. Times in microseconds; speeds in millions a second, ours and\n"
         "those of BuDDy keeping.\n");
    puts("| case | table | nodes | combinations | ours | BuDDy emptied | BuDDy keeping | to emptied | to keeping | ns a node "
         "| ns a combination | nodes/s | BuDDy's | combinations/s | BuDDy's |");
    puts("|---|--:|--:|--:|--:|--:|--:|--:|--:|--:|--:|--:|--:|--:|--:|");
    for (size_t i = 0; i < COUNT; i++)
        diagram_line(&cases[i], &m[i]);
    fflush(stdout);
}

static void refine_line(const Case *c, const Measure *m)
{
    Times t = m->times;
    int signals = c->a.signals + c->b.signals;
    printf("| %-16s | %5d | %3d | %2d | %5ld ", c->name, c->room, signals, m->verdict.rounds, m->counts.most);
    printf("| %5.0f | %5.0f | %5.0f | %4.2f | %4.2f |\n", t.ours, t.emptied, t.keeping, t.ours / t.emptied, t.ours / t.keeping);
}

static void means(const Measure *m, size_t count)
{
    double to_emptied = 0, to_keeping = 0;
    for (size_t i = 0; i < count; i++) {
        to_emptied += log(m[i].times.ours / m[i].times.emptied);
        to_keeping += log(m[i].times.ours / m[i].times.keeping);
    }
    printf("\nGeometric means of refine's ratios: %.2f to BuDDy emptied, ", exp(to_emptied / (double)count));
    printf("%.2f to BuDDy keeping.\n", exp(to_keeping / (double)count));
}

static void refines(void)
{
    const Case cases[] = {
        lanes(1, 2, REFINE, SMALL), lanes(1, 3, REFINE, SMALL), lanes(1, 5, REFINE, SMALL),
        counter(2, REFINE, SMALL), counter(4, REFINE, SMALL), counter(5, REFINE, SMALL), adder(3, REFINE, SMALL),
        parity(2, 8, REFINE, SMALL), parity(5, 5, REFINE, SMALL),
        small_random(1, SMALL), small_random(2, SMALL), small_random(5, SMALL), large_random(4, SMALL),
        lanes(1, 2, REFINE, LARGE), lanes(1, 5, REFINE, LARGE), lanes(1, 7, REFINE, LARGE), lanes(1, 9, REFINE, LARGE),
        lanes(2, 4, REFINE, LARGE), lanes(4, 2, REFINE, LARGE),
        counter(2, REFINE, LARGE), counter(6, REFINE, LARGE), counter(8, REFINE, LARGE), counter(10, REFINE, LARGE),
        adder(4, REFINE, LARGE), adder(6, REFINE, LARGE),
        parity(2, 8, REFINE, LARGE), parity(6, 8, REFINE, LARGE), parity(8, 8, REFINE, LARGE), parity(9, 4, REFINE, LARGE),
        small_random(1, LARGE), large_random(1, LARGE), large_random(2, LARGE), large_random(3, LARGE), large_random(5, LARGE),
        large_random(11, LARGE),
    };
    enum { COUNT = sizeof cases / sizeof *cases };
    Measure m[COUNT];
    measure_all(cases, m, COUNT);
    puts("\nRefine, from one class. Times in microseconds.\n");
    puts("| case | table | signals | rounds | nodes | ours | BuDDy emptied | BuDDy keeping | to emptied | to keeping |");
    puts("|---|--:|--:|--:|--:|--:|--:|--:|--:|--:|");
    for (size_t i = 0; i < COUNT; i++)
        refine_line(&cases[i], &m[i]);
    means(m, COUNT);
}

int main(void)
{
    diagrams();
    refines();
    return 0;
}
