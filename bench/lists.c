#include "lists.h"

#include <string.h>

typedef int Ids[MOST_JOINT];

typedef struct {
    const Package *package;
    Sheet a, b;
    int n;
    unsigned char plain[MOST_JOINT];
} Pair;

typedef enum { START, NOW, NEXT } Moment;

/* ---- the files */

static void read_pair(Pair *p, const Package *package, const Files *files)
{
    p->package = package;
    sheet_read(files->a, &p->a);
    sheet_read(files->b, &p->b);
    p->n = p->a.signals + p->b.signals;
    sheet_first_values(&p->a, p->plain);
    sheet_first_values(&p->b, p->plain + p->a.signals);
}

/* Any byte is a class number, so the classes are numbered again in order of first member. */
static void read_grouping(const Files *files, int n, int *g)
{
    int number[256], classes = 0;
    memset(number, -1, sizeof number);
    for (int v = 0; v < n; v++) {
        int byte = files->p[2 * v + 1];
        if (number[byte] < 0)
            number[byte] = classes++;
        g[v] = number[byte];
    }
}

static void write_grouping(const int *g, int n, unsigned char *result)
{
    for (int v = 0; v < n; v++) {
        result[2 * v] = CLASS;
        result[2 * v + 1] = (unsigned char)g[v];
    }
    result[2 * n] = END;
}

/* ---- the lists. Every function made is held, so that a package may collect at any time. */

static int held(const Package *package, int f)
{
    package->hold(f);
    return f;
}

static void drop_all(const Package *package, const int *f, int n)
{
    for (int v = 0; v < n; v++)
        package->drop(f[v]);
}

/* f of the signals of one sheet; from has those of the whole sheet now, which its registers take one tick on. */
static void put_sheet(const Package *package, const Sheet *s, Moment moment, int reg, int input, const int *from, int *f)
{
    for (int v = 0; v < s->signals; v++) {
        const Signal *x = &s->signal[v];
        int id;
        if (x->kind == INPUT)
            id = package->variable(input++);
        else if (x->kind == REGISTER)
            id = moment == START ? x->a : moment == NOW ? package->variable(reg++) : from[x->b];
        else if (x->kind == NOT)
            id = package->complement(f[x->a]);
        else
            id = package->combine(x->kind, f[x->a], f[x->b]);
        f[v] = held(package, id);
    }
}

/* Variables in order: A's registers, B's registers, inputs x, inputs y. */
static void put_joint(const Pair *p, Moment moment, const int *from, int *f)
{
    int registers = p->a.registers + p->b.registers;
    int input = registers + (moment == NEXT ? p->a.inputs : 0);
    const int *from_b = from ? from + p->a.signals : NULL;
    put_sheet(p->package, &p->a, moment, 0, input, from, f);
    put_sheet(p->package, &p->b, moment, p->a.registers, input, from_b, f + p->a.signals);
}

static void put_normals(const Pair *p, const int *f, int *h)
{
    for (int v = 0; v < p->n; v++)
        h[v] = held(p->package, p->plain[v] ? f[v] : p->package->complement(f[v]));
}

/* The product of the equalities of each signal with the first of its class; it is held, what led to it is dropped. */
static int put_equals(const Pair *p, const int *g, const int *h)
{
    int first[MOST_JOINT], classes = 0, q = 1;
    for (int v = 0; v < p->n; v++) {
        if (g[v] == classes) {
            first[classes++] = v;
            continue;
        }
        int equal = held(p->package, p->package->combine(EQUAL, h[first[g[v]]], h[v]));
        int product = held(p->package, p->package->combine(AND, q, equal));
        p->package->drop(equal);
        p->package->drop(q);
        q = product;
    }
    return q;
}

static void put_times(const Pair *p, int q, const int *h, int *out)
{
    for (int v = 0; v < p->n; v++)
        out[v] = held(p->package, p->package->combine(AND, q, h[v]));
}

/* ---- groupings */

/* The classes split by id, numbered from 0 in order of first member. Whether any was split. */
static int split(const int *g, const int *ids, int n, int *out)
{
    int classes = 0, changed = 0;
    for (int v = 0; v < n; v++) {
        int u = 0;
        while (u < v && (g[u] != g[v] || ids[u] != ids[v]))
            u++;
        out[v] = u < v ? out[u] : classes++;
        changed |= out[v] != g[v];
    }
    return changed;
}

/* The least signal whose id differs from that of the first of its class, or n. */
static int fault(const int *g, const int *ids, int n)
{
    int first[MOST_JOINT], classes = 0;
    for (int v = 0; v < n; v++) {
        if (g[v] == classes)
            first[classes++] = v;
        if (ids[first[g[v]]] != ids[v])
            return v;
    }
    return n;
}

static Verdict outputs(const Pair *p, const int *g, int rounds)
{
    for (int i = 0; i < p->a.outputs; i++) {
        int u = p->a.output[i], v = p->a.signals + p->b.output[i];
        if (g[u] != g[v] || p->plain[u] != p->plain[v])
            return (Verdict){ 0, 3, i, rounds };
    }
    return (Verdict){ 1, 0, 0, rounds };
}

/* ---- the calls */

/* What the step lists share: all f and h, now and one tick on. */
typedef struct {
    Ids f, h, next_f, next_h;
} Functions;

static void put_functions(const Pair *p, Functions *all)
{
    put_joint(p, NOW, NULL, all->f);
    put_normals(p, all->f, all->h);
    put_joint(p, NEXT, all->f, all->next_f);
    put_normals(p, all->next_f, all->next_h);
}

static void drop_functions(const Pair *p, const Functions *all)
{
    drop_all(p->package, all->f, p->n);
    drop_all(p->package, all->h, p->n);
    drop_all(p->package, all->next_f, p->n);
    drop_all(p->package, all->next_h, p->n);
}

static void start_list(const Pair *p, int *ids)
{
    Ids f;
    if (p->package->begin)
        p->package->begin();
    put_joint(p, START, NULL, f);
    put_normals(p, f, ids);
    drop_all(p->package, f, p->n);
    drop_all(p->package, ids, p->n);
}

/* A package with a beginning works the whole list anew; one without has the functions since the first list. */
static void step_list(const Pair *p, Functions *all, int round, const int *g, int *ids)
{
    if (p->package->begin)
        p->package->begin();
    if (p->package->begin || round == 0)
        put_functions(p, all);
    int q = put_equals(p, g, all->h);
    put_times(p, q, all->next_h, ids);
    p->package->drop(q);
    drop_all(p->package, ids, p->n);
    if (p->package->begin)
        drop_functions(p, all);
}

static void finish(const Pair *p, const Functions *all)
{
    if (!p->package->begin)
        drop_functions(p, all);
}

Verdict check_on(const Package *package, const Files *files)
{
    Pair p;
    Functions all;
    Ids g, ids;
    read_pair(&p, package, files);
    read_grouping(files, p.n, g);
    start_list(&p, ids);
    int v = fault(g, ids, p.n);
    if (v < p.n)
        return (Verdict){ 0, 1, v, 0 };
    step_list(&p, &all, 0, g, ids);
    finish(&p, &all);
    v = fault(g, ids, p.n);
    if (v < p.n)
        return (Verdict){ 0, 2, v, 0 };
    return outputs(&p, g, 0);
}

Verdict refine_on(const Package *package, const Files *files, unsigned char *result)
{
    Pair p;
    Functions all;
    Ids proposal, g, ids, next;
    int rounds = 0;
    read_pair(&p, package, files);
    read_grouping(files, p.n, proposal);
    start_list(&p, ids);
    split(proposal, ids, p.n, g);
    step_list(&p, &all, 0, g, ids);
    while (split(g, ids, p.n, next)) {
        memcpy(g, next, sizeof g);
        step_list(&p, &all, ++rounds, g, ids);
    }
    finish(&p, &all);
    write_grouping(g, p.n, result);
    return outputs(&p, g, rounds);
}
