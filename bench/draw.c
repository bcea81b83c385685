#include "draw.h"

#include <stdint.h>
#include <stdio.h>
#include <stdlib.h>

static void must(int holds, const char *what)
{
    if (!holds) {
        fprintf(stderr, "a board does not fit its limits: %s\n", what);
        exit(2);
    }
}

/* Adds a signal and gives its number. */
static int put(Sheet *s, int kind, int a, int b)
{
    must(s->signals < MOST_SIGNALS, "signals");
    s->signal[s->signals] = (Signal){ (unsigned char)kind, (unsigned char)a, (unsigned char)b };
    s->inputs += kind == INPUT;
    s->registers += kind == REGISTER;
    must(s->inputs <= MOST_INPUTS && s->registers <= MOST_REGISTERS, "inputs or registers");
    return s->signals++;
}

static void put_many(Sheet *s, int kind, int count)
{
    for (int i = 0; i < count; i++)
        put(s, kind, kind == INPUT ? i : 0, 0);
}

static void put_output(Sheet *s, int v)
{
    must(s->outputs < MOST_OUTPUTS, "outputs");
    s->output[s->outputs++] = (unsigned char)v;
}

/* ---- lanes */

static int hold_chosen(Sheet *s, int pulse, int before, int bin)
{
    int stay = put(s, NOT, pulse, 0);
    int moved = put(s, AND, pulse, before);
    int held = put(s, AND, stay, bin);
    return put(s, OR, moved, held);
}

static int hold_changed(Sheet *s, int pulse, int before, int bin)
{
    int differs = put(s, XOR, bin, before);
    int change = put(s, AND, pulse, differs);
    return put(s, XOR, bin, change);
}

static Sheet lanes_with(int lanes, int bins, int (*hold)(Sheet *, int, int, int))
{
    Sheet s = { 0 };
    int first = 1 + lanes;
    put_many(&s, INPUT, first);
    put_many(&s, REGISTER, lanes * bins);
    for (int i = 0; i < lanes * bins; i++) {
        int bin = first + i;
        int before = i % bins == 0 ? 1 + i / bins : bin - 1;
        s.signal[bin].b = (unsigned char)hold(&s, 0, before, bin);
    }
    for (int lane = 1; lane <= lanes; lane++)
        put_output(&s, first + lane * bins - 1);
    return s;
}

Sheet draw_lanes(int lanes, int bins)
{
    return lanes_with(lanes, bins, hold_chosen);
}

Sheet draw_changed_lanes(int lanes, int bins)
{
    return lanes_with(lanes, bins, hold_changed);
}

/* ---- counters */

Sheet draw_counter(int bits)
{
    Sheet s = { 0 };
    put_many(&s, INPUT, 2);
    put_many(&s, REGISTER, bits);
    int keep = put(&s, NOT, 1, 0);
    int carry = 0;
    for (int i = 0; i < bits; i++) {
        int bit = 2 + i;
        int sum = put(&s, XOR, bit, carry);
        s.signal[bit].b = (unsigned char)put(&s, AND, sum, keep);
        carry = put(&s, AND, bit, carry);
    }
    put_output(&s, carry);
    put_output(&s, 2 + bits - 1);
    return s;
}

Sheet draw_adder(int bits, int inputs)
{
    Sheet s = { 0 };
    put_many(&s, INPUT, inputs);
    put_many(&s, REGISTER, bits);
    int carry = -1;
    for (int i = 0; i < bits; i++) {
        int bit = inputs + i;
        int with = i < inputs ? i : -1;
        int half = with < 0 ? bit : put(&s, XOR, bit, with);
        int both = with < 0 ? -1 : put(&s, AND, bit, with);
        int sum = carry < 0 ? half : put(&s, XOR, half, carry);
        int more = carry < 0 ? -1 : put(&s, AND, half, carry);
        s.signal[bit].b = (unsigned char)sum;
        carry = both < 0 ? more : more < 0 ? both : put(&s, OR, both, more);
    }
    put_output(&s, carry);
    return s;
}

/* ---- parity */

static int parity_chain(Sheet *s, int from, int count)
{
    int all = from;
    for (int i = 1; i < count; i++)
        all = put(s, XOR, all, from + i);
    return all;
}

static int parity_tree(Sheet *s, int from, int count)
{
    if (count == 1)
        return from;
    int half = count / 2;
    int left = parity_tree(s, from, half);
    int right = parity_tree(s, from + half, count - half);
    return put(s, XOR, right, left);
}

static Sheet parity_with(int registers, int inputs, int (*all)(Sheet *, int, int))
{
    Sheet s = { 0 };
    put_many(&s, INPUT, inputs);
    put_many(&s, REGISTER, registers);
    for (int i = 0; i < registers; i++) {
        int here = inputs + i, there = inputs + (i + 1) % registers;
        int pair = put(&s, XOR, i % inputs, (3 * i + 1) % inputs);
        int moved = put(&s, XOR, here, there);
        s.signal[here].b = (unsigned char)put(&s, XOR, moved, pair);
    }
    put_output(&s, all(&s, 0, inputs + registers));
    return s;
}

Sheet draw_parity(int registers, int inputs)
{
    return parity_with(registers, inputs, parity_chain);
}

Sheet draw_parity_tree(int registers, int inputs)
{
    return parity_with(registers, inputs, parity_tree);
}

/* ---- random boards and redraws */

/* The 64-bit xorshift generator with a product at its end. */
static uint32_t next_random(uint64_t *state)
{
    *state ^= *state >> 12;
    *state ^= *state << 25;
    *state ^= *state >> 27;
    return (uint32_t)((*state * 2685821657736338717u) >> 32);
}

static uint64_t seeded(unsigned seed)
{
    return 0x9e3779b97f4a7c15u * (seed + 1u);
}

static int below(uint64_t *state, int n)
{
    return (int)(next_random(state) % (uint32_t)n);
}

Sheet draw_random(unsigned seed, int inputs, int registers, int gates)
{
    Sheet s = { 0 };
    uint64_t state = seeded(seed);
    put_many(&s, INPUT, inputs);
    put_many(&s, REGISTER, registers);
    for (int i = 0; i < gates; i++) {
        int a = below(&state, s.signals), b = below(&state, s.signals);
        put(&s, NOT + below(&state, 4), a, b);
    }
    /* Registers take late signals, so that little of the board is idle. */
    for (int i = 0; i < registers; i++) {
        s.signal[inputs + i].a = (unsigned char)below(&state, 2);
        s.signal[inputs + i].b = (unsigned char)(s.signals - 1 - below(&state, gates));
    }
    for (int i = 0; i < 4; i++)
        put_output(&s, s.signals - 1 - i);
    return s;
}

/* AND and OR by De Morgan, XOR as (or) and not (and). */
static int put_otherwise(Sheet *s, int kind, int a, int b)
{
    if (kind == XOR) {
        int either = put(s, OR, a, b);
        int all = put(s, AND, a, b);
        return put(s, AND, either, put(s, NOT, all, 0));
    }
    int x = put(s, NOT, a, 0), y = put(s, NOT, b, 0);
    return put(s, NOT, put(s, kind == AND ? OR : AND, x, y), 0);
}

Sheet redraw(const Sheet *s, unsigned seed)
{
    Sheet t = { 0 };
    uint64_t state = seeded(seed);
    int as[MOST_SIGNALS], opposite[MOST_SIGNALS];
    for (int v = 0; v < s->signals; v++) {
        const Signal *x = &s->signal[v];
        opposite[v] = -1;
        int two = x->kind == AND || x->kind == OR || x->kind == XOR;
        int other = below(&state, 3) == 0;
        if (x->kind == REGISTER && other) {
            opposite[v] = put(&t, REGISTER, !x->a, 0);
            as[v] = put(&t, NOT, opposite[v], 0);
        } else if (two && other) {
            as[v] = put_otherwise(&t, x->kind, as[x->a], as[x->b]);
        } else if (x->kind == INPUT || x->kind == REGISTER) {
            as[v] = put(&t, x->kind, x->a, 0);
        } else {
            as[v] = put(&t, x->kind, as[x->a], x->kind == NOT ? 0 : as[x->b]);
        }
    }
    for (int v = 0; v < s->signals; v++)
        if (opposite[v] >= 0)
            t.signal[opposite[v]].b = (unsigned char)put(&t, NOT, as[s->signal[v].b], 0);
        else if (s->signal[v].kind == REGISTER)
            t.signal[as[v]].b = (unsigned char)as[s->signal[v].b];
    for (int i = 0; i < s->outputs; i++)
        put_output(&t, as[s->output[i]]);
    return t;
}
