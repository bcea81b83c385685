/* Boards to measure on, each drawn from a few numbers, and the redraw of a board. */
#ifndef DRAW_H
#define DRAW_H

#include "sheet.h"

/* Shift lanes that share a pulse: a bin takes what stands before it when the pulse comes, and holds otherwise. Input 0 is the pulse. */
Sheet draw_lanes(int lanes, int bins);

/* The same lanes with each hold drawn as a change: bin xor (pulse and (bin xor before)). */
Sheet draw_changed_lanes(int lanes, int bins);

/* A binary counter of so many bits that counts when input 0 is 1 and is cleared by input 1. */
Sheet draw_counter(int bits);

/* A counter of so many bits to which a number of so many inputs is added in each tick. */
Sheet draw_adder(int bits, int inputs);

/* Registers that each gather the parity of some inputs and of their neighbour, and the parity of all of them; the second draws the
   last as a tree where the first draws a chain. */
Sheet draw_parity(int registers, int inputs);
Sheet draw_parity_tree(int registers, int inputs);

/* A random sheet; the same seed gives the same sheet. */
Sheet draw_random(unsigned seed, int inputs, int registers, int gates);

/* The sheet drawn with other gates, some of its registers holding the opposite; it runs as before. */
Sheet redraw(const Sheet *s, unsigned seed);

#endif
