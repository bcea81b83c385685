/* A sheet in memory, and its file. Only what the benchmark needs: its files are drawn here, so nothing is ever refused. */
#ifndef SHEET_H
#define SHEET_H

#include <stddef.h>

enum {
    INPUT = 1, REGISTER = 2, NOT = 3, AND = 4, OR = 5, XOR = 6, OUTPUT = 7, END = 8, CLASS = 0x11
};

enum {
    MOST_INPUTS = 8, MOST_REGISTERS = 12, MOST_SIGNALS = 120, MOST_OUTPUTS = 16,
    MOST_JOINT = 2 * MOST_SIGNALS, MOST_SHEET_BYTES = 409, MOST_GROUPING_BYTES = 2 * MOST_JOINT + 1
};

/* a and b are the two operands; a register has its initial value in a and its source in b. */
typedef struct {
    unsigned char kind, a, b;
} Signal;

typedef struct {
    int inputs, registers, signals, outputs;
    Signal signal[MOST_SIGNALS];
    unsigned char output[MOST_OUTPUTS];
} Sheet;

/* Both give the number of bytes that the file has. */
size_t sheet_write(const Sheet *s, unsigned char *file);
size_t sheet_read(const unsigned char *file, Sheet *s);

/* The values of all signals at tick 0 with all inputs 0. */
void sheet_first_values(const Sheet *s, unsigned char *value);

#endif
