/*
 * yellopard.h: the four calls of Yellopard, for C and C++.
 *
 * A sheet is a netlist, a grouping says which signals of two sheets should
 * move together; both are files, and docs/FORMAT.md has them byte by byte.
 * A call takes the bytes of files and refuses by itself what is wrong with
 * them: any bytes may be passed, and no caller has to have checked anything.
 *
 *     yellopard_write    reads a sheet and writes it, its outputs last
 *     yellopard_run      runs a sheet, a vector of inputs for each tick
 *     yellopard_check    checks a proposed grouping of two sheets
 *     yellopard_refine   finds the coarsest grouping inside a proposed one
 *
 * The calls are proved: what is said here holds for all bytes and for all
 * lengths, under "What a caller owes" below. They allocate nothing, keep
 * nothing between calls and write to no memory of the caller's but the buffers
 * lent to them. Link libyellopard.a, for Linux on x86-64.
 *
 *
 * The answer
 * ----------
 *
 * An answer is a few numbers. They are put at the front of `row`, as many as
 * it has places for; the rest of the row is unchanged. YELLOPARD_ROW places
 * suffice for every answer. What a call returns is how many numbers its
 * answer has, whether or not the row had places for them, and this alone
 * says which kind of answer it is:
 *
 *     YELLOPARD_LENGTH (1)     row[0]  the length written, in elements
 *
 *     YELLOPARD_REFUSAL (3)    row[0]  what is wrong: YELLOPARD_SHORT and so on
 *                              row[1]  the file: YELLOPARD_FILE_..
 *                              row[2]  the position; each number below says
 *                                      of what
 *
 *     YELLOPARD_VERDICT (5)    row[0]  YELLOPARD_EQUIVALENT or
 *                                      YELLOPARD_UNDECIDED
 *                              row[1]  the reason: YELLOPARD_REASON_..
 *                              row[2]  the index; each reason says of what
 *                              row[3]  the rounds, 0 from yellopard_check
 *                              row[4]  the nodes: the greatest node count of
 *                                      the lists that were worked
 *
 * yellopard_write and yellopard_run answer a length or a refusal;
 * yellopard_check and yellopard_refine a verdict or a refusal. The first
 * refusal in the order that is given with each call ends it.
 *
 * EQUIVALENT is a promise: the two boards give the same outputs for ever,
 * whoever proposed the grouping. UNDECIDED is none: the boards may be alike.
 *
 *
 * The result
 * ----------
 *
 * A call that writes a result writes it to the front of `result` and leaves
 * the rest unchanged. A call that is refused leaves all of it unchanged.
 *
 *
 * The table
 * ---------
 *
 * yellopard_check and yellopard_refine work in a table of 16-bit words,
 * YELLOPARD_NODE_WORDS to a node. Its capacity N is table_len divided by
 * YELLOPARD_NODE_WORDS, rounded down, and at most YELLOPARD_MAX_NODES. The
 * table needs no preparation: it may hold anything. After every call,
 * refusals included, its first YELLOPARD_NODE_WORDS * N words are 0, and the
 * rest are unchanged.
 *
 *
 * What a caller owes
 * ------------------
 *
 * Nothing checks a C caller. For each pointer and the length that follows it,
 * a number of elements and not of bytes, for as long as the call lasts:
 *
 * - the pointer leads to that many elements of its type, in one object; they
 *   can be read and, where the pointer is not const, written. Where the length
 *   is 0, nothing is read or written through the pointer, and it may be null;
 * - the pointer is aligned for its type: uint16_t to 2, uint64_t to 8;
 * - a buffer that is written (result, table, row) overlaps no other buffer of
 *   the call. Files and vectors are only read, and may overlap one another:
 *   a sheet can be checked against itself;
 * - no other thread writes to a buffer, or reads one that is written.
 *
 * Nothing is asked of the lengths. Calls whose buffers are their own may run
 * at the same time.
 */
#ifndef YELLOPARD_H
#define YELLOPARD_H

#include <stddef.h>
#include <stdint.h>

#ifdef __cplusplus
extern "C" {
#endif

/* The places of a row that has room for every answer. */
#define YELLOPARD_ROW 5

/* What a call returns: how many numbers its answer has. */
#define YELLOPARD_LENGTH 1
#define YELLOPARD_REFUSAL 3
#define YELLOPARD_VERDICT 5

/* The limits of a sheet. It has at least one output. */
#define YELLOPARD_MAX_INPUTS 8
#define YELLOPARD_MAX_REGISTERS 12
#define YELLOPARD_MAX_SIGNALS 120
#define YELLOPARD_MAX_OUTPUTS 16

/* Bytes of the longest sheet: a result of this length is enough for
 * yellopard_write. */
#define YELLOPARD_SHEET_BYTES 409

/* Bytes of the longest grouping, 2n + 1 for a joint list of n = 240 signals:
 * a result of this length is enough for yellopard_refine. */
#define YELLOPARD_GROUPING_BYTES 481

/* Words of the table to a node, and the most nodes that are used. */
#define YELLOPARD_NODE_WORDS 10
#define YELLOPARD_MAX_NODES 60000

/* row[0] of a verdict. */
enum {
    YELLOPARD_EQUIVALENT = 0, /* reason and index are 0 */
    YELLOPARD_UNDECIDED = 1
};

/* row[1] of a verdict, and what row[2], the index, is. The joint list is the
 * signals of A, then those of B. The polarity of a signal is its value at tick
 * 0 with all inputs 0; signals are compared with those of polarity 0
 * complemented. */
enum {
    YELLOPARD_REASON_NONE = 0,   /* EQUIVALENT: 0 */
    YELLOPARD_REASON_START = 1,  /* at the start: the least signal of the joint
                                    list that differs from its class's first */
    YELLOPARD_REASON_STEP = 2,   /* after a step: the same */
    YELLOPARD_REASON_OUTPUTS = 3 /* the least output of A that is not paired
                                    with B's: in one class, with the same
                                    polarity */
};

/* row[0] of a refusal, and what row[2], the position, is. An offset counts the
 * bytes of the file from 0. */
enum {
    YELLOPARD_SHORT = 10,     /* the file ends within a record: the record's
                                 offset; or before END: the file's length */
    YELLOPARD_KIND = 11,      /* no such kind of record here: its offset */
    YELLOPARD_MANY = 12,      /* a record beyond a limit: its offset */
    YELLOPARD_VALUE = 13,     /* an initial value that is not 0 or 1: the
                                 record's offset */
    YELLOPARD_LATER = 14,     /* an operand that is not a lower signal: the
                                 record's offset */
    YELLOPARD_AFTER = 15,     /* bytes after END: the offset of the first */
    YELLOPARD_NO_OUTPUT = 16, /* a sheet without output: END's offset */
    YELLOPARD_DANGLING = 17,  /* no such signal: the offset of the first record
                                 that names one */
    YELLOPARD_UNLIKE = 18,    /* the sheets differ: 0 in the number of inputs,
                                 1 only in that of outputs */
    YELLOPARD_COUNT = 19,     /* a grouping whose classes are not as many as the
                                 signals of the joint list: END's offset */
    YELLOPARD_OUT = 20,       /* the result is too short: the length needed */
    YELLOPARD_VECTOR = 21,    /* a vector with a bit beyond the inputs: its
                                 tick, from 0 */
    YELLOPARD_NO_ROOM = 22    /* a list has more nodes than the table: 0 for the
                                 start list, i + 1 for the step list of T_i
                                 (from yellopard_check: 1) */
};

/* row[1] of a refusal. */
enum {
    YELLOPARD_FILE_A = 0,
    YELLOPARD_FILE_B = 1,
    YELLOPARD_FILE_GROUPING = 2,
    YELLOPARD_FILE_NONE = 3 /* with UNLIKE, OUT, VECTOR and NO_ROOM */
};

/*
 * Reads the sheet a and writes it to result: the records of its signals, then
 * those of its outputs, then END. Reading that again gives the same sheet.
 *
 * Answers the length written, in bytes, at most YELLOPARD_SHEET_BYTES.
 * Refuses, in this order: the file a; OUT, where result is too short.
 */
size_t yellopard_write(const uint8_t *a, size_t a_len,
                       uint8_t *result, size_t result_len,
                       uint64_t *row, size_t row_len);

/*
 * Runs the sheet a from its initial values. vectors has a byte for each tick,
 * input i in bit i; result gets a number for each tick, output i in bit i,
 * unused bits 0.
 *
 * Answers the length written: vectors_len.
 * Refuses, in this order: the file a; OUT, where result_len is less than
 * vectors_len; VECTOR.
 */
size_t yellopard_run(const uint8_t *a, size_t a_len,
                     const uint8_t *vectors, size_t vectors_len,
                     uint16_t *result, size_t result_len,
                     uint64_t *row, size_t row_len);

/*
 * Checks the grouping p of the joint list of the sheets a and b: EQUIVALENT
 * where the signals of each class agree at the start and after each step, and
 * the outputs are paired; otherwise UNDECIDED.
 *
 * Answers a verdict, with 0 rounds.
 * Ends at the first of these: the file a; b; UNLIKE; the file p; NO_ROOM for
 * the start list; START; NO_ROOM for the step list; STEP; OUTPUTS.
 */
size_t yellopard_check(const uint8_t *a, size_t a_len,
                       const uint8_t *b, size_t b_len,
                       const uint8_t *p, size_t p_len,
                       uint16_t *table, size_t table_len,
                       uint64_t *row, size_t row_len);

/*
 * Refines the grouping p of the joint list of the sheets a and b: T_0 is p
 * split by what its signals do at the start, T_(i+1) is T_i split by what they
 * do after a step; the rounds count r is the least i with T_i = T_(i+1).
 * EQUIVALENT where T_r pairs the outputs; otherwise UNDECIDED, for OUTPUTS.
 *
 * Answers a verdict. With either one, T_r, the coarsest grouping inside p that
 * agrees at the start and after each step, is written to result as a file,
 * its classes numbered from 0 in the order of their first members: 2n + 1
 * bytes for a joint list of n signals, at most YELLOPARD_GROUPING_BYTES.
 * Refuses, in this order: the file a; b; UNLIKE; the file p; OUT, where result
 * has less than 2n + 1 bytes; NO_ROOM for the start list, then for the step
 * lists of T_0 to T_r.
 */
size_t yellopard_refine(const uint8_t *a, size_t a_len,
                        const uint8_t *b, size_t b_len,
                        const uint8_t *p, size_t p_len,
                        uint16_t *table, size_t table_len,
                        uint8_t *result, size_t result_len,
                        uint64_t *row, size_t row_len);

#ifdef __cplusplus
}
#endif

#endif
