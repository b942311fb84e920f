/*
 * Measures how deep each entry point reaches into the stack at its largest inputs.
 *
 *     stack [cabinet] [hungry]
 *
 * Each call runs on a stack of its own that is painted beforehand; the depth is from its top down to
 * the lowest byte that lost its paint, so the few bytes of the call itself are counted too. It fails
 * if one is deeper than 8 KiB. With `cabinet` that stack has exactly the 8 KiB of the cabinet
 * computer, and below it lies a guard page: a call that wants more ends the program by a signal. With
 * `hungry`, a function that takes 9 KiB is measured beside them, to show that both can fail.
 */
#define _GNU_SOURCE
#include <inttypes.h>
#include <stdio.h>
#include <stdlib.h>
#include <string.h>
#include <sys/mman.h>
#include <ucontext.h>

#include "tallyspool.h"

enum {
    SUBENTITIES, SUBENTITIES_OF, TO_POLY, FROM_POLY, TO_SIMPLEXES, REORIENT,
    SPLIT_BLOCK, READ_IDS, WRITE_IDS, SPLIT_RECORD, HUNGRY, ENTRIES
};
enum { LIMIT = 8192, ROOMY = 1 << 18, GUARD = 1 << 16, PAINT = 0xa5 };
enum { MOST_IDS = TS_BLOCK_LIMIT, MOST_OUT = 3 * TS_BLOCK_LIMIT };

static unsigned char *stack;
static size_t stack_size;
static uint64_t ids[MOST_IDS], out[MOST_OUT], ends[TS_ELEMENT_LIMIT];
static double points[3 * TS_ELEMENT_LIMIT];
static uint8_t bytes[8 * MOST_IDS];
static uint64_t kind, codim, dimension, refusal;
static size_t n_ids, n_points, n_bytes;
static ucontext_t here, there;

static void subentities(void) { refusal = ts_subentities(kind, ids, n_ids, out, MOST_OUT, ends, TS_ELEMENT_LIMIT).refusal; }
static void subentities_of(void) { refusal = ts_subentities_of(kind, codim, ids, n_ids, out, MOST_OUT, ends, TS_ELEMENT_LIMIT).refusal; }
static void to_poly(void) { refusal = ts_to_poly(kind, ids, n_ids, out, MOST_OUT).refusal; }
static void from_poly(void) { refusal = ts_from_poly(kind, ids, n_ids, out, MOST_OUT).refusal; }
static void to_simplexes(void) { refusal = ts_to_simplexes(kind, ids, n_ids, out, MOST_OUT).refusal; }
static void reorient(void) { refusal = ts_reorient(kind, ids, n_ids, dimension, points, n_points, out, MOST_OUT).refusal; }
static void split_block(void) { refusal = ts_split_block(kind, ids, n_ids, out, MOST_OUT).refusal; }
static void read_ids(void) { refusal = ts_read_ids(bytes, n_bytes, out, MOST_OUT).refusal; }
static void write_ids(void) { refusal = ts_write_ids(ids, n_ids, bytes, sizeof bytes).refusal; }
static void split_record(void) { refusal = ts_split_record(bytes, n_bytes, out, MOST_OUT).refusal; }

static void hungry(void) {
    volatile unsigned char local[9 * 1024];
    for (size_t i = 0; i < sizeof local; i++)
        local[i] = (unsigned char)i;
    refusal = 0;
}

/* A stack of so many bytes, with pages below it that nothing may touch. */
static void take_stack(size_t size) {
    unsigned char *pages = mmap(NULL, GUARD + size, PROT_READ | PROT_WRITE, MAP_PRIVATE | MAP_ANONYMOUS, -1, 0);
    if (pages == MAP_FAILED || mprotect(pages, GUARD, PROT_NONE) != 0) {
        perror("stack");
        exit(2);
    }
    stack = pages + GUARD;
    stack_size = size;
}

/* How many bytes of the painted stack a call changes, from the top. */
static size_t depth(void (*entry)(void)) {
    memset(stack, PAINT, stack_size);
    getcontext(&there);
    there.uc_stack.ss_sp = stack;
    there.uc_stack.ss_size = stack_size;
    there.uc_link = &here;
    makecontext(&there, entry, 0);
    swapcontext(&here, &there);
    size_t at = 0;
    while (at < stack_size && stack[at] == PAINT)
        at++;
    return stack_size - at;
}

static size_t deepest[ENTRIES];
static void (*const entries[ENTRIES])(void) = {
    subentities, subentities_of, to_poly, from_poly, to_simplexes, reorient,
    split_block, read_ids, write_ids, split_record, hungry,
};
static const char *const names[ENTRIES] = {
    "ts_subentities", "ts_subentities_of", "ts_to_poly", "ts_from_poly", "ts_to_simplexes", "ts_reorient",
    "ts_split_block", "ts_read_ids", "ts_write_ids", "ts_split_record", "hungry",
};
static const size_t nodes_of[20] = {0, 1, 2, 3, 4, 3, 6, 7, 4, 8, 9, 4, 10, 6, 15, 8, 21, 0, 0, 0};

static void measure(int operation) {
    size_t d = depth(entries[operation]);
    if (d > deepest[operation])
        deepest[operation] = d;
}

/* The same of an input that is answered, and so goes all the way. */
static void measure_answered(int operation) {
    measure(operation);
    if (refusal != 0) {
        printf("%s refused by %" PRIu64 " what it was to answer\n", names[operation], refusal);
        exit(2);
    }
}

/* The record of what stands in ids. */
static void make_record(void) {
    size_t length = 2 + 8 * n_ids;
    for (int i = 0; i < 4; i++)
        bytes[i] = (uint8_t)(length >> 8 * i);
    bytes[4] = (uint8_t)kind;
    bytes[5] = 0;
    memcpy(bytes + 6, ids, 8 * n_ids);
    n_bytes = 4 + length;
}

/* Every operation on one element. */
static void measure_element(void) {
    make_record();
    measure(SPLIT_RECORD);
    for (codim = 0; codim < 5; codim++)
        measure(SUBENTITIES_OF);
    for (dimension = 2; dimension < 4; dimension++)
        measure(REORIENT);
    measure(SUBENTITIES);
    measure(TO_POLY);
    measure(FROM_POLY);
    measure(TO_SIMPLEXES);
}

/* Every operation on a polyhedron, which is wound in space and whose faces are read. */
static void measure_phed(void) {
    measure_element();
    dimension = 3;
    measure_answered(REORIENT);
    measure_answered(SUBENTITIES);
    measure_answered(TO_POLY);
}

/* n ids in runs of `run`, a separator between two runs, each run from its own number on. */
static void make_faces(size_t n, size_t run, uint64_t ids_apart) {
    kind = TS_PHED;
    n_ids = n;
    for (size_t i = 0; i < n; i++)
        ids[i] = i % (run + 1) == run ? TS_SEPARATOR : (i / (run + 1) * ids_apart + i % (run + 1)) % TS_ELEMENT_LIMIT;
}

static void measure_faces(void) {
    make_faces(4095, 3, 0); /* the same triangle over and over */
    measure_phed();
    make_faces(4095, 3, 3);
    measure_phed();
    make_faces(4096, 4096, 0); /* one face */
    measure_phed();
    make_faces(4096, 4, 4);
    measure_phed();
    make_faces(4096, 0, 0); /* separators alone */
    measure_phed();
}

/* The poly forms of the fixed kinds, which recognition takes farthest. */
static void measure_poly(uint64_t fixed) {
    uint64_t cell[8] = {0, 1, 2, 3, 4, 5, 6, 7};
    n_ids = ts_to_poly(fixed, cell, nodes_of[fixed], ids, MOST_IDS).count;
    kind = TS_PHED;
    measure_phed();
    measure_answered(FROM_POLY);
}

int main(int argc, char **argv) {
    int count = HUNGRY, deep = 0;
    size_t size = ROOMY;
    for (int i = 1; i < argc; i++) {
        if (strcmp(argv[i], "cabinet") == 0)
            size = LIMIT;
        else if (strcmp(argv[i], "hungry") == 0)
            count = ENTRIES;
    }
    take_stack(size);
    n_points = 3 * TS_ELEMENT_LIMIT - 3 * TS_ELEMENT_LIMIT % 6;
    for (size_t i = 0; i < n_points; i++)
        points[i] = (double)(i * 7919 % 1000) / 16 - 31;
    for (kind = 1; kind < 19; kind++) {
        n_ids = nodes_of[kind] != 0 ? nodes_of[kind] : TS_ELEMENT_LIMIT;
        for (size_t i = 0; i < n_ids; i++)
            ids[i] = (n_ids - i) * 3 % TS_ELEMENT_LIMIT;
        measure_element();
        if (nodes_of[kind] != 0) {
            measure_answered(TO_SIMPLEXES);
            measure_answered(SPLIT_RECORD);
        }
    }
    measure_faces();
    measure_poly(TS_TET4);
    measure_poly(TS_WEDGE6);
    measure_poly(TS_HEX8);
    for (size_t i = 0; i < MOST_IDS; i++)
        ids[i] = i * 2654435761 % 1000003;
    for (kind = 1; kind < 20; kind++) {
        n_ids = nodes_of[kind] != 0 ? MOST_IDS / nodes_of[kind] * nodes_of[kind] : MOST_IDS;
        if (kind == TS_TET4 || kind == TS_WEDGE6 || kind == TS_HEX8)
            measure_answered(SPLIT_BLOCK);
        else
            measure(SPLIT_BLOCK);
    }
    n_ids = MOST_IDS;
    measure_answered(WRITE_IDS);
    n_bytes = sizeof bytes;
    measure_answered(READ_IDS);
    if (count == ENTRIES)
        measure(HUNGRY);

    for (int i = 0; i < count; i++) {
        printf("%-18s %5zu bytes\n", names[i], deepest[i]);
        if (deepest[i] > LIMIT) {
            printf("%s reaches deeper than %d bytes\n", names[i], LIMIT);
            deep = 1;
        }
    }
    return deep;
}
