/* Calls one operation so often: calls ROW ROUNDS, where a round is one call for each of 64 cells, or one block of 64.
   `calls` alone prints the rows. Ids are random and distinct within a cell, the same in every run. A call that is
   refused makes it fail, since a refusal takes fewer instructions than an answer. */
#include "tallyspool.h"
#include <stdio.h>
#include <stdlib.h>
#include <string.h>

enum { CELLS = 64, MOST = 29, ROOM = 64 };

static uint64_t cells[CELLS * MOST], out[CELLS * ROOM], ends[ROOM];
static double points[24];
static size_t size;
static uint64_t kind;

static uint64_t random64(void) {
    static uint64_t state = 0x9e3779b97f4a7c15;
    state ^= state << 13;
    state ^= state >> 7;
    state ^= state << 17;
    return state;
}

static void random_cells(uint64_t of_kind, size_t nodes) {
    kind = of_kind;
    size = nodes;
    for (size_t i = 0; i < CELLS * nodes; i++)
        cells[i] = random64() % 1000000 * nodes + i % nodes;
}

/* The cells as polyhedra; `placed` gives them the ids 0 to 7 of the bent cube in points. */
static void as_poly(int placed) {
    static uint64_t given[CELLS * MOST];
    size_t nodes = size;
    memcpy(given, cells, sizeof given);
    for (size_t i = 0; i < CELLS; i++) {
        uint64_t *cell = given + i * nodes;
        for (size_t j = 0; placed && j < nodes; j++)
            cell[j] = j;
        size = ts_to_poly(kind, cell, nodes, cells + i * MOST, MOST).count;
    }
    for (size_t i = 1; i < CELLS; i++)
        memmove(cells + i * size, cells + i * MOST, 8 * size);
    kind = TS_PHED;
}

static void bent_cube(void) {
    static const double cube[24] = {0, 0, 0, 1, 0, 0.1, 1, 1, 0, 0, 1.1, 0, 0, 0, 1, 1, 0, 1, 1.1, 1, 1, 0, 1, 1};
    memcpy(points, cube, sizeof cube);
    as_poly(1);
}

/* Every other square is wound the wrong way. */
static void squares(void) {
    static const double square[8] = {0, 0, 1, 0, 1, 1, 0, 1};
    memcpy(points, square, sizeof square);
    for (size_t i = 0; i < CELLS * 4; i++)
        cells[i] = i / 4 % 2 ? 3 - i % 4 : i % 4;
}

static void poly(void) { as_poly(0); }
static void plain(void) {}

static uint64_t split_block(const uint64_t *cell) { return ts_split_block(kind, cell, CELLS * size, out, CELLS * ROOM).refusal; }
static uint64_t to_simplexes(const uint64_t *cell) { return ts_to_simplexes(kind, cell, size, out, ROOM).refusal; }
static uint64_t subentities(const uint64_t *cell) { return ts_subentities(kind, cell, size, out, ROOM, ends, ROOM).refusal; }
static uint64_t to_poly(const uint64_t *cell) { return ts_to_poly(kind, cell, size, out, ROOM).refusal; }
static uint64_t from_poly(const uint64_t *cell) { return ts_from_poly(kind, cell, size, out, ROOM).refusal; }
static uint64_t in_plane(const uint64_t *cell) { return ts_reorient(kind, cell, size, 2, points, 8, out, ROOM).refusal; }
static uint64_t in_space(const uint64_t *cell) { return ts_reorient(kind, cell, size, 3, points, 24, out, ROOM).refusal; }

static const struct {
    const char *name;
    uint64_t kind;
    size_t nodes;
    void (*prepare)(void);
    uint64_t (*call)(const uint64_t *);
} rows[] = {
    {"split_block, a brick", TS_HEX8, 8, plain, split_block},
    {"split_block, a wedge", TS_WEDGE6, 6, plain, split_block},
    {"split_block, a tetrahedron", TS_TET4, 4, plain, split_block},
    {"to_simplexes, a brick", TS_HEX8, 8, plain, to_simplexes},
    {"to_simplexes, a wedge", TS_WEDGE6, 6, plain, to_simplexes},
    {"from_poly, a tetrahedron", TS_TET4, 4, poly, from_poly},
    {"from_poly, a brick", TS_HEX8, 8, poly, from_poly},
    {"from_poly, a wedge", TS_WEDGE6, 6, poly, from_poly},
    {"subentities, a tetrahedron", TS_TET4, 4, plain, subentities},
    {"subentities, a wedge", TS_WEDGE6, 6, plain, subentities},
    {"subentities, a brick", TS_HEX8, 8, plain, subentities},
    {"to_poly, a brick", TS_HEX8, 8, plain, to_poly},
    {"reorient, QUAD4 in the plane", TS_QUAD4, 4, squares, in_plane},
    {"reorient, a brick as PHED in space", TS_HEX8, 8, bent_cube, in_space},
};

int main(int argc, char **argv) {
    size_t row = argc > 2 ? strtoull(argv[1], NULL, 10) : 0;
    if (argc < 3 || row >= sizeof rows / sizeof *rows) {
        for (size_t i = 0; i < sizeof rows / sizeof *rows; i++)
            puts(rows[i].name);
        return 0;
    }
    random_cells(rows[row].kind, rows[row].nodes);
    rows[row].prepare();
    size_t calls = rows[row].call == split_block ? 1 : CELLS;
    uint64_t refusal = 0;
    for (uint64_t rounds = strtoull(argv[2], NULL, 10); rounds > 0; rounds--)
        for (size_t i = 0; i < calls; i++)
            refusal |= rows[row].call(cells + i * size);
    return refusal != 0;
}
