/*
 * Cuts two neighbouring bricks into tetrahedra and shows that both cut their common face along the
 * same diagonal.
 *
 *     cc -I include host/c/bricks.c target/staticlib/libtallyspool.a -o bricks && ./bricks
 */
#include <inttypes.h>
#include <stdio.h>

#include "tallyspool.h"

/* Two bricks side by side; the face 1 2 6 5 of the first is the face 1 2 6 5 of the second. */
static const uint64_t bricks[2][8] = {
    {0, 1, 2, 3, 4, 5, 6, 7},
    {1, 8, 9, 2, 5, 10, 11, 6},
};

/* The common face, and its two diagonals. */
static const uint64_t face[4] = {1, 2, 6, 5};
static const uint64_t diagonals[2][2] = {{1, 6}, {2, 5}};

static int holds(const uint64_t *ids, size_t n, uint64_t id) {
    for (size_t i = 0; i < n; i++)
        if (ids[i] == id)
            return 1;
    return 0;
}

/* Whether a tetrahedron has a triangle in the common face that runs along a diagonal. */
static int cuts_along(const uint64_t *tetrahedron, const uint64_t *diagonal) {
    int in_face = 0;
    for (size_t i = 0; i < 4; i++)
        in_face += holds(face, 4, tetrahedron[i]);
    return in_face == 3 && holds(tetrahedron, 4, diagonal[0]) && holds(tetrahedron, 4, diagonal[1]);
}

/* Cuts one brick, prints it, and returns the diagonal of the common face, or -1. */
static int cut(const uint64_t *brick) {
    uint64_t tetrahedra[TS_SIMPLEX_IDS];
    ts_answer answer = ts_to_simplexes(TS_HEX8, brick, 8, tetrahedra, TS_SIMPLEX_IDS);
    if (answer.refusal != TS_REFUSAL_NONE) {
        fprintf(stderr, "refused: %" PRIu64 "\n", answer.refusal);
        return -1;
    }
    int triangles[2] = {0, 0};
    for (uint64_t i = 0; i < answer.count; i++) {
        const uint64_t *t = tetrahedra + 4 * i;
        printf("  %2" PRIu64 " %2" PRIu64 " %2" PRIu64 " %2" PRIu64 "\n", t[0], t[1], t[2], t[3]);
        for (int d = 0; d < 2; d++)
            triangles[d] += cuts_along(t, diagonals[d]);
    }
    for (int d = 0; d < 2; d++)
        if (triangles[d] == 2 && triangles[1 - d] == 0)
            return d;
    return -1;
}

int main(void) {
    int along[2];
    for (int i = 0; i < 2; i++) {
        printf("brick %d:\n", i);
        along[i] = cut(bricks[i]);
        if (along[i] < 0) {
            fprintf(stderr, "brick %d has no diagonal in the common face\n", i);
            return 1;
        }
        printf("  cuts the common face along %" PRIu64 "-%" PRIu64 "\n",
               diagonals[along[i]][0], diagonals[along[i]][1]);
    }
    puts(along[0] == along[1] ? "the same diagonal" : "a slit");
    return along[0] != along[1];
}
