/*
 * Tallyspool: cuts bricks and prisms into tetrahedra, without a slit between neighbours.
 *
 * Link with libtallyspool.a (`host/build tallyspool`, x86-64 Linux). Every function here is proved
 * to meet the contract that the sentences below put into words.
 *
 * WHAT A HOST OWES, at every call:
 *   - each pointer points to as many initialised elements as its count says, aligned as its type asks;
 *   - a slice of no elements needs a pointer all the same: aligned, not NULL, and never read;
 *   - a slice that is written (`out`, `ends`) overlaps no other slice of the call, and no other thread
 *     touches any slice of the call until it returns;
 *   - the stack has 8 KiB left.
 * Nothing else is owed: any kind number, ids and points may come in.
 *
 * WHAT EVERY FUNCTION KEEPS: it answers, or it refuses. A refusal returns its number with kind and
 * counts 0, and every slice holds what it held before. An answer has refusal 0 and is written from
 * the front of `out`; the entries past the answer stay as they were. Nothing is kept between calls,
 * no memory is allocated, and a call may be made from any thread.
 */
#ifndef TALLYSPOOL_H
#define TALLYSPOOL_H

#include <stddef.h>
#include <stdint.h>

#ifdef __cplusplus
extern "C" {
#endif

/* The kinds of element. A name that ends in a number has that many nodes, a VERTEX one. */
#define TS_VERTEX  UINT64_C(1)
#define TS_SEG2    UINT64_C(2)
#define TS_SEG3    UINT64_C(3)
#define TS_SEG4    UINT64_C(4)
#define TS_TRI3    UINT64_C(5)
#define TS_TRI6    UINT64_C(6)
#define TS_TRI7    UINT64_C(7)
#define TS_QUAD4   UINT64_C(8)
#define TS_QUAD8   UINT64_C(9)
#define TS_QUAD9   UINT64_C(10)
#define TS_TET4    UINT64_C(11)
#define TS_TET10   UINT64_C(12)
#define TS_WEDGE6  UINT64_C(13)
#define TS_WEDGE15 UINT64_C(14)
#define TS_HEX8    UINT64_C(15)
#define TS_HEX21   UINT64_C(16)
#define TS_PLINE   UINT64_C(17) /* 1 node or more */
#define TS_PGON    UINT64_C(18) /* 1 node or more */
#define TS_PHED    UINT64_C(19) /* faces with TS_SEPARATOR between them; it may be empty */

/* Stands between the faces of a PHED and is no id. */
#define TS_SEPARATOR UINT64_MAX

/* The most entries of one element, separators counted, and the most ids of a block. */
#define TS_ELEMENT_LIMIT 4096
#define TS_BLOCK_LIMIT   65536

/* How many ids the simplexes of one cell take at most. */
#define TS_SIMPLEX_IDS 24

/* The length of the longest record, the 4 bytes of its length not counted. */
#define TS_RECORD_LIMIT 32770

/*
 * The refusals. Where several hold, the one given is the first in the order
 * 21, 1, 2, 3, 4, 20, 5, 6, 19, then 8 to 18 as the rules meet them, 7 last.
 */
#define TS_REFUSAL_NONE                   UINT64_C(0)
#define TS_REFUSAL_UNKNOWN_KIND           UINT64_C(1)  /* the kind is not 1 to 19 */
#define TS_REFUSAL_TOO_MANY_ENTRIES       UINT64_C(2)  /* more entries than the limit */
#define TS_REFUSAL_WRONG_NODE_COUNT       UINT64_C(3)  /* node count wrong for the kind; a block no multiple of it */
#define TS_REFUSAL_STRAY_SEPARATOR        UINT64_C(4)  /* a separator in a kind other than PHED */
#define TS_REFUSAL_NO_SUCH_CODIMENSION    UINT64_C(5)  /* above 3, or not in the table of a kind that has one */
#define TS_REFUSAL_NO_RULE                UINT64_C(6)  /* the operation has no rule for this kind */
#define TS_REFUSAL_SHORT_OUTPUT           UINT64_C(7)  /* a lent output is shorter than the answer */
#define TS_REFUSAL_NO_FACE                UINT64_C(8)  /* a PHED with no face */
#define TS_REFUSAL_NO_SUCH_POLY           UINT64_C(9)  /* a PLINE not of 2 nodes, a PGON not of 3 or 4 */
#define TS_REFUSAL_THREE_FACE_LENGTHS     UINT64_C(10) /* faces of three or more lengths */
#define TS_REFUSAL_NO_WEDGE_FACES         UINT64_C(11) /* two lengths, but not two triangles and three quads */
#define TS_REFUSAL_NO_QUAD_AT_EDGE        UINT64_C(12) /* no quad runs from the first triangle's second node to its first */
#define TS_REFUSAL_NOT_IN_SECOND_TRIANGLE UINT64_C(13) /* the node found is not in the second triangle */
#define TS_REFUSAL_OPEN_SURFACE           UINT64_C(14) /* one face length, and some edge not there exactly twice */
#define TS_REFUSAL_NO_SUCH_SURFACE        UINT64_C(15) /* closed, but not 4 triangles or 6 quads */
/* 16 is never given and stands for nothing: four triangles of a closed surface have a fourth node. */
#define TS_REFUSAL_NO_OPPOSITE_FACE       UINT64_C(17) /* no face opposite the first */
#define TS_REFUSAL_NO_SIDE_FACE           UINT64_C(18) /* no side face at a bottom edge */
#define TS_REFUSAL_NO_POINT               UINT64_C(19) /* a needed id has no point */
#define TS_REFUSAL_WRONG_POINTS           UINT64_C(20) /* dimension not 2 or 3, or point list no multiple of it */
#define TS_REFUSAL_BAD_RECORD             UINT64_C(21) /* bytes cut short, of an odd length, or too long */

/* The refusal, 0 if there is none, and the kind and count of what was written. */
typedef struct {
    uint64_t refusal, kind, count;
} ts_answer;

/* The same for sub-entities; the second pair is that of a wedge's four-sided faces, else 0. */
typedef struct {
    uint64_t refusal, kind, count, kind2, count2;
} ts_parts;

/*
 * Answers the sub-entities of one element one codimension below it: `count` of `kind`, then `count2`
 * of `kind2`, their ids one sub-entity after another in `out`. For a PHED the separators are left out
 * of `out` and `ends` gets, for each face, where it ends in `out`; other kinds leave `ends` alone.
 */
ts_parts ts_subentities(uint64_t kind, const uint64_t *ids, size_t n_ids,
                        uint64_t *out, size_t n_out, uint64_t *ends, size_t n_ends);

/*
 * Answers the same at the codimension `codim`, from 1 for the faces of a cell to 3 for its vertices.
 * It leaves alone what ts_subentities leaves alone.
 */
ts_parts ts_subentities_of(uint64_t kind, uint64_t codim, const uint64_t *ids, size_t n_ids,
                           uint64_t *out, size_t n_out, uint64_t *ends, size_t n_ends);

/*
 * Answers the poly form of one element: `kind` is VERTEX, PLINE, PGON or PHED, and `count` entries are
 * written, separators among them. What lies behind them in `out` stays.
 */
ts_answer ts_to_poly(uint64_t kind, const uint64_t *ids, size_t n_ids, uint64_t *out, size_t n_out);

/*
 * Answers which fixed kind an element of a poly kind is, and writes its `count` nodes; kinds 1 to 16
 * are answered as they are. What lies behind them in `out` stays.
 */
ts_answer ts_from_poly(uint64_t kind, const uint64_t *ids, size_t n_ids, uint64_t *out, size_t n_out);

/*
 * Answers the simplexes of one cell: `count` of `kind` (VERTEX, SEG2, TRI3 or TET4), one after another;
 * TS_SIMPLEX_IDS places are always enough. What lies behind them in `out` stays.
 */
ts_answer ts_to_simplexes(uint64_t kind, const uint64_t *ids, size_t n_ids, uint64_t *out, size_t n_out);

/*
 * Answers the element wound: TRI3, QUAD4 and PGON in the plane so that their area is not below zero,
 * a PHED in space so that its faces look out, all else copied; `count` entries are written, and those
 * behind them stay. Point i, of `dimension` numbers from points[dimension * i] on, belongs to id i;
 * `n_points` counts the numbers and not the points.
 */
ts_answer ts_reorient(uint64_t kind, const uint64_t *ids, size_t n_ids, uint64_t dimension,
                      const double *points, size_t n_points, uint64_t *out, size_t n_out);

/*
 * Answers the tetrahedra of a block of TET4, WEDGE6 or HEX8 cells, `count` of them, cell after cell;
 * a tetrahedron takes 4 ids, and a cell has at most 1, 3 or 6. What lies behind them in `out` stays.
 */
ts_answer ts_split_block(uint64_t kind, const uint64_t *ids, size_t n_ids, uint64_t *out, size_t n_out);

/*
 * Answers the ids that little-endian bytes hold, 8 bytes each, `count` of them with kind 0; refused by
 * 21 if the bytes are no multiple of 8. What lies behind them in `out` stays.
 */
ts_answer ts_read_ids(const uint8_t *bytes, size_t n_bytes, uint64_t *out, size_t n_out);

/*
 * Answers ids as little-endian bytes, 8 bytes each; `count` is the number of bytes, with kind 0. What
 * lies behind them in `out` stays.
 */
ts_answer ts_write_ids(const uint64_t *ids, size_t n_ids, uint8_t *out, size_t n_out);

/*
 * Answers as ts_to_simplexes for the cell of one record: a 4-byte length of what follows, a 2-byte
 * kind, then 8-byte ids, all little-endian. Refused by 21, `out` left alone, unless the bytes are one
 * whole record and nothing behind it.
 */
ts_answer ts_split_record(const uint8_t *bytes, size_t n_bytes, uint64_t *out, size_t n_out);

#ifdef __cplusplus
}
#endif

#endif
