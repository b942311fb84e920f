/*
 * Calls every entry point with hostile inputs and checks what the header promises.
 *
 *     hostile [CALLS [FAULT]]
 *
 * Each slice lies against a guard page, behind it or before it, so that a touch outside it faults.
 * Inputs are mapped read-only. Around each output stand canaries. A refusal must have kind and
 * counts 0 and leave all as it was; an answer must leave what lies behind it, come out the same where
 * the output is exactly as long as it, and be refused by 7 where that is one entry shorter. Refusals
 * 1 to 4 and 21 are judged here a second time. A run of a million calls or more is a whole one: it begins
 * with the lengths around each limit, and must meet every refusal.
 *
 * FAULT 1 to 6 puts a fault between the library and the checks, to show that they can fail.
 */
#define _GNU_SOURCE
#include <inttypes.h>
#include <signal.h>
#include <stdio.h>
#include <stdlib.h>
#include <string.h>
#include <sys/mman.h>
#include <unistd.h>

#include "tallyspool.h"

enum { SUBENTITIES, SUBENTITIES_OF, TO_POLY, FROM_POLY, TO_SIMPLEXES, REORIENT, SPLIT_BLOCK, READ_IDS, WRITE_IDS, SPLIT_RECORD, OPERATIONS };
static const char *const names[OPERATIONS] = {
    "ts_subentities", "ts_subentities_of", "ts_to_poly", "ts_from_poly", "ts_to_simplexes",
    "ts_reorient", "ts_split_block", "ts_read_ids", "ts_write_ids", "ts_split_record",
};
static const size_t nodes_of[20] = {0, 1, 2, 3, 4, 3, 6, 7, 4, 8, 9, 4, 10, 6, 15, 8, 21, 0, 0, 0};

/* A slice's home: `size` bytes between two guard pages, written through `home` and, for an input, lent through `lent`. */
typedef struct {
    unsigned char *home, *lent;
    size_t size;
} region;

static const size_t page = 4096;

static void die(const char *what) {
    perror(what);
    exit(2);
}

static unsigned char *guarded(size_t size, int protection, int fd) {
    unsigned char *at = mmap(NULL, size + 2 * page, PROT_NONE, MAP_PRIVATE | MAP_ANONYMOUS, -1, 0);
    if (at == MAP_FAILED)
        die("mmap");
    if (mmap(at + page, size, protection, MAP_SHARED | MAP_FIXED, fd, 0) == MAP_FAILED)
        die("mmap");
    return at + page;
}

static region make_region(size_t size) {
    region r = {.size = (size + page - 1) / page * page};
    int fd = memfd_create("slice", 0);
    if (fd < 0 || ftruncate(fd, (off_t)r.size) != 0)
        die("memfd");
    r.home = guarded(r.size, PROT_READ | PROT_WRITE, fd);
    r.lent = guarded(r.size, PROT_READ, fd);
    close(fd);
    return r;
}

static uint64_t state = 0x9e3779b97f4a7c15;

static uint64_t random64(void) {
    state ^= state << 13;
    state ^= state >> 7;
    state ^= state << 17;
    return state * UINT64_C(0x2545f4914f6cdd1d);
}

static uint64_t below(uint64_t n) { return random64() % n; }

/* What one call is given, and where its slices begin in their regions. */
typedef struct {
    int operation;
    uint64_t kind, codim, dimension;
    size_t n_ids, n_points, n_bytes, n_out, n_ends;
    int front; /* the slices begin behind a guard page, else they end before one */
} call;

enum { MOST_IDS = TS_BLOCK_LIMIT + 8, MOST_OUT = 3 * TS_BLOCK_LIMIT + 64, MOST_POINTS = 16384, MOST_BYTES = 8 * MOST_IDS };
static region ids_region, points_region, bytes_region, out_region, ends_region;
static uint64_t given_ids[MOST_IDS];
static double given_points[MOST_POINTS];
static unsigned char given_bytes[MOST_BYTES];
static unsigned char held_out[8 * MOST_OUT], first_out[8 * MOST_OUT];
static uint64_t held_ends[TS_ELEMENT_LIMIT + 64];

/* How many entries of the output the last call wrote. */
static size_t last_size;

static uint64_t calls[OPERATIONS], refusals[OPERATIONS][22];
static int fault;
static const call *current;

static void show(const call *c) {
    fprintf(stderr, "%s: kind %" PRIu64 " codim %" PRIu64 " dimension %" PRIu64 " n_ids %zu n_points %zu n_bytes %zu n_out %zu n_ends %zu %s\n",
            names[c->operation], c->kind, c->codim, c->dimension, c->n_ids, c->n_points, c->n_bytes, c->n_out, c->n_ends, c->front ? "front" : "end");
    fprintf(stderr, "ids:");
    for (size_t i = 0; i < c->n_ids && i < 64; i++)
        fprintf(stderr, " %" PRIu64, given_ids[i]);
    fprintf(stderr, "\n");
}

static void fail(const char *what) {
    fprintf(stderr, "hostile: %s\n", what);
    show(current);
    exit(1);
}

static void on_fault(int signal) {
    (void)signal;
    fail("a touch outside the slices, or of an input for writing");
}

static unsigned char *place(unsigned char *base, const region *r, size_t size, int front) {
    return front ? base : base + r->size - size;
}

static ts_parts wide(ts_answer a) {
    ts_parts p = {a.refusal, a.kind, a.count, 0, 0};
    return p;
}

static ts_parts dispatch(const call *c, const uint64_t *ids, const double *points, const uint8_t *bytes, uint64_t *out, uint64_t *ends) {
    switch (c->operation) {
    case SUBENTITIES: return ts_subentities(c->kind, ids, c->n_ids, out, c->n_out, ends, c->n_ends);
    case SUBENTITIES_OF: return ts_subentities_of(c->kind, c->codim, ids, c->n_ids, out, c->n_out, ends, c->n_ends);
    case TO_POLY: return wide(ts_to_poly(c->kind, ids, c->n_ids, out, c->n_out));
    case FROM_POLY: return wide(ts_from_poly(c->kind, ids, c->n_ids, out, c->n_out));
    case TO_SIMPLEXES: return wide(ts_to_simplexes(c->kind, ids, c->n_ids, out, c->n_out));
    case REORIENT: return wide(ts_reorient(c->kind, ids, c->n_ids, c->dimension, points, c->n_points, out, c->n_out));
    case SPLIT_BLOCK: return wide(ts_split_block(c->kind, ids, c->n_ids, out, c->n_out));
    case READ_IDS: return wide(ts_read_ids(bytes, c->n_bytes, out, c->n_out));
    case WRITE_IDS: return wide(ts_write_ids(ids, c->n_ids, (uint8_t *)out, c->n_out));
    default: return wide(ts_split_record(bytes, c->n_bytes, out, c->n_out));
    }
}

static size_t out_width(const call *c) { return c->operation == WRITE_IDS ? 1 : 8; }

/* The fault that was asked for, put behind the call. */
static void spoil(const call *c, ts_parts *p, const uint64_t *ids, unsigned char *out, unsigned char *ends) {
    switch (fault) {
    case 1: if (p->refusal == 0) out[out_width(c) * c->n_out] ^= 1; break;
    case 2: if (p->refusal != 0 && c->n_out > 0) out[0] ^= 1; break;
    case 3: if (c->n_ids > 0 && ((volatile const uint64_t *)ids)[c->n_ids] == 7) p->count = 7; break;
    case 4: if (p->refusal != 0) p->count = 1; break;
    case 5: if (p->refusal == TS_REFUSAL_STRAY_SEPARATOR) p->refusal = TS_REFUSAL_NO_RULE; break;
    case 6: if (p->refusal == 0 && c->n_ends > 0 && c->kind != TS_PHED) ends[0] ^= 1; break;
    }
}

/* How many entries of `out` an answer takes. */
static size_t answer_size(const call *c, ts_parts p, const uint64_t *ends) {
    if (p.refusal != 0)
        return 0;
    switch (c->operation) {
    case SUBENTITIES:
    case SUBENTITIES_OF:
        if (c->kind == TS_PHED)
            return p.count == 0 ? 0 : ends[p.count - 1];
        return p.count * nodes_of[p.kind] + p.count2 * nodes_of[p.kind2];
    case TO_SIMPLEXES:
    case SPLIT_BLOCK:
    case SPLIT_RECORD: return p.count * nodes_of[p.kind];
    default: return p.count;
    }
}

/* Refusals 1 to 4 of one element or a block, or 0. */
static uint64_t judged(uint64_t kind, const uint64_t *ids, size_t n, int block) {
    if (kind < 1 || kind > 19)
        return 1;
    if (n > (block ? TS_BLOCK_LIMIT : TS_ELEMENT_LIMIT))
        return 2;
    size_t nodes = nodes_of[kind];
    if (nodes != 0 ? (block ? n % nodes != 0 : n != nodes) : (!block && kind != TS_PHED && n == 0))
        return 3;
    if (kind != TS_PHED)
        for (size_t i = 0; i < n; i++)
            if (ids[i] == TS_SEPARATOR)
                return 4;
    return 0;
}

static uint64_t number(const unsigned char *bytes, int n) {
    uint64_t x = 0;
    while (n-- > 0)
        x = x << 8 | bytes[n];
    return x;
}

static int bad_record(const unsigned char *bytes, size_t n) {
    if (n < 4)
        return 1;
    uint64_t length = number(bytes, 4);
    return length < 2 || length > TS_RECORD_LIMIT || (length - 2) % 8 != 0 || length + 4 != n;
}

/* The refusals that are judged a second time; 22 where another or none is due. */
static uint64_t due(const call *c) {
    static uint64_t ids[TS_ELEMENT_LIMIT];
    uint64_t first = 0;
    if (c->operation == READ_IDS)
        first = c->n_bytes % 8 != 0 ? 21 : 0;
    else if (c->operation == SPLIT_RECORD) {
        if (bad_record(given_bytes, c->n_bytes))
            return 21;
        size_t n = (c->n_bytes - 6) / 8;
        for (size_t i = 0; i < n; i++)
            ids[i] = number(given_bytes + 6 + 8 * i, 8);
        first = judged(number(given_bytes + 4, 2), ids, n, 0);
    } else if (c->operation != WRITE_IDS)
        first = judged(c->kind, given_ids, c->n_ids, c->operation == SPLIT_BLOCK);
    return first == 0 ? 22 : first;
}

static int canaries_stand(const unsigned char *base, const region *r, const unsigned char *slice, size_t size) {
    enum { CANARIES = 256 };
    const unsigned char *end = base + r->size;
    for (int i = 1; i <= CANARIES; i++) {
        if (slice - i >= base && slice[-i] != 0xc5)
            return 0;
        if (slice + size + i - 1 < end && slice[size + i - 1] != 0xc5)
            return 0;
    }
    return 1;
}

/* One call, checked. */
static ts_parts run(const call *c) {
    current = c;
    size_t out_size = out_width(c) * c->n_out, ends_size = 8 * c->n_ends;
    unsigned char *out = place(out_region.home, &out_region, out_size, c->front);
    unsigned char *ends = place(ends_region.home, &ends_region, ends_size, c->front);
    memcpy(out, held_out, out_size);
    memcpy(ends, held_ends, ends_size);
    memcpy(place(ids_region.home, &ids_region, 8 * c->n_ids, c->front), given_ids, 8 * c->n_ids);
    memcpy(place(points_region.home, &points_region, 8 * c->n_points, c->front), given_points, 8 * c->n_points);
    memcpy(place(bytes_region.home, &bytes_region, c->n_bytes, c->front), given_bytes, c->n_bytes);
    const uint64_t *ids = (const uint64_t *)place(ids_region.lent, &ids_region, 8 * c->n_ids, c->front);
    const double *points = (const double *)place(points_region.lent, &points_region, 8 * c->n_points, c->front);
    const uint8_t *bytes = place(bytes_region.lent, &bytes_region, c->n_bytes, c->front);

    ts_parts p = dispatch(c, ids, points, bytes, (uint64_t *)out, (uint64_t *)ends);
    spoil(c, &p, ids, out, ends);

    calls[c->operation]++;
    if (p.refusal > 21)
        fail("a refusal that has no number");
    refusals[c->operation][p.refusal]++;
    if (p.refusal != 0 && (p.kind | p.count | p.kind2 | p.count2) != 0)
        fail("a refusal with a kind or a count");
    uint64_t expected = due(c);
    if (expected != 22 ? p.refusal != expected : (p.refusal >= 1 && p.refusal <= 4) || p.refusal == 21)
        fail("another refusal is due");
    last_size = answer_size(c, p, (uint64_t *)ends);
    size_t written = out_width(c) * last_size;
    if (written > out_size)
        fail("an answer longer than the output");
    if (memcmp(out + written, held_out + written, out_size - written) != 0)
        fail("what lies behind the answer changed");
    size_t marked = p.refusal == 0 && c->kind == TS_PHED && c->operation <= SUBENTITIES_OF ? 8 * p.count : 0;
    if (marked > ends_size || memcmp(ends + marked, (unsigned char *)held_ends + marked, ends_size - marked) != 0)
        fail("ends changed where nothing is to be written");
    if (!canaries_stand(out_region.home, &out_region, out, out_size) || !canaries_stand(ends_region.home, &ends_region, ends, ends_size))
        fail("a canary is gone");
    memcpy(first_out, out, written);
    memset(out, 0xc5, out_size);
    memset(ends, 0xc5, ends_size);
    return p;
}

/*
 * One call; where it answers, again with the outputs exactly as long as the answer, and with one of them
 * an entry shorter. Only the faces of a polyhedron take entries of `ends`.
 */
static void attack(call c) {
    static unsigned char before[8 * 70000];
    ts_parts p = run(&c);
    size_t size = last_size;
    int marks = c.operation <= SUBENTITIES_OF && c.kind == TS_PHED;
    if (p.refusal != 0 || out_width(&c) * size > sizeof before)
        return;
    memcpy(before, first_out, out_width(&c) * size);
    c.n_out = size;
    c.n_ends = marks ? p.count : 0;
    c.front = (int)below(2);
    ts_parts again = run(&c);
    if (memcmp(&p, &again, sizeof p) != 0 || memcmp(before, first_out, out_width(&c) * size) != 0)
        fail("another answer where the outputs are exactly as long");
    if (size == 0)
        return;
    c.n_out = size - 1;
    if (run(&c).refusal != TS_REFUSAL_SHORT_OUTPUT)
        fail("7 is due where the output is one entry shorter");
    if (marks) {
        c.n_out = size;
        c.n_ends = p.count - 1;
        if (run(&c).refusal != TS_REFUSAL_SHORT_OUTPUT)
            fail("7 is due where ends is one entry shorter");
    }
}

static uint64_t random_id(int style) {
    switch (style) {
    case 0: return below(4);
    case 1: return below(12);
    case 2: return below(3000);
    case 3: return below(30) == 0 ? TS_SEPARATOR : below(9);
    case 4: return TS_SEPARATOR - below(4);
    default: return random64();
    }
}

static uint64_t random_kind(void) {
    switch (below(24)) {
    case 0: return 0;
    case 1: return 20;
    case 2: return random64();
    case 3: return below(20) << 32 | below(20);
    default: return 1 + below(19);
    }
}

/* The poly form of a random cell, damaged now and then. */
static size_t poly_cell(void) {
    static const uint64_t kinds[3] = {TS_TET4, TS_WEDGE6, TS_HEX8};
    uint64_t kind = kinds[below(3)], cell[8];
    for (int i = 0; i < 8; i++)
        cell[i] = below(3) ? (uint64_t)(10 * i + (int)below(3)) : below(9);
    size_t n = ts_to_poly(kind, cell, nodes_of[kind], given_ids, 64).count;
    for (uint64_t hits = below(4); hits-- > 0 && n > 1;) {
        size_t at = below(n);
        switch (below(4)) {
        case 0: given_ids[at] = cell[below(8)]; break;
        case 1: given_ids[at] = TS_SEPARATOR; break;
        case 2: memmove(given_ids + at, given_ids + at + 1, 8 * (--n - at)); break;
        default: given_ids[n++] = cell[below(8)]; break;
        }
    }
    return n;
}

static double random_double(void) {
    static const double special[] = {0.0, -0.0, 1.0, -1.0, 5e-324, -5e-324, 1.7976931348623157e308, -1.7976931348623157e308, 1e-12, 0.5};
    switch (below(6)) {
    case 0: return special[below(sizeof special / sizeof *special)];
    case 1: {
        uint64_t bits = random64();
        double x;
        memcpy(&x, &bits, 8); /* not-a-number and infinities too */
        return x;
    }
    default: return (double)(int64_t)below(2000) / 8 - 100;
    }
}

static void random_record(call *c) {
    size_t n = c->n_ids < TS_ELEMENT_LIMIT + 1 ? c->n_ids : TS_ELEMENT_LIMIT + 1;
    uint64_t length = 2 + 8 * n;
    switch (below(16)) {
    case 0: length = below(40); break;
    case 1: length = random64(); break;
    case 2: length += 1 + below(7); break;
    }
    for (int i = 0; i < 4; i++)
        given_bytes[i] = (unsigned char)(length >> 8 * i);
    given_bytes[4] = (unsigned char)c->kind;
    given_bytes[5] = (unsigned char)(c->kind >> 8);
    for (size_t i = 0; i < 8 * n; i++)
        given_bytes[6 + i] = (unsigned char)(given_ids[i / 8] >> 8 * (i % 8));
    c->n_bytes = 6 + 8 * n;
    if (below(10) == 0)
        c->n_bytes = below(c->n_bytes + 1);
    else if (below(16) == 0)
        c->n_bytes += 1 + below(9);
}

static void fill_ids(call *c, int style) {
    for (size_t i = 0; i < c->n_ids; i++)
        given_ids[i] = random_id(style);
}

static call random_call(int operation) {
    call c = {.operation = operation, .kind = random_kind(), .codim = below(20) ? below(5) : random64(),
              .dimension = below(8) ? 2 + below(2) : below(5) ? below(6) : random64(), .front = (int)below(2)};
    size_t nodes = c.kind < 20 ? nodes_of[c.kind] : 0;
    c.n_ids = nodes != 0 && below(6) ? nodes : below(40);
    if (operation == SPLIT_BLOCK)
        c.n_ids = nodes != 0 && below(8) ? nodes * below(12) : below(60);
    fill_ids(&c, (int)below(6));
    if (c.kind == TS_PHED && below(4))
        c.n_ids = poly_cell();
    c.n_points = below(3) ? c.dimension % 8 * below(200) : below(400);
    for (size_t i = 0; i < c.n_points; i++)
        given_points[i] = random_double();
    if (operation == READ_IDS) {
        c.n_bytes = below(3) ? 8 * below(30) : below(200);
        for (size_t i = 0; i < c.n_bytes; i++)
            given_bytes[i] = (unsigned char)random64();
    } else if (operation == SPLIT_RECORD)
        random_record(&c);
    c.n_out = below(4) ? 200 + below(200) : below(60);
    c.n_ends = below(4) ? 40 : below(12);
    return c;
}

/* The lengths around each limit, for every operation and kind. */
static void boundaries(void) {
    static const size_t lengths[] = {0, 1, 2, 21, 22, 4095, 4096, 4097, 65535, 65536, 65537};
    for (int operation = 0; operation < OPERATIONS; operation++)
        for (uint64_t kind = 0; kind <= 20; kind++)
            for (size_t i = 0; i < sizeof lengths / sizeof *lengths; i++)
                for (int style = 2; style <= 3; style++) {
                    call c = {.operation = operation, .kind = kind, .codim = 1, .dimension = 2 + (uint64_t)(style == 3), .n_ids = lengths[i],
                              .n_out = MOST_OUT, .n_ends = TS_ELEMENT_LIMIT + 1, .n_points = 9000, .front = (int)below(2)};
                    fill_ids(&c, style);
                    for (size_t p = 0; p < c.n_points; p++)
                        given_points[p] = random_double();
                    if (operation == READ_IDS)
                        c.n_bytes = lengths[i];
                    if (operation == SPLIT_RECORD)
                        random_record(&c);
                    if (operation == WRITE_IDS)
                        c.n_out = 8 * lengths[i];
                    attack(c);
                }
}

/* The surface of document 01 that has no side face at a bottom edge, which no chance finds. */
static void no_side_face(void) {
    static const uint64_t faces[] = {1, 1, 2, 2, TS_SEPARATOR, 1, 1, 3, 3, TS_SEPARATOR, 2, 2, 4, 4, TS_SEPARATOR, 3, 3, 4, 4,
                                     TS_SEPARATOR, 5, 6, 7, 8, TS_SEPARATOR, 5, 6, 7, 8};
    call c = {.operation = FROM_POLY, .kind = TS_PHED, .n_ids = sizeof faces / 8, .n_out = 8};
    memcpy(given_ids, faces, sizeof faces);
    attack(c);
}

/* The number that stands for no refusal. */
enum { NEVER_GIVEN = 16 };

/* Every refusal is met in a whole run, and the number that stands for none never. */
static void all_met(void) {
    for (int r = 1; r <= 21; r++) {
        uint64_t met = 0;
        for (int operation = 0; operation < OPERATIONS; operation++)
            met += refusals[operation][r];
        if ((met == 0) != (r == NEVER_GIVEN)) {
            fprintf(stderr, "hostile: refusal %d was met %" PRIu64 " times\n", r, met);
            exit(1);
        }
    }
}

int main(int argc, char **argv) {
    uint64_t wanted = argc > 1 ? strtoull(argv[1], NULL, 10) : 1000000, total = 0;
    fault = argc > 2 ? atoi(argv[2]) : 0;
    ids_region = make_region(sizeof given_ids);
    points_region = make_region(sizeof given_points);
    bytes_region = make_region(sizeof given_bytes);
    out_region = make_region(sizeof held_out);
    ends_region = make_region(sizeof held_ends);
    for (size_t i = 0; i < sizeof held_out; i++)
        held_out[i] = (unsigned char)random64();
    for (size_t i = 0; i < sizeof held_ends / 8; i++)
        held_ends[i] = random64();
    memset(out_region.home, 0xc5, out_region.size);
    memset(ends_region.home, 0xc5, ends_region.size);
    signal(SIGSEGV, on_fault);
    signal(SIGBUS, on_fault);

    int whole = wanted >= 1000000;
    if (whole)
        boundaries();
    no_side_face();
    for (uint64_t i = 0; i < wanted; i++)
        attack(random_call((int)(i % OPERATIONS)));
    if (whole && fault == 0)
        all_met();

    for (int operation = 0; operation < OPERATIONS; operation++) {
        printf("%-18s %8" PRIu64 " calls, answered %" PRIu64 ", refused by", names[operation], calls[operation], refusals[operation][0]);
        for (int r = 1; r <= 21; r++)
            if (refusals[operation][r] != 0)
                printf(" %d", r);
        printf("\n");
        total += calls[operation];
    }
    printf("%" PRIu64 " calls\n", total);
    return 0;
}
