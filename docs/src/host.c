/*
 * A host program that keeps 6522 timer pairs and lends them to the proved library, which has to do what the plain reference
 * here does: one clock, written down from the chip's rules, and arithmetic for runs that are too long to clock.
 *
 *     cc -std=c11 -Wall -Wextra -Werror -O2 -Iinclude -o host docs/src/host.c target/staticlib/liblent.a
 *
 * tests/lent makes it and runs it. The first difference is printed field by field and ends it with 1.
 */
#define _POSIX_C_SOURCE 200809L
#include <stddef.h>
#include <stdio.h>
#include <stdlib.h>
#include <string.h>
#include <time.h>

#include "lent.h"

enum { REFUSED = 1, PAIRS = 2000000, LONG_PAIRS = 300000, LONG_RUNS = 10000000, BILLION = 1000000000 };

/* ---------------------------------------------------------------- the plain reference */

static bool ill_formed(const struct timers *p) { return p->t1.mark && p->t1.counter != 65535; }

/* What a passing of zero does besides the count. In free-run it makes no difference whether T1 is armed. */
static void t1_passes(struct t1 *t1) {
    if (t1->free) {
        t1->flag = true;
        t1->level = !t1->level;
    } else if (t1->armed) {
        t1->flag = true;
        t1->armed = false;
        t1->level = true;
    }
}

static void t2_wraps(struct t2 *t2) {
    t2->flag = t2->flag || t2->armed;
    t2->armed = false;
}

static unsigned plain_clock(struct timers *p) {
    if (ill_formed(p)) return REFUSED;
    if (p->t1.mark) {
        p->t1.counter = p->t1.latch;
        p->t1.mark = false;
    } else if (p->t1.counter-- == 0) {
        p->t1.mark = true;
        t1_passes(&p->t1);
    }
    if (!p->t2.pulse && p->t2.counter-- == 0) t2_wraps(&p->t2);
    return 0;
}

/* A run of 0 is refused too. */
static unsigned plain_run(struct timers *p, uint32_t n) {
    unsigned number = ill_formed(p) ? REFUSED : 0;
    while (n-- > 0) number |= plain_clock(p);
    return number;
}

/* T1 from passing to passing: a clock for the reload, latch clocks down to 0, a clock for the passing. */
static void t1_by_arithmetic(struct t1 *t1, uint32_t n) {
    uint32_t period = t1->latch + 2u, since = t1->mark ? n : n - t1->counter - 1;
    uint32_t passings = since / period + !t1->mark, rest = since % period;
    t1->mark = rest == 0;
    t1->counter = rest == 0 ? 65535 : t1->latch + 1 - rest;
    if (passings > 0) t1_passes(t1);
    if (passings > 0 && passings % 2 == 0 && t1->free) t1->level = !t1->level;
}

static unsigned by_arithmetic(struct timers *p, uint32_t n) {
    if (ill_formed(p)) return REFUSED;
    if (p->t1.mark || n > p->t1.counter) t1_by_arithmetic(&p->t1, n);
    else p->t1.counter -= n;
    if (p->t2.pulse) return 0;
    if (n > p->t2.counter) t2_wraps(&p->t2);
    p->t2.counter = (p->t2.counter - n) % 65536;
    return 0;
}

/* ---------------------------------------------------------------- pairs, field by field */

#define FIELD(name, most) {#name, offsetof(struct timers, name), sizeof(((struct timers *)0)->name), most}
static const struct field {
    const char *name;
    size_t at, size;
    uint32_t most;
} FIELDS[] = {
    FIELD(t1.counter, 65535), FIELD(t1.latch, 65535), FIELD(t1.armed, 1), FIELD(t1.mark, 1),
    FIELD(t1.level, 1),       FIELD(t1.flag, 1),      FIELD(t1.free, 1),  FIELD(t2.counter, 65535),
    FIELD(t2.low, 255),       FIELD(t2.armed, 1),     FIELD(t2.flag, 1),  FIELD(t2.pulse, 1),
};
static const struct field *const END = FIELDS + sizeof FIELDS / sizeof *FIELDS;

/* A field's bytes as a number, the low byte first, as on x86-64. Read like this, a bool that is neither 0 nor 1 shows. */
static uint32_t value(const struct timers *p, const struct field *f) {
    uint32_t v = 0;
    memcpy(&v, (const unsigned char *)p + f->at, f->size);
    return v;
}

/* The middle pair is lent. Its address is a multiple of 2 and of no more, for a host need not see to more than that. */
static struct {
    _Alignas(16) uint16_t two_bytes;
    struct timers row[3];
} kept;
static struct timers *const lent = &kept.row[1];
static struct timers before;

/* Copied as bytes, for an assignment need not copy those between the fields. */
static void keep(void) {
    for (int i = 0; i < 3; i++) memcpy(&kept.row[i], &before, sizeof before);
}

static bool as_before(const struct timers *p) { return memcmp(p, &before, sizeof before) == 0; }

/* Holds the lent pair and the number given for it against the plain ones, and keeps the pair as before for the next trial. */
static void agree(const char *what, uint32_t n, unsigned given, unsigned number, const struct timers *plain) {
    const char *fault = NULL;
    if (!as_before(lent - 1) || !as_before(lent + 1)) fault = "a byte beside the pair was changed";
    if (number == REFUSED && !as_before(lent)) fault = "a byte of a refused pair was changed";
    for (const struct field *f = FIELDS; f < END; f++)
        if (value(lent, f) != value(plain, f)) fault = "the pairs differ";
    if (given != number) fault = "the refusal numbers differ";
    if (fault != NULL) {
        printf("%s (n = %u): %s\n%-12s%8s%8s%8s\n", what, n, fault, "", "before", "given", "plain");
        printf("%-20s%8u%8u\n", "number", given, number);
        for (const struct field *f = FIELDS; f < END; f++)
            printf("%-12s%8u%8u%8u\n", f->name, value(&before, f), value(lent, f), value(plain, f));
        exit(1);
    }
    keep();
}

/* ---------------------------------------------------------------- generated pairs */

static uint32_t next(void) {
    static uint64_t state = 0x6522652265226522;
    state ^= state << 13;
    state ^= state >> 7;
    state ^= state << 17;
    return state >> 32;
}

/* From 0 to most, which is a power of 2 less 1; half of the time near an edge. */
static uint32_t any(uint32_t most) {
    uint32_t r = next();
    switch (next() % 8) {
    case 0: return r % 2;
    case 1: return most - r % 2;
    case 2: return r % 16 & most;
    case 3: return r % 300 & most;
    default: return r & most;
    }
}

/* Half of the marked pairs are made well-formed. The bytes between the fields have a pattern, not always the same. */
static void make_pair(void) {
    memset(&before, next() % 256, sizeof before);
    for (const struct field *f = FIELDS; f < END; f++) {
        uint32_t v = any(f->most);
        memcpy((unsigned char *)&before + f->at, &v, f->size);
    }
    if (before.t1.mark && next() % 2 == 0) memset(&before.t1.counter, 0xFF, sizeof before.t1.counter);
    keep();
}

/* ---------------------------------------------------------------- what is tried */

/* n single lent clocks. Gives the number if each of them gave it. */
static unsigned lent_clocks(uint32_t n, unsigned number) {
    unsigned other = 0;
    while (n-- > 0) other |= clock_pair(lent) ^ number;
    return number ^ other;
}

/* The same by lent runs of up to `most` clocks, which are counted. */
static unsigned lent_runs(uint32_t n, uint32_t most, unsigned number, unsigned *runs) {
    unsigned other = 0;
    for (uint32_t m; n > 0; n -= m, ++*runs) {
        m = any(most);
        m = m < n ? m : n;
        other |= run_pair(lent, m) ^ number;
    }
    return number ^ other;
}

static void try_pairs(void) {
    unsigned refused = 0, clocks = 0;
    for (int i = 0; i < PAIRS; i++) {
        uint32_t r = next(), n = r % 16 == 0 ? next() % 2 : r % 1024 == 1 ? next() % 70000 : next() % 301;
        make_pair();
        struct timers plain = before;
        agree("a single lent clock", 1, clock_pair(lent), plain_clock(&plain), &plain);
        plain = before;
        unsigned number = plain_run(&plain, n);
        agree("a lent run", n, run_pair(lent, n), number, &plain);
        if (n > 0) agree("single lent clocks", n, lent_clocks(n, number), number, &plain);
        agree("arithmetic of the reference itself", n, by_arithmetic(lent, n), number, &plain);
        refused += number;
        clocks += n;
    }
    printf("%d generated pairs, %u of them refused: a lent clock is a plain clock; a lent run is as many plain clocks, and as many "
           "single lent ones, %u in all\n", PAIRS, refused, clocks);
}

static void try_longest(void) {
    unsigned refused = 0, runs = 0;
    for (int i = 0; i < LONG_PAIRS; i++) {
        make_pair();
        struct timers plain = before;
        unsigned number = by_arithmetic(&plain, UINT32_MAX);
        agree("the longest lent run", UINT32_MAX, run_pair(lent, UINT32_MAX), number, &plain);
        agree("uneven lent runs", UINT32_MAX, lent_runs(UINT32_MAX, UINT32_MAX, number, &runs), number, &plain);
        refused += number;
    }
    printf("%d generated pairs, %u of them refused: one lent run of %u clocks leaves what arithmetic gives, and so do uneven lent "
           "runs of as many, %u in all\n", LONG_PAIRS, refused, UINT32_MAX, runs);
}

static double now(void) {
    struct timespec t;
    clock_gettime(CLOCK_MONOTONIC, &t);
    return t.tv_sec + t.tv_nsec / 1e9;
}

static double plain_took, lent_took, run_took;

static void try_billion(void) {
    /* In free-run. In the header's order and without names, so that with one field more a warning stops the compiler. */
    before = (struct timers){{1234, 4320, true, false, true, false, true}, {54321, 52, true, false, false}};
    struct timers plain = before;
    unsigned runs = 0;
    keep();
    double start = now();
    unsigned number = plain_run(&plain, BILLION);
    plain_took = now() - start;
    start = now();
    unsigned given = lent_clocks(BILLION, number);
    lent_took = now() - start;
    agree("single lent clocks", BILLION, given, number, &plain);
    start = now();
    given = run_pair(lent, BILLION);
    run_took = now() - start;
    agree("one lent run", BILLION, given, number, &plain);
    agree("uneven lent runs", BILLION, lent_runs(BILLION, 0xFFFFF, number, &runs), number, &plain);
    printf("1 pair in free-run, %d clocks: plain clocks, single lent clocks, one lent run and %u uneven lent runs leave the same\n",
           BILLION, runs);
}

/* Of the pair that the billion clocks were tried on. */
static double longest_run_takes(void) {
    double start = now();
    for (int i = 0; i < LONG_RUNS; i++) run_pair(lent, UINT32_MAX);
    return (now() - start) / LONG_RUNS;
}

int main(void) {
    setvbuf(stdout, NULL, _IOLBF, 0); /* a library that ends the program takes no line with it */
    try_pairs();
    try_billion();
    if (run_took * 100 > lent_took) {
        printf("the one lent run took %.3f s: its time grows with the clocks\n", run_took);
        return 1;
    }
    double longest_took = longest_run_takes();
    try_longest();
    printf("%d single lent clocks: %.2f s\n", BILLION, lent_took);
    printf("%d plain clocks: %.2f s\n", BILLION, plain_took);
    printf("one lent run of %u clocks: %.1f ns\n", UINT32_MAX, longest_took * 1e9);
}
