/* Times the proved code beside its peers: interleaved, medians of many runs, and ratios within the run. It prints tables and is no test. */
#include "peers.h"
#include "reference.h"
#include "sse2.h"
#include <stdio.h>
#include <stdlib.h>
#include <string.h>
#include <time.h>

/* The leaves that a library exports. */
typedef void permute_leaf(uint32_t s[12]);
typedef void compress_leaf(uint32_t acc[12], uint32_t mask[12], const uint8_t *s, size_t n);
typedef uint32_t expand_leaf(const uint32_t y[12], const uint32_t mask[12], uint8_t *out, size_t n);
permute_leaf pevghazo_permute, earlier_permute;
compress_leaf pevghazo_compress, pevghazo_compress_four, earlier_compress;
expand_leaf pevghazo_expand, pevghazo_expand_four, earlier_expand;

enum { RUNS = 41, SIDES = 10 };

/* The thread's time on the processor, which other programs' turns do not enter. */
static double now(void) {
    struct timespec t;
    clock_gettime(CLOCK_THREAD_CPUTIME_ID, &t);
    return t.tv_sec * 1e9 + t.tv_nsec;
}

static int order(const void *a, const void *b) {
    double x = *(const double *)a, y = *(const double *)b;
    return (x > y) - (x < y);
}

static double median(double v[RUNS]) {
    qsort(v, RUNS, sizeof v[0], order);
    return v[RUNS / 2];
}

static void fail(const char *who, const char *what) {
    fprintf(stderr, "bench: %s: %s\n", who, what);
    exit(1);
}

/* What a side's leaves work on. */
typedef struct leaf_state {
    uint32_t s[12], k[12];
    uint8_t out[LONGEST];
} leaf_state;

/* What is timed: a name, and a call that gives whether it went well; for a leaf, also what the call works on. */
typedef struct side {
    const char *name;
    bool (*call)(void);
    leaf_state *state;
} side;

/* A job: the sides that do it, the library first; how many of the first sides' times are divided by all the others'; the calls in a
 * measurement, and the bytes that a call works on, 0 where times per byte say nothing. */
typedef struct job {
    const char *title;
    const side *sides;
    int n, firsts, calls;
    size_t bytes;
} job;

static const char *const ratios[] = {"library / it", "by four / it"};

static double times[SIDES][RUNS];

static double median_time(int k) {
    double v[RUNS];
    memcpy(v, times[k], sizeof v);
    return median(v);
}

/* The median of what side f's time divided by side k's is in each run. */
static double median_ratio(int f, int k) {
    double v[RUNS];
    for (int r = 0; r < RUNS; r++) v[r] = times[f][r] / times[k][r];
    return median(v);
}

static void print_table(const job *j) {
    printf("\n%-30s %12s %10s", j->title, "ns/call", "ns/byte");
    for (int f = 0; f < j->firsts; f++) printf(" %14s", ratios[f]);
    printf("\n");
    for (int k = 0; k < j->n; k++) {
        double t = median_time(k);
        printf("  %-28s %12.1f ", j->sides[k].name, t);
        if (j->bytes)
            printf("%10.3f", t / j->bytes);
        else
            printf("%10s", "");
        for (int f = 0; f < j->firsts; f++) printf(" %14.3f", median_ratio(f, k));
        printf("\n");
    }
}

/* Times the calls of each side, in turn, RUNS times. */
static void compare(const job *j) {
    for (int r = 0; r < RUNS; r++) {
        for (int k = 0; k < j->n; k++) {
            bool ok = true;
            double t = now();
            for (int i = 0; i < j->calls; i++) ok &= j->sides[k].call();
            times[k][r] = (now() - t) / j->calls;
            if (!ok) fail(j->sides[k].name, j->title);
        }
    }
    print_table(j);
}

/* ---- the leaves */

static size_t leaf_size;

/* A side's state, and its leaves as calls on it. */
#define STRINGS(who, compress, expand)                                                                   \
    static leaf_state who;                                                                               \
    static bool who##_compresses(void) { return compress(who.s, who.k, peer_message, leaf_size), true; } \
    static bool who##_expands(void) { return expand(who.s, who.k, who.out, leaf_size), true; }
#define LEAVES(who)                            \
    STRINGS(who, who##_compress, who##_expand) \
    static bool who##_permutes(void) { return who##_permute(who.s), true; }
LEAVES(pevghazo)
STRINGS(four, pevghazo_compress_four, pevghazo_expand_four)
LEAVES(reference)
STRINGS(by_hand, sse2_compress, sse2_expand)
#ifdef WITH_EARLIER
LEAVES(earlier)
#define IF_EARLIER(...) __VA_ARGS__
#else
#define IF_EARLIER(...)
#endif

#define SIDE(name, who, calls) {name, who##_##calls, &who}
static const side permutes[] = {
    SIDE(LIBRARY, pevghazo, permutes), IF_EARLIER(SIDE(BEFORE, earlier, permutes),) SIDE(PLAIN, reference, permutes)};
#define STRING_SIDES(calls)                                                                                \
    {SIDE(LIBRARY, pevghazo, calls), SIDE(BY_FOUR, four, calls), IF_EARLIER(SIDE(BEFORE, earlier, calls),) \
     SIDE(PLAIN, reference, calls), SIDE(BY_HAND, by_hand, calls)}
static const side compresses[] = STRING_SIDES(compresses), expands[] = STRING_SIDES(expands);
#define COUNT(sides) ((int)(sizeof(sides) / sizeof(sides)[0]))

static void same(const char *who, const void *a, const void *b, size_t n) {
    if (memcmp(a, b, n) != 0) fail(who, "the two sides disagree");
}

static void same_leaves(const job *j) {
    for (int k = 1; k < j->n; k++) same(j->title, j->sides[k].state, j->sides[0].state, sizeof(leaf_state));
}

/* All sides go on from the library's state. Results are compared after one call of each side, too: after an even number of them, what each
 * adds to the same bytes is gone. */
static void leaf(const job *j) {
    for (int k = 1; k < j->n; k++) *j->sides[k].state = *j->sides[0].state;
    for (int k = 0; k < j->n; k++) (void)j->sides[k].call();
    same_leaves(j);
    compare(j);
    same_leaves(j);
}

/* Compression and expansion of so many bytes. */
static void leaves_of(const char *title, size_t size, int calls) {
    char line[64];
    leaf_size = size;
    snprintf(line, sizeof line, "compress, %s bytes", title);
    leaf(&(job){line, compresses, COUNT(compresses), 2, calls, size});
    snprintf(line, sizeof line, "expand, %s bytes", title);
    leaf(&(job){line, expands, COUNT(expands), 2, calls, size});
}

/* ---- sessions */

/* Every peer gives back its message, and those that seal alike give the same bytes. */
static void check_peers(void) {
    for (int k = 0; k < peer_count; k++) {
        const peer *p = &peers[k];
        memset(p->out, 0, LONGEST), memset(p->tag, 0, 32), memset(p->back, 0, LONGEST);
        if ((p->start && !p->start()) || !p->wrap() || !p->unwrap()) fail(p->name, "a call failed");
        same(p->name, p->back, peer_message, peer_size);
        if (!p->sanse) continue;
        same(p->name, p->out, peers[0].out, peer_size);
        same(p->name, p->tag, peers[0].tag, 32);
    }
}

static void sessions(const char *title, size_t size, int calls) {
    side wraps[SIDES], unwraps[SIDES];
    char line[64];
    peer_size = size;
    check_peers();
    for (int k = 0; k < peer_count; k++) {
        wraps[k] = (side){peers[k].name, peers[k].wrap, NULL};
        unwraps[k] = (side){peers[k].name, peers[k].unwrap, NULL};
    }
    snprintf(line, sizeof line, "wrap, %s bytes", title);
    compare(&(job){line, wraps, peer_count, 2, calls, size});
    snprintf(line, sizeof line, "unwrap, %s bytes", title);
    compare(&(job){line, unwraps, peer_count, 2, calls, size});
    check_peers();
}

static void starts(void) {
    side sides[SIDES];
    int n = 0;
    for (int k = 0; k < peer_count; k++)
        if (peers[k].start) sides[n++] = (side){peers[k].name, peers[k].start, NULL};
    compare(&(job){"start", sides, n, 1, 5000, 0});
}

int main(void) {
    if (!peers_ready()) fail("libsodium", "it does not start");
    for (int i = 0; i < LONGEST; i++) peer_message[i] = (uint8_t)(i * 7 + i / 256);
    for (int i = 0; i < KEY; i++) peer_key[i] = (uint8_t)(i * 11 + 3);
    pevghazo.k[0] = 1;
    leaf(&(job){"permutation", permutes, COUNT(permutes), 1, 20000, 0});
    leaves_of("64", 64, 5000);
    leaves_of("16,384", LONGEST, 50);
    starts();
    sessions("64", 64, 1000);
    sessions("191", 191, 700);
    sessions("192", 192, 700);
    sessions("1,024", 1024, 200);
    sessions("16,384", LONGEST, 20);
    printf("\nMedians of %d interleaved runs, of times and of ratios. Wrap and unwrap take %d bytes of metadata beside the bytes named. AES-256-SIV's\n"
           "calls set the key each time, as OpenSSL's interface asks; OpenSSL's start sets the key for both directions.\n", RUNS, METADATA);
    return 0;
}
