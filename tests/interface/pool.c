/* A pool of unused rings as a C program sees it in the installed library: issue lines at their edges, runs that are joined and runs that are not,
 * 256 runs and one more, refusals that leave every byte, and records of any bytes. */
#include <inttypes.h>
#include <pevghazo.h>
#include <stdio.h>
#include <stdlib.h>
#include <string.h>

static void check(const char *what, uint64_t found, uint64_t expected) {
    if (found == expected) return;
    fprintf(stderr, "pool: %s gives %" PRIu64 ", and should give %" PRIu64 "\n", what, found, expected);
    exit(1);
}

/* The pool, and what it was before a call. */
static pevghazo_pool pool, before;

/* Adds bytes, and looks at the number; a refusal leaves every byte of the record. */
static void adds(const char *bytes, size_t length, uint32_t expected) {
    memcpy(&before, &pool, sizeof pool);
    const uint32_t number = pevghazo_pool_add(&pool, (const uint8_t *)bytes, length);
    check(bytes, number, expected);
    if (expected != PEVGHAZO_ACCEPTED) check("the record after a refusal", memcmp(&before, &pool, sizeof pool) != 0, 0);
}

/* The same for a text without zeros. */
static void line(const char *text, uint32_t expected) { adds(text, strlen(text), expected); }

/* A line of these rings. */
static void rings(char size, uint32_t first, uint32_t last, uint32_t expected) {
    char text[PEVGHAZO_LINE_MAX + 1];
    snprintf(text, sizeof text, "7,%c,%" PRIu32 ",%" PRIu32 ",20250304\n", size, first, last);
    line(text, expected);
}

static void empty(void) { memset(&pool, 0, sizeof pool); }

/* The pool has so many runs, of so many rings, and one of them is this. */
static void has(const char *what, size_t runs, uint64_t all, char size, uint32_t first, uint32_t last) {
    bool found = false;
    check(what, pool.used, runs);
    check(what, pevghazo_pool_rings(&pool), all);
    for (size_t i = 0; i < runs; i++)
        found |= pool.runs[i].size == (uint32_t)size && pool.runs[i].first == first && pool.runs[i].last == last;
    check(what, found, true);
    for (size_t i = runs; i < PEVGHAZO_POOL_RUNS; i++)
        check("what stands behind the runs", pool.runs[i].size != 0 || pool.runs[i].first != 0 || pool.runs[i].last != 0, 0);
}

/* Whether a number of a size is held. */
static void held(uint32_t size, uint32_t number, bool expected) {
    memcpy(&before, &pool, sizeof pool);
    check("whether a number is held", pevghazo_pool_holds(&pool, size, number), expected);
    check("the record after a question", memcmp(&before, &pool, sizeof pool) != 0, 0);
}

/* Zeroed memory is the empty pool; the header's example. */
static void example(void) {
    empty();
    check("the rings of zeroed memory", pevghazo_pool_rings(&pool), 0);
    for (uint32_t size = 0; size < 1024; size++) held(size, size, false);
    line("7,C,12001,12100,20250304\n", PEVGHAZO_ACCEPTED);
    has("the first line", 1, 100, 'C', 12001, 12100);
    held('C', 12000, false), held('C', 12001, true), held('C', 12050, true), held('C', 12100, true), held('C', 12101, false);
    held('D', 12050, false), held('c', 12050, false), held(0, 12050, false), held('C' + 256, 12050, false), held(UINT32_MAX, 12050, false);
}

/* Runs that touch on the left, on the right and on both sides become one; those with a number between them, or of another size, do not. */
static void joins(void) {
    empty();
    rings('C', 100, 199, PEVGHAZO_ACCEPTED), has("a first run", 1, 100, 'C', 100, 199);
    rings('C', 200, 209, PEVGHAZO_ACCEPTED), has("joined on the left", 1, 110, 'C', 100, 209);
    rings('C', 90, 99, PEVGHAZO_ACCEPTED), has("joined on the right", 1, 120, 'C', 90, 209);
    rings('C', 211, 220, PEVGHAZO_ACCEPTED), has("a gap of one", 2, 130, 'C', 211, 220);
    rings('C', 80, 88, PEVGHAZO_ACCEPTED), has("a gap of one before", 3, 139, 'C', 80, 88);
    rings('D', 210, 210, PEVGHAZO_ACCEPTED), has("another size", 4, 140, 'D', 210, 210);
    rings('C', 210, 210, PEVGHAZO_ACCEPTED), has("joined on both sides", 3, 141, 'C', 90, 220);
    check("the place of a joined run", pool.runs[2].first, 90);
    rings('C', 89, 89, PEVGHAZO_ACCEPTED), has("joined on both sides again", 2, 142, 'C', 80, 220);
    rings('C', 80, 80, PEVGHAZO_POOLED), rings('C', 220, 300, PEVGHAZO_POOLED), rings('C', 1, 80, PEVGHAZO_POOLED);
    rings('C', 100, 110, PEVGHAZO_POOLED), rings('C', 1, 99999999, PEVGHAZO_POOLED), rings('D', 210, 210, PEVGHAZO_POOLED);
    rings('D', 99999999, 99999999, PEVGHAZO_ACCEPTED), has("the highest number", 3, 143, 'D', 99999999, 99999999);
}

/* 256 runs are full: a further one is refused, one that touches a run is taken, and one that joins two makes room. */
static void full(void) {
    empty();
    for (uint32_t i = 0; i < PEVGHAZO_POOL_RUNS; i++) rings((char)('A' + i % 8), 10 + 2 * i, 10 + 2 * i, PEVGHAZO_ACCEPTED);
    has("256 runs", 256, 256, 'H', 520, 520);
    rings('A', 1, 1, PEVGHAZO_POOL_FULL), rings('H', 522, 522, PEVGHAZO_POOL_FULL), rings('B', 10, 10, PEVGHAZO_POOL_FULL);
    rings('A', 10, 10, PEVGHAZO_POOLED), line("7,A,1,1,20250304", PEVGHAZO_BAD_LINE);
    rings('H', 521, 530, PEVGHAZO_ACCEPTED), has("a run that is made longer", 256, 266, 'H', 520, 530);
    rings('A', 11, 25, PEVGHAZO_ACCEPTED), has("two runs that are joined", 255, 281, 'A', 10, 26);
    rings('A', 1, 1, PEVGHAZO_ACCEPTED), has("256 runs again", 256, 282, 'A', 1, 1);
    rings('B', 1, 1, PEVGHAZO_POOL_FULL);
}

/* Lines at their edges, with the number that each gets in an empty pool. */
static void edges(void) {
    static const char *const good[] = {"0,A,1,1,00000000\n", "31,H,99999999,99999999,99999999\n", "9,B,1,99999999,20250230\n"};
    static const char *const bad[] = {
        "", "\n", "7,C,12001,12100,20250304", "7,C,12001,12100,20250304\r\n", "7,C,12001,12100,20250304\n\n", "7,C,12001,12100,20250304\nx",
        "32,C,12001,12100,20250304\n", "031,C,12001,12100,20250304\n", "00,C,12001,12100,20250304\n", ",C,12001,12100,20250304\n",
        "7,I,12001,12100,20250304\n", "7,a,12001,12100,20250304\n", "7,,12001,12100,20250304\n", "7,CC,12001,12100,20250304\n",
        "7,C,0,12100,20250304\n", "7,C,012001,12100,20250304\n", "7,C,12001,012100,20250304\n", "7,C,12001,100000000,20250304\n",
        "7,C,4294967297,4294967298,20250304\n", "7,C,12101,12100,20250304\n", "7,C,12001,12100,2025030\n", "7,C,12001,12100,202503044\n",
        "7,C,12001,12100,2025030x\n", "7,C,12001,12100\n", "7,C,12001,12100,20250304,\n", "+7,C,12001,12100,20250304\n",
        " 7,C,12001,12100,20250304\n"};
    for (size_t i = 0; i < sizeof good / sizeof good[0]; i++) empty(), line(good[i], PEVGHAZO_ACCEPTED);
    check("the most bytes of a line", strlen(good[1]), PEVGHAZO_LINE_MAX);
    check("the highest number of a ring", pool.runs[0].last, PEVGHAZO_RING_MAX);
    empty();
    for (size_t i = 0; i < sizeof bad / sizeof bad[0]; i++) line(bad[i], PEVGHAZO_BAD_LINE);
    adds("7,C,12001,12100,20250304\n", 26, PEVGHAZO_BAD_LINE);
    adds("7,C,12001,12100,20250304\n", 0, PEVGHAZO_BAD_LINE);
}

/* Test data: splitmix64. */
static uint64_t any(void) {
    static uint64_t state = 6;
    uint64_t z = state += 0x9E3779B97F4A7C15;
    z = (z ^ (z >> 30)) * 0xBF58476D1CE4E5B9;
    z = (z ^ (z >> 27)) * 0x94D049BB133111EB;
    return z ^ (z >> 31);
}

/* Both questions of a record of any bytes are answered by the runs that it has. */
static void any_questions(void) {
    const size_t used = pool.used < PEVGHAZO_POOL_RUNS ? pool.used : PEVGHAZO_POOL_RUNS;
    uint64_t all = 0;
    bool has_5 = false;
    for (size_t i = 0; i < used; i++) {
        const pevghazo_run run = pool.runs[i];
        if (run.first <= run.last) all += (uint64_t)run.last - run.first + 1;
        has_5 |= run.size == 'C' && run.first <= 5 && 5 <= run.last;
    }
    held('C', 5, has_5);
    check("the rings of any record", pevghazo_pool_rings(&pool), all);
}

/* Every call on a record of any bytes finishes, and a refusal leaves them. */
static void any_record(size_t used) {
    for (size_t i = 0; i < sizeof pool / 8; i++) {
        const uint64_t word = any();
        memcpy((uint8_t *)&pool + 8 * i, &word, 8);
    }
    for (size_t i = 0; i < PEVGHAZO_POOL_RUNS; i += 3)
        pool.runs[i].size = 'A' + (uint32_t)i % 8, pool.runs[i].first %= 64, pool.runs[i].last %= 64;
    pool.used = used;
    any_questions();
    line("7,C,1,99999999,20250304", PEVGHAZO_BAD_LINE);
    memcpy(&before, &pool, sizeof pool);
    const uint32_t number = pevghazo_pool_add(&pool, (const uint8_t *)"7,C,5,5,20250304\n", 17);
    check("the number of any record", number == PEVGHAZO_ACCEPTED || number == PEVGHAZO_POOLED || number == PEVGHAZO_POOL_FULL, true);
    if (number != PEVGHAZO_ACCEPTED) check("any record after a refusal", memcmp(&before, &pool, sizeof pool) != 0, 0);
    any_questions();
}

static void any_records(void) {
    static const size_t used[] = {0, 1, 2, 255, 256, 257, 1 << 20, SIZE_MAX - 1, SIZE_MAX};
    for (int i = 0; i < 2000; i++) any_record(used[i % 9]);
}

int main(void) {
    example();
    joins();
    full();
    edges();
    any_records();
    puts("pool: issue lines are read at their edges, runs that touch are joined, the 257th is refused, and refusals leave every byte");
    return 0;
}
