/* Rows of pages: see pages.h. */
#include "pages.h"
#include <setjmp.h>
#include <signal.h>
#include <stdbool.h>
#include <stdio.h>
#include <stdlib.h>
#include <string.h>
#include <sys/mman.h>
#include <unistd.h>

char doing[240] = "begin";
static const char *name;

void fail(const char *what) {
    fprintf(stderr, "%s: %s: %s\n", name, doing, what);
    exit(1);
}

void random_bytes(void *to, size_t n) {
    static uint64_t state;
    for (uint8_t *p = to; n > 0; p++, n--) {
        uint64_t z = state += 0x9E3779B97F4A7C15;
        z = (z ^ z >> 30) * 0xBF58476D1CE4E5B9;
        z = (z ^ z >> 27) * 0x94D049BB133111EB;
        *p = (uint8_t)(z ^ z >> 31);
    }
}

/* ---- rows */

/* A row's open bytes, and what they hold beside the buffer. */
static size_t page, size;
static uint8_t *known;

static uint8_t *open_bytes(void) {
    uint8_t *closed = mmap(NULL, size + 2 * page, PROT_NONE, MAP_PRIVATE | MAP_ANONYMOUS, -1, 0);
    if (closed == MAP_FAILED || mprotect(closed + page, size, PROT_READ | PROT_WRITE) != 0) fail("there is no memory");
    return closed + page;
}

const char *place_name(int where) {
    static const char *const names[] = {"directly behind a closed page", "directly before a closed page", "between"};
    return names[where < BETWEEN ? where : BETWEEN];
}

static uint8_t *place(uint8_t *first, int where, int step, size_t n) {
    switch (where) {
    case BEHIND: return first;
    case BEFORE: return first + size - n;
    default: return first + page - 32 + (where - BETWEEN) * step % ADDRESSES;
    }
}

void lay(row *r, int where, int step, const void *bytes, size_t n) {
    r->at = place(r->first, where, step, n);
    r->n = n;
    memcpy(r->first, known, size);
    memcpy(r->at, bytes, n);
}

void holds(const row *r, const void *bytes, const char *otherwise) {
    const size_t before = (size_t)(r->at - r->first), behind = before + r->n;
    if (memcmp(r->at, bytes, r->n) != 0) fail(otherwise);
    if (memcmp(r->first, known, before) != 0) fail("a byte before a buffer was altered");
    if (memcmp(r->first + behind, known + behind, size - behind) != 0) fail("a byte behind a buffer was altered");
}

/* ---- closed pages */

static sigjmp_buf stopped;

static void stop(int signal) {
    (void)signal;
    siglongjmp(stopped, 1);
}

static bool readable(const volatile uint8_t *p) {
    if (sigsetjmp(stopped, 1) != 0) return false;
    return *p, true;
}

static bool writable(volatile uint8_t *p) {
    if (sigsetjmp(stopped, 1) != 0) return false;
    return *p = 1, true;
}

/* Otherwise a test would see no byte that is read too far. */
static void pages_are_closed(uint8_t *first) {
    uint8_t *last = first + size - 1;
    if (!readable(first) || !writable(first) || !readable(last) || !writable(last)) fail("an open page is closed");
    if (readable(first - 1) || writable(first - 1) || readable(last + 1) || writable(last + 1)) fail("a closed page is open");
}

void make_rows(const char *test, row *rows, int count, size_t longest) {
    name = test;
    page = (size_t)sysconf(_SC_PAGESIZE);
    size = 2 * page + (longest / page + 1) * page;
    known = malloc(size);
    if (known == NULL || signal(SIGSEGV, stop) == SIG_ERR) fail("there is no memory, or no signal");
    random_bytes(known, size);
    for (int i = 0; i < count; i++) pages_are_closed(rows[i].first = open_bytes());
}

void beside_closed_pages(void (*test)(void)) {
    if (sigsetjmp(stopped, 1) != 0) fail("a byte beside the buffers was touched, or an address was taken for an aligned one");
    test();
}
