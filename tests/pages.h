/* Rows of pages, for tests that see each byte touched beside a buffer.
 *
 * Each buffer stands in a row of its own between two pages that are closed: directly behind the one, directly before the other, or in between, over
 * the border of two open pages. So a byte that is touched too far ends the program, and one that is altered beside a buffer is seen: what stands
 * there is known. */
#ifndef PAGES_H
#define PAGES_H
#include <stddef.h>
#include <stdint.h>

/* Where a buffer stands: behind a closed page, before one, or between, at one of the addresses modulo 16. */
enum { BEHIND, BEFORE, BETWEEN, ADDRESSES = 16, PLACES = BETWEEN + ADDRESSES };

/* In words, for what a test is doing. */
const char *place_name(int where);

/* What a test is doing, and its end where that fails. */
extern char doing[240];
_Noreturn void fail(const char *what);

/* Test data: splitmix64. */
void random_bytes(void *to, size_t n);

/* A row, by its first open byte, and the buffer in it. */
typedef struct row {
    uint8_t *first, *at;
    size_t n;
} row;

/* Makes rows for buffers of up to `longest` bytes, with pages that are seen to be closed, for the test of this name. To be called once. */
void make_rows(const char *test, row *rows, int count, size_t longest);

/* Lays a buffer of these bytes out; where it stands between, its addresses go by steps. */
void lay(row *r, int where, int step, const void *bytes, size_t n);

/* The buffer holds these bytes, and all beside it is as it was. */
void holds(const row *r, const void *bytes, const char *otherwise);

/* Runs a test, and fails where it touches a closed page. */
void beside_closed_pages(void (*test)(void));

#endif
