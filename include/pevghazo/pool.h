/* Pevghazo: a pool of unused rings, one record that is lent to each call. What all functions share is said in pevghazo.h.
 *
 * Groups return rings as issue lines, `group,size,first,last,day` and a line feed, as in "7,C,12001,12100,20250304\n":
 *
 *   - group is 0 to 31, first and last are 1 to 99,999,999, in decimal without leading zeros, and first is not above last;
 *   - size is one letter, A to H;
 *   - day is eight digits, any eight; season.h has additions that ask more of it.
 *
 * A pool holds runs of rings of one size, from a first number to a last one, up to 256 of them. Runs of one size that touch, the last of one
 * plus 1 being the first of the other, become one run. Zeroed memory is the empty pool.
 *
 *     static pevghazo_pool pool;
 *     static const char line[] = "7,C,12001,12100,20250304\n";
 *
 *     number = pevghazo_pool_add(&pool, (const uint8_t *)line, sizeof line - 1);
 *
 * After it pevghazo_pool_holds(&pool, 'C', 12050) is true, and pevghazo_pool_rings(&pool) is 100. From the empty pool, after every list of
 * lines, a number of a size is in the pool exactly where an accepted line held it, and the rings are those of the accepted lines together.
 *
 * The functions take any record and return. Of one that is neither zeroed memory nor what calls left, pevghazo_pool_add promises no more than
 * that, and that a refusal leaves it as it was. A pool is no secret: the calls' time depends on it and on the line.
 *
 * pevghazo_pool_add works on copies of the pool: as it is compiled for x86-64, a call uses about 15,600 bytes of stack, and one of the two others
 * about 3,200. */
#ifndef PEVGHAZO_POOL_H
#define PEVGHAZO_POOL_H

#include "numbers.h"

#ifdef __cplusplus
extern "C" {
#endif

/* Limits: the most runs of a pool, the highest number of a ring, and the most bytes of an issue line with its line feed. */
enum {
    PEVGHAZO_POOL_RUNS = 256,
    PEVGHAZO_RING_MAX = 99999999,
    PEVGHAZO_LINE_MAX = 32
};

/* A run: its size's letter, 'A' to 'H', and its first and its last number. The record has no padding. */
typedef struct pevghazo_run {
    uint32_t size;
    uint32_t first;
    uint32_t last;
} pevghazo_run;

PEVGHAZO_LAYOUT(run, sizeof(pevghazo_run) == 12);
PEVGHAZO_LAYOUT(run_size, offsetof(pevghazo_run, size) == 0);
PEVGHAZO_LAYOUT(run_first, offsetof(pevghazo_run, first) == 4);
PEVGHAZO_LAYOUT(run_last, offsetof(pevghazo_run, last) == 8);

/* A pool. Its runs are the first `used` of `runs`, in no order that means anything, or all of them where `used` is above 256. After an accepted
 * line all behind them is zero. */
typedef struct pevghazo_pool {
    size_t used;
    pevghazo_run runs[PEVGHAZO_POOL_RUNS];
} pevghazo_pool;

PEVGHAZO_LAYOUT(pool, sizeof(pevghazo_pool) == 3080);
PEVGHAZO_LAYOUT(pool_used, offsetof(pevghazo_pool, used) == 0);
PEVGHAZO_LAYOUT(pool_runs, offsetof(pevghazo_pool, runs) == 8);

/* Checks 13, 14, 15, in this order: 13 where the bytes are not exactly one line, its line feed included; 14 where a number from first to last is
 * pooled already in the line's size; 15 where more than 256 runs would be needed after joining. Otherwise the number is 0: the line's run is
 * joined with those that it touches on either side, and stands last; the other runs keep their order. A refusal leaves every byte of the pool.
 * Group and day of a line leave nothing in the pool. */
PEVGHAZO_MUST_USE uint32_t pevghazo_pool_add(pevghazo_pool *pool, const uint8_t *line, size_t line_len);

/* Whether a number of a size is pooled: whether a run of that size has it, from its first number to its last. Never refused, whatever size and
 * number. */
PEVGHAZO_MUST_USE pevghazo_flag pevghazo_pool_holds(const pevghazo_pool *pool, uint32_t size, uint32_t number);

/* The rings pooled: the sum of last - first + 1 over the runs. A run whose first number is above its last, which no call leaves, counts
 * nothing. */
PEVGHAZO_MUST_USE uint64_t pevghazo_pool_rings(const pevghazo_pool *pool);

#ifdef __cplusplus
}
#endif

#endif
