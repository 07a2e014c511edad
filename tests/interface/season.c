/* Issue seasons as a C program sees them in the installed library: the header's example, first permitted days worked out by hand, days and dates that
 * do not exist, the window of a line's own size, the order of the numbers, and refusals that leave every byte. */
#include <inttypes.h>
#include <pevghazo.h>
#include <stdio.h>
#include <stdlib.h>
#include <string.h>

static void check(const char *what, uint64_t found, uint64_t expected) {
    if (found == expected) return;
    fprintf(stderr, "season: %s gives %" PRIu64 ", and should give %" PRIu64 "\n", what, found, expected);
    exit(1);
}

/* The pool and the windows, and what they were before a call. */
static pevghazo_pool pool, before;
static pevghazo_windows windows, windows_before;

static void remember(void) {
    memcpy(&before, &pool, sizeof pool);
    memcpy(&windows_before, &windows, sizeof windows);
}

/* Nothing was altered since then. */
static void same_pool(const char *what) { check(what, memcmp(&before, &pool, sizeof pool) != 0, 0); }
static void same_windows(const char *what) { check(what, memcmp(&windows_before, &windows, sizeof windows) != 0, 0); }

/* Adds bytes, and looks at the number; a refusal leaves every byte of the pool, and no call one of the windows. */
static void adds(const char *bytes, size_t length, uint32_t expected) {
    remember();
    check(bytes, pevghazo_pool_add_in_season(&pool, &windows, (const uint8_t *)bytes, length), expected);
    if (expected != PEVGHAZO_ACCEPTED) same_pool(bytes);
    same_windows(bytes);
}

/* The same for a text without zeros. */
static void line(const char *text, uint32_t expected) { adds(text, strlen(text), expected); }

/* Asks for the first permitted day. */
static void asks(const char *text, uint32_t number, bool found, uint32_t day) {
    remember();
    const pevghazo_first first = pevghazo_first_day(&windows, (const uint8_t *)text, strlen(text));
    check(text, first.number, number);
    check(text, first.found, found);
    check(text, first.day, day);
    same_windows(text);
}

/* A window from one date of four digits to another, and one for all sizes. */
static pevghazo_window window(unsigned opening, unsigned closing) {
    const pevghazo_window made = {(uint8_t)(opening / 100), (uint8_t)(opening % 100), (uint8_t)(closing / 100), (uint8_t)(closing % 100)};
    return made;
}

static void all_sizes(pevghazo_window own) {
    for (size_t i = 0; i < PEVGHAZO_SIZES; i++) windows.sizes[i] = own;
}

static void empty(void) { memset(&pool, 0, sizeof pool); }

/* The header's example; windows of zeros have no date that exists. */
static void example(void) {
    static const pevghazo_window spring = {3, 1, 6, 30};
    windows.sizes['C' - 'A'] = spring;
    line("7,C,12001,12100,20250704\n", PEVGHAZO_OUT_OF_SEASON);
    asks("7,C,12001,12100,20250704\n", PEVGHAZO_ACCEPTED, true, 20260301);
    line("7,D,12001,12100,20250304\n", PEVGHAZO_NO_SUCH_DAY);
    asks("7,D,12001,12100,20250304\n", PEVGHAZO_NO_SUCH_DAY, false, 0);
    line("7,C,12001,12100,20250304\n", PEVGHAZO_ACCEPTED);
    check("the rings", pevghazo_pool_rings(&pool), 100);
}

/* A window, a day, and the first permitted day from it on, by hand; 0 for none. */
static const unsigned by_hand[][4] = {
    {229, 229, 20960301, 21040229}, {229, 229, 21960301, 0}, {229, 229, 20240229, 20240229}, {229, 229, 20230301, 20240229},
    {101, 105, 21990201, 0}, {101, 105, 21990105, 21990105}, {1231, 101, 20250102, 20251231}, {1231, 101, 20260101, 20260101},
    {1231, 101, 19000101, 19000101}, {1231, 101, 21990102, 21991231}, {301, 228, 20240229, 20240301}, {301, 228, 20230228, 20230228},
    {229, 228, 20240229, 20240229}, {229, 228, 20230301, 20230301}, {229, 305, 20230101, 20230301}, {229, 305, 20240101, 20240229},
    {1101, 229, 20230301, 20231101}, {1101, 229, 20240229, 20240229}, {1101, 229, 21000228, 21000228}, {704, 704, 20250705, 20260704},
    {301, 930, 20250228, 20250301}, {301, 930, 20250930, 20250930}, {301, 930, 20251001, 20260301}, {301, 930, 21991001, 0}};

static void first_days(void) {
    char text[PEVGHAZO_LINE_MAX + 1];
    for (size_t i = 0; i < sizeof by_hand / sizeof by_hand[0]; i++) {
        const unsigned day = by_hand[i][2], first = by_hand[i][3];
        all_sizes(window(by_hand[i][0], by_hand[i][1]));
        snprintf(text, sizeof text, "7,C,12001,12100,%08u\n", day);
        asks(text, PEVGHAZO_ACCEPTED, first != 0, first);
        empty();
        line(text, first == day ? PEVGHAZO_ACCEPTED : PEVGHAZO_OUT_OF_SEASON);
    }
}

/* Days that do not exist, and days beside them that do. */
static void days(void) {
    static const unsigned none[] = {0, 18991231, 19000100, 19000229, 20230229, 20240230, 20240431, 20240132, 20240001, 20241301, 21000229, 22000101,
                                    99999999};
    static const unsigned some[] = {PEVGHAZO_DAY_MIN, 19000228, 20000229, 20240229, 21000228, 21960229, PEVGHAZO_DAY_MAX};
    char text[PEVGHAZO_LINE_MAX + 1];
    all_sizes(window(101, 1231));
    for (size_t i = 0; i < sizeof none / sizeof none[0]; i++) {
        snprintf(text, sizeof text, "7,C,12001,12100,%08u\n", none[i]);
        asks(text, PEVGHAZO_NO_SUCH_DAY, false, 0), line(text, PEVGHAZO_NO_SUCH_DAY);
    }
    for (size_t i = 0; i < sizeof some / sizeof some[0]; i++) {
        snprintf(text, sizeof text, "7,C,12001,12100,%08u\n", some[i]);
        asks(text, PEVGHAZO_ACCEPTED, true, some[i]), empty(), line(text, PEVGHAZO_ACCEPTED);
    }
}

/* Whether a leap year has a month and a day. */
static bool in_leap_year(unsigned month, unsigned day) {
    static const unsigned lengths[] = {31, 29, 31, 30, 31, 30, 31, 31, 30, 31, 30, 31};
    return month >= 1 && month <= 12 && day >= 1 && day <= lengths[month - 1];
}

/* All dates of two bytes, at both ends of the window of size H; it alone is looked at for lines of that size. */
static void dates(void) {
    for (unsigned i = 0; i < 65536; i++) {
        const uint32_t number = in_leap_year(i >> 8, i & 255) ? PEVGHAZO_ACCEPTED : PEVGHAZO_NO_SUCH_DAY;
        const pevghazo_window any = {(uint8_t)(i >> 8), (uint8_t)i, 7, 4}, way = {7, 4, (uint8_t)(i >> 8), (uint8_t)i};
        all_sizes(any);
        windows.sizes[6] = window(704, 704);
        asks("7,H,1,1,20250704\n", number, number == PEVGHAZO_ACCEPTED, number == PEVGHAZO_ACCEPTED ? 20250704 : 0);
        asks("7,G,1,1,20250704\n", PEVGHAZO_ACCEPTED, true, 20250704);
        windows.sizes[7] = way;
        empty(), line("7,H,1,1,20250704\n", number);
    }
}

/* 13, 16, 17, 14, 15: a line meets several, and gets the first of them. */
static void order(void) {
    char text[PEVGHAZO_LINE_MAX + 1];
    empty();
    all_sizes(window(101, 1231));
    for (unsigned i = 0; i < PEVGHAZO_POOL_RUNS; i++) snprintf(text, sizeof text, "7,C,%u,%u,20250304\n", 10 + 2 * i, 10 + 2 * i), line(text, 0);
    all_sizes(window(230, 930));
    line("7,C,10,10,20250229", PEVGHAZO_BAD_LINE), asks("7,C,10,10,20250229", PEVGHAZO_BAD_LINE, false, 0);
    line("7,C,10,10,20251001\n", PEVGHAZO_NO_SUCH_DAY), line("7,D,1,1,20250304\n", PEVGHAZO_NO_SUCH_DAY);
    windows.sizes[2] = windows.sizes[3] = window(301, 930);
    line("7,C,10,10,20250631\n", PEVGHAZO_NO_SUCH_DAY), line("7,C,10,10,20251131\n", PEVGHAZO_NO_SUCH_DAY);
    line("7,C,10,10,20251001\n", PEVGHAZO_OUT_OF_SEASON), line("7,D,1,1,20251001\n", PEVGHAZO_OUT_OF_SEASON);
    line("7,C,10,10,20250930\n", PEVGHAZO_POOLED), line("7,D,1,1,20250930\n", PEVGHAZO_POOL_FULL);
    asks("7,C,10,10,20251001\n", PEVGHAZO_ACCEPTED, true, 20260301), asks("7,D,1,1,20250930\n", PEVGHAZO_ACCEPTED, true, 20250930);
    line("7,C,11,11,20250930\n", PEVGHAZO_ACCEPTED);
    check("the runs after two were joined", pool.used, 255);
    adds("7,E,1,1,20250304\n", 0, PEVGHAZO_BAD_LINE);
}

/* A record of any bytes: the calls finish, and refusals leave it. */
static void any_record(void) {
    all_sizes(window(301, 930));
    for (unsigned used = 0; used < 600; used++) {
        memset(&pool, (int)(used & 255), sizeof pool);
        pool.used = used % 3 == 2 ? SIZE_MAX - used : used;
        line("7,C,1,1,20250228\n", PEVGHAZO_OUT_OF_SEASON), line("7,C,1,1,20250229\n", PEVGHAZO_NO_SUCH_DAY);
        remember();
        const uint32_t number = pevghazo_pool_add_in_season(&pool, &windows, (const uint8_t *)"7,C,1,1,20250301\n", 17);
        check("the number of any record", number == PEVGHAZO_ACCEPTED || number == PEVGHAZO_POOLED || number == PEVGHAZO_POOL_FULL, true);
        if (number != PEVGHAZO_ACCEPTED) same_pool("a refusal of any record");
    }
}

int main(void) {
    example();
    first_days();
    days();
    dates();
    order();
    any_record();
    puts("season: windows run as written, over New Year and around 29 February; the first permitted days are found, and refusals leave every byte");
    return 0;
}
