/* The leaves as the machine runs them: compress and expand, a block at a time and by four, beside the independent implementation, at all lengths up
 * to nine blocks and a byte and at long ones up to the limit, at every address modulo 16 and directly beside closed pages (tests/pages.h). The
 * independent implementation works on copies elsewhere. tests/leaves.sh builds and runs this. */
#include "pages.h"
#include <stdio.h>

/* Accumulator and mask after a string; output of the rolled state y, added to a buffer, and the number of its blocks. */
typedef void compression(uint32_t acc[12], uint32_t mask[12], const uint8_t *s, size_t n);
typedef uint32_t expansion(const uint32_t y[12], const uint32_t mask[12], uint8_t *out, size_t n);

/* The leaves, those by four, and the independent implementation's. */
compression pevghazo_compress, pevghazo_compress_four, rust_compress;
expansion pevghazo_expand, pevghazo_expand_four, rust_expand;

enum { ONE, FOUR, WAYS };
static compression *const compressions[WAYS] = {pevghazo_compress, pevghazo_compress_four};
static expansion *const expansions[WAYS] = {pevghazo_expand, pevghazo_expand_four};
static const char *const names[WAYS][2] = {{"compress", "expand"}, {"compress by four", "expand by four"}};

/* All lengths up to 433, and these: sixteen groups of four blocks, behind which a row of masks or states starts again, one group more, twice as many and
 * one more; 85 groups, a block more, and the most that compress takes. */
static const size_t long_lengths[] = {3071, 3072, 3073, 3263, 3264, 3265, 6144, 6336, 16319, 16320, 16321, 16368, 16383, 16384, 16401};
enum { SHORT_LENGTHS = 434, LENGTHS = SHORT_LENGTHS + sizeof long_lengths / sizeof long_lengths[0], LONGEST = 16401, LANES = 48, STARTS = 8 };

static size_t length(int i) { return i < SHORT_LENGTHS ? (size_t)i : long_lengths[i - SHORT_LENGTHS]; }

/* For the string or the output, for accumulator or rolled state, and for the mask. */
enum { TEXT, STATE, MASK, ROWS };
static row rows[ROWS];

/* The same of the independent implementation. */
static uint8_t text[LONGEST];
static uint32_t state[12], mask[12];

static unsigned calls;

/* Lays out the same on the other side: what the states are by now, and a text of n bytes. */
static void lay_out(const char *leaf, int where, size_t n) {
    random_bytes(text, n);
    lay(&rows[TEXT], where, 1, text, n);
    lay(&rows[STATE], where, 4, state, LANES);
    lay(&rows[MASK], where, 4, mask, LANES);
    snprintf(doing, sizeof doing, "%s, %zu bytes at address %u modulo 16, %s", leaf, n, (unsigned)((uintptr_t)rows[TEXT].at % ADDRESSES),
             place_name(where));
    calls++;
}

static void compare(const char *of_text, const char *of_state, const char *of_mask) {
    holds(&rows[TEXT], text, of_text);
    holds(&rows[STATE], state, of_state);
    holds(&rows[MASK], mask, of_mask);
}

/* One more string; accumulator and mask go on from here. */
static void compress(int way, int where, size_t n) {
    lay_out(names[way][0], where, n);
    compressions[way]((void *)rows[STATE].at, (void *)rows[MASK].at, rows[TEXT].at, n);
    rust_compress(state, mask, text, n);
    compare("the string was altered", "another accumulator", "another mask");
}

/* The output that the accumulator would give as a rolled state: any state is one. */
static void expand(int way, int where, size_t n) {
    lay_out(names[way][1], where, n);
    const uint32_t count = expansions[way]((void *)rows[STATE].at, (void *)rows[MASK].at, rows[TEXT].at, n);
    if (count != rust_expand(state, mask, text, n)) fail("another count");
    compare("another output", "the rolled state was altered", "the mask was altered");
}

/* From any state, strings of all lengths one after another, each time from another length on, with output of all lengths in between. */
static void strings(int way, int start, int where) {
    random_bytes(state, sizeof state);
    random_bytes(mask, sizeof mask);
    for (int i = 0; i < LENGTHS; i++) {
        compress(way, where, length((i + start * LENGTHS / STARTS) % LENGTHS));
        expand(way, where, length(i));
    }
}

static void everywhere(void) {
    for (int way = 0; way < WAYS; way++)
        for (int start = 0; start < STARTS; start++)
            for (int where = 0; where < PLACES; where++) strings(way, start, where);
}

int main(void) {
    make_rows("leaves", rows, ROWS, LONGEST);
    beside_closed_pages(everywhere);
    printf("leaves: %u calls at %d lengths and %d addresses agree with the independent implementation\n", calls, LENGTHS, ADDRESSES);
    return 0;
}
