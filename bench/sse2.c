#include "sse2.h"
#include "reference.h"
#include <emmintrin.h>
#include <string.h>

#define INLINE static inline __attribute__((always_inline))

/* One lane of four states. Four states are twelve of them. */
typedef __m128i lane;

INLINE lane load(const void *p) { return _mm_loadu_si128((const lane *)p); }
INLINE void store(void *p, lane x) { _mm_storeu_si128((lane *)p, x); }

/* ---- the permutation */

INLINE lane rotl(lane x, int v) { return _mm_slli_epi32(x, v) | _mm_srli_epi32(x, 32 - v); }

INLINE lane parity(const lane a[12], int x) { return a[x] ^ a[4 + x] ^ a[8 + x]; }

/* Adds to column x what the parity of the column before it gives; rotates its lane of plane 2, as is due next. */
INLINE void theta(lane a[12], int x, lane p) {
    lane e = _mm_slli_epi32(p, 5) ^ _mm_srli_epi32(p, 27) ^ (_mm_slli_epi32(p, 14) ^ _mm_srli_epi32(p, 18));
    a[8 + x] = rotl(a[8 + x] ^ e, 11), a[4 + x] ^= e, a[x] ^= e;
}

/* Column x of the sum that is not linear, with plane 1 moved by one before it, and plane 2 moved by two and rotated after it. */
INLINE void chi(const lane a[12], lane b[12], int x) {
    lane a0 = a[x], a1 = a[4 + (x + 3) % 4], a2 = a[8 + x];
    b[x] = a0 ^ _mm_andnot_si128(a1, a2);
    b[4 + x] = a1 ^ _mm_andnot_si128(a2, a0);
    b[8 + (x + 2) % 4] = rotl(a2 ^ _mm_andnot_si128(a0, a1), 8);
}

#define SAME(c) {c, c, c, c}
static const uint32_t constants[6][4] __attribute__((aligned(16))) = {SAME(0x60), SAME(0x2C), SAME(0x380), SAME(0xF0), SAME(0x1A0), SAME(0x12)};

/* Of the orders tried, this one is the fastest with gcc. Rounds are not unrolled: code for all six in two loops, compressing and expanding, is
 * too much for the processor's store of decoded instructions. */
INLINE void permute(lane a[12]) {
#pragma GCC unroll 1
    for (int r = 0; r < 6; r++) {
        lane b[12], p0 = parity(a, 0), p1 = parity(a, 1), p2 = parity(a, 2), p3 = parity(a, 3);
        theta(a, 0, p3), theta(a, 1, p0), theta(a, 2, p1), theta(a, 3, p2);
        a[0] ^= *(const lane *)constants[r];
        chi(a, b, 0), chi(a, b, 2), chi(a, b, 1), chi(a, b, 3);
        for (int i = 4; i < 8; i++) b[i] = rotl(b[i], 1);
        for (int i = 0; i < 12; i++) a[i] = b[i];
    }
}

/* Four rows of 16 bytes to four lanes, and back. */
INLINE void transpose(lane a[4]) {
    lane x = _mm_unpacklo_epi32(a[0], a[1]), y = _mm_unpacklo_epi32(a[2], a[3]);
    lane z = _mm_unpackhi_epi32(a[0], a[1]), w = _mm_unpackhi_epi32(a[2], a[3]);
    a[0] = _mm_unpacklo_epi64(x, y), a[1] = _mm_unpackhi_epi64(x, y);
    a[2] = _mm_unpacklo_epi64(z, w), a[3] = _mm_unpackhi_epi64(z, w);
}

/* ---- the rolled states */

/* A rolling drops the first of twelve words s_0 to s_11 and appends one. So rolled states are a row of words: four of them, side by side,
 * start at four words in a row, and one lane of the four is one load. Words are appended by four, for the next group, so that they have left
 * the store buffer when they are loaded across its entries. */
enum { GROUPS = 16 };

typedef struct row {
    uint32_t words[16 + 4 * GROUPS];
    uint32_t *at;   /* where the first of the four states starts; 16 words are there */
} row;

/* The lane at x of plane y is s_(3x+y). */
INLINE int place(int i) { return 3 * (i % 4) + i / 4; }

INLINE lane next_in(const uint32_t *s) {
    lane x = load(s);
    return x ^ _mm_slli_epi32(x, 13) ^ rotl(load(s + 1), 3);
}

INLINE lane next_out(const uint32_t *s) {
    lane x = load(s), y = load(s + 1), z = load(s + 2);
    return (y & z) ^ rotl(x, 5) ^ rotl(y, 13) ^ _mm_set1_epi32(7);
}

INLINE void begin(row *r, const uint32_t s[12], lane (*next)(const uint32_t *)) {
    for (int i = 0; i < 12; i++) r->words[place(i)] = s[i];
    r->at = r->words;
    store(r->at + 12, next(r->at));
}

/* Goes on by four states; gives the four before. */
INLINE const uint32_t *advance(row *r, lane (*next)(const uint32_t *)) {
    if (r->at == r->words + 4 * GROUPS) memcpy(r->words, r->at, 64), r->at = r->words;
    const uint32_t *s = r->at;
    r->at += 4;
    store(r->at + 12, next(r->at));
    return s;
}

INLINE void end(const row *r, uint32_t s[12]) {
    for (int i = 0; i < 12; i++) s[i] = r->at[place(i)];
}

/* ---- groups of four blocks, 192 bytes */

enum { GROUP = 192 };

/* Not inlined: in the loop around it the compiler keeps fewer lanes in registers. */
static __attribute__((noinline)) void add_group(lane sums[12], const uint32_t *masks, const uint8_t *bytes) {
    lane a[12];
    for (int i = 0; i < 12; i++) a[i] = load(bytes + 48 * (i % 4) + 16 * (i / 4));
    transpose(a), transpose(a + 4), transpose(a + 8);
    for (int i = 0; i < 12; i++) a[i] ^= load(masks + place(i));
    permute(a);
    for (int i = 0; i < 12; i++) sums[i] ^= a[i];
}

static __attribute__((noinline)) void output_group(const uint32_t *states, const uint32_t mask[12], const uint8_t *in, uint8_t *out) {
    lane a[12];
    for (int i = 0; i < 12; i++) a[i] = load(states + place(i));
    permute(a);
    transpose(a), transpose(a + 4), transpose(a + 8);
    for (int i = 0; i < 12; i++) {
        int at = 48 * (i % 4) + 16 * (i / 4);
        store(out + at, load(in + at) ^ load(mask + i / 4 * 4) ^ a[i]);
    }
}

/* ---- strings */

static void take_in(uint32_t acc[12], uint32_t mask[12], const uint8_t *s, size_t n, uint8_t last) {
    if (n >= GROUP) {
        lane sums[12] = {0};
        row masks;
        begin(&masks, mask, next_in);
        for (; n >= GROUP; s += GROUP, n -= GROUP) add_group(sums, advance(&masks, next_in), s);
        end(&masks, mask);
        for (int i = 0; i < 12; i++) {
            uint32_t w[4];
            store(w, sums[i]);
            acc[i] ^= w[0] ^ w[1] ^ w[2] ^ w[3];
        }
    }
    reference_take_in(acc, mask, s, n, last);
}

static void give_out(const uint32_t y[12], const uint32_t mask[12], const uint8_t *in, uint8_t *out, size_t n) {
    uint32_t z[12];
    memcpy(z, y, 48);
    if (n >= GROUP) {
        row states;
        begin(&states, z, next_out);
        for (; n >= GROUP; in += GROUP, out += GROUP, n -= GROUP) output_group(advance(&states, next_out), mask, in, out);
        end(&states, z);
    }
    reference_give_out(z, mask, in, out, n);
}

void sse2_compress(uint32_t acc[12], uint32_t mask[12], const uint8_t *s, size_t n) { take_in(acc, mask, s, n, 1); }

void sse2_expand(const uint32_t y[12], const uint32_t mask[12], uint8_t *out, size_t n) { give_out(y, mask, out, out, n); }

static const leaves by_four = {take_in, give_out};

void sse2_wrap(pevghazo_session *s, const uint8_t *metadata, size_t a, const uint8_t *message, size_t m, uint8_t *out, uint8_t tag[32]) {
    reference_wrap_by(&by_four, s, metadata, a, message, m, out, tag);
}

bool sse2_unwrap(pevghazo_session *s, const uint8_t *metadata, size_t a, const uint8_t *cryptogram, size_t m, const uint8_t tag[32],
                 uint8_t *out) {
    return reference_unwrap_by(&by_four, s, metadata, a, cryptogram, m, tag, out);
}
