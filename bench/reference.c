#include "reference.h"
#include <string.h>

static inline uint32_t rotl(uint32_t x, int v) { return x << v | x >> (32 - v); }

static const uint32_t constants[6] = {0x60, 0x2C, 0x380, 0xF0, 0x1A0, 0x12};

static inline void permute(uint32_t a[12]) {
    for (int r = 0; r < 6; r++) {
        uint32_t p[4], e[4], t;
        for (int x = 0; x < 4; x++) p[x] = a[x] ^ a[4 + x] ^ a[8 + x];
        for (int x = 0; x < 4; x++) e[x] = rotl(p[(x + 3) % 4], 5) ^ rotl(p[(x + 3) % 4], 14);
        for (int i = 0; i < 12; i++) a[i] ^= e[i % 4];
        t = a[7], a[7] = a[6], a[6] = a[5], a[5] = a[4], a[4] = t;
        for (int x = 0; x < 4; x++) a[8 + x] = rotl(a[8 + x], 11);
        a[0] ^= constants[r];
        for (int x = 0; x < 4; x++) {
            uint32_t a0 = a[x], a1 = a[4 + x], a2 = a[8 + x];
            a[x] = a0 ^ (~a1 & a2);
            a[4 + x] = a1 ^ (~a2 & a0);
            a[8 + x] = a2 ^ (~a0 & a1);
        }
        for (int x = 0; x < 4; x++) a[4 + x] = rotl(a[4 + x], 1);
        uint32_t c0 = a[8], c1 = a[9];
        a[8] = rotl(a[10], 8), a[9] = rotl(a[11], 8), a[10] = rotl(c0, 8), a[11] = rotl(c1, 8);
    }
}

void reference_permute(uint32_t s[12]) { permute(s); }

/* The places of s_0 to s_11: s_(3x+y) is the lane at x of plane y. */
static const int place[12] = {0, 4, 8, 1, 5, 9, 2, 6, 10, 3, 7, 11};

static inline void roll(uint32_t m[12], uint32_t last) {
    for (int i = 0; i < 11; i++) m[place[i]] = m[place[i + 1]];
    m[11] = last;
}

static inline void roll_in(uint32_t m[12]) { roll(m, m[0] ^ (m[0] << 13) ^ rotl(m[4], 3)); }

static inline void roll_out(uint32_t m[12]) { roll(m, (m[4] & m[8]) ^ rotl(m[0], 5) ^ rotl(m[4], 13) ^ 7); }

static inline void add_block(uint32_t acc[12], uint32_t mask[12], const uint8_t *bytes) {
    uint32_t b[12];
    memcpy(b, bytes, 48);
    for (int i = 0; i < 12; i++) b[i] ^= mask[i];
    permute(b);
    for (int i = 0; i < 12; i++) acc[i] ^= b[i];
    roll_in(mask);
}

void reference_take_in(uint32_t acc[12], uint32_t mask[12], const uint8_t *s, size_t n, uint8_t end) {
    uint8_t last[48] = {0};
    for (; n >= 48; s += 48, n -= 48) add_block(acc, mask, s);
    memcpy(last, s, n);
    last[n] = end;
    add_block(acc, mask, last);
    roll_in(mask);
}

void reference_compress(uint32_t acc[12], uint32_t mask[12], const uint8_t *s, size_t n) { reference_take_in(acc, mask, s, n, 1); }

void reference_expand(const uint32_t y[12], const uint32_t mask[12], uint8_t *out, size_t n) {
    uint32_t z[12], b[12];
    memcpy(z, y, 48);
    for (; n > 0; roll_out(z)) {
        uint8_t bytes[48];
        size_t k = n < 48 ? n : 48;
        memcpy(b, z, 48);
        permute(b);
        for (int i = 0; i < 12; i++) b[i] ^= mask[i];
        memcpy(bytes, b, 48);
        for (size_t i = 0; i < k; i++) out[i] ^= bytes[i];
        out += k, n -= k;
    }
}

void reference_give_out(const uint32_t y[12], const uint32_t mask[12], const uint8_t *in, uint8_t *out, size_t n) {
    if (out != in) memcpy(out, in, n);
    reference_expand(y, mask, out, n);
}

/* The bytes after metadata, message and tag, by the toggle. */
static uint8_t metadata_end(bool e) { return e ? 6 : 4; }
static uint8_t message_end(bool e) { return e ? 14 : 10; }
static uint8_t tag_end(bool e) { return e ? 15 : 11; }

/* `in` with the deck function's output for this accumulator and mask added to it. */
static void output(const leaves *by, const uint32_t acc[12], const uint32_t mask[12], const uint8_t *in, uint8_t *out, size_t n) {
    uint32_t y[12];
    memcpy(y, acc, 48);
    permute(y);
    by->give_out(y, mask, in, out, n);
}

void reference_start(pevghazo_session *s, const uint8_t *key, size_t n) {
    uint8_t padded[48] = {0};
    memset(s, 0, sizeof *s);
    memcpy(padded, key, n);
    padded[n] = 1;
    memcpy(s->mask, padded, 48);
    permute(s->mask);
    s->opened = true;
}

/* `in` with the keystream that this tag gives on top of the history added to it. */
static void crypt(const leaves *by, const pevghazo_session *history, const uint8_t tag[32], const uint8_t *in, uint8_t *out, size_t n) {
    pevghazo_session s = *history;
    by->take_in(s.acc, s.mask, tag, 32, tag_end(s.toggle));
    output(by, s.acc, s.mask, in, out, n);
}

static void take(const leaves *by, pevghazo_session *s, const uint8_t *text, size_t n, uint8_t end) {
    by->take_in(s->acc, s->mask, text, n, end);
    s->index += (uint32_t)(n / 48 + 2);
}

void reference_wrap_by(const leaves *by, pevghazo_session *s, const uint8_t *metadata, size_t a, const uint8_t *message, size_t m,
                              uint8_t *out, uint8_t tag[32]) {
    if (a > 0 || m == 0) take(by, s, metadata, a, metadata_end(s->toggle));
    pevghazo_session history = *s;
    if (m > 0) take(by, s, message, m, message_end(s->toggle));
    memset(tag, 0, 32);
    output(by, s->acc, s->mask, tag, tag, 32);
    if (m > 0) crypt(by, &history, tag, message, out, m);
    s->toggle = !s->toggle;
}

bool reference_unwrap_by(const leaves *by, pevghazo_session *s, const uint8_t *metadata, size_t a, const uint8_t *cryptogram, size_t m,
                                const uint8_t tag[32], uint8_t *out) {
    pevghazo_session next = *s;
    uint8_t found[32] = {0}, differ = 0;
    if (a > 0 || m == 0) take(by, &next, metadata, a, metadata_end(s->toggle));
    if (m > 0) {
        crypt(by, &next, tag, cryptogram, out, m);
        take(by, &next, out, m, message_end(s->toggle));
    }
    output(by, next.acc, next.mask, found, found, 32);
    for (int i = 0; i < 32; i++) differ |= found[i] ^ tag[i];
    if (differ) {
        memset(out, 0, m);
        return false;
    }
    next.toggle = !next.toggle;
    *s = next;
    return true;
}

static const leaves plain = {reference_take_in, reference_give_out};

void reference_wrap(pevghazo_session *s, const uint8_t *metadata, size_t a, const uint8_t *message, size_t m, uint8_t *out,
                    uint8_t tag[32]) {
    reference_wrap_by(&plain, s, metadata, a, message, m, out, tag);
}

bool reference_unwrap(pevghazo_session *s, const uint8_t *metadata, size_t a, const uint8_t *cryptogram, size_t m,
                      const uint8_t tag[32], uint8_t *out) {
    return reference_unwrap_by(&plain, s, metadata, a, cryptogram, m, tag, out);
}
