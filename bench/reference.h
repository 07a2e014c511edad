/* The same functions in plain scalar C, as the benchmark's peer. States are twelve lanes, the lane at x of plane y at x + 4 y. It checks
 * nothing: lengths are within the limits, and the session is open. */
#ifndef REFERENCE_H
#define REFERENCE_H
#include "../include/pevghazo.h"

/* What sessions are made of. */
typedef struct leaves {
    /* Takes in a string; `end` is the byte after it, with the frame bits and the padding bit. */
    void (*take_in)(uint32_t acc[12], uint32_t mask[12], const uint8_t *s, size_t n, uint8_t end);
    /* Writes `in` with the output of the rolled state y added to it; `out` may be `in`. */
    void (*give_out)(const uint32_t y[12], const uint32_t mask[12], const uint8_t *in, uint8_t *out, size_t n);
} leaves;

void reference_permute(uint32_t s[12]);
void reference_take_in(uint32_t acc[12], uint32_t mask[12], const uint8_t *s, size_t n, uint8_t end);
void reference_give_out(const uint32_t y[12], const uint32_t mask[12], const uint8_t *in, uint8_t *out, size_t n);
void reference_compress(uint32_t acc[12], uint32_t mask[12], const uint8_t *s, size_t n);
void reference_expand(const uint32_t y[12], const uint32_t mask[12], uint8_t *out, size_t n);
void reference_start(pevghazo_session *s, const uint8_t *key, size_t n);
void reference_wrap(pevghazo_session *s, const uint8_t *metadata, size_t a, const uint8_t *message, size_t m, uint8_t *out,
                    uint8_t tag[32]);
bool reference_unwrap(pevghazo_session *s, const uint8_t *metadata, size_t a, const uint8_t *cryptogram, size_t m,
                      const uint8_t tag[32], uint8_t *out);

/* The same with other leaves. */
void reference_wrap_by(const leaves *by, pevghazo_session *s, const uint8_t *metadata, size_t a, const uint8_t *message, size_t m,
                       uint8_t *out, uint8_t tag[32]);
bool reference_unwrap_by(const leaves *by, pevghazo_session *s, const uint8_t *metadata, size_t a, const uint8_t *cryptogram, size_t m,
                         const uint8_t tag[32], uint8_t *out);

#endif
