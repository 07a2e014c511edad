/* The same functions in C with SSE2 intrinsics, written by hand as the benchmark's peer of the proved code by four: full blocks are taken in
 * four at a time, and output blocks are made four at a time; what is left over goes through reference.c. Sessions are started there, too. It
 * checks nothing. */
#ifndef SSE2_H
#define SSE2_H
#include "../include/pevghazo.h"

void sse2_compress(uint32_t acc[12], uint32_t mask[12], const uint8_t *s, size_t n);
void sse2_expand(const uint32_t y[12], const uint32_t mask[12], uint8_t *out, size_t n);
void sse2_wrap(pevghazo_session *s, const uint8_t *metadata, size_t a, const uint8_t *message, size_t m, uint8_t *out, uint8_t tag[32]);
bool sse2_unwrap(pevghazo_session *s, const uint8_t *metadata, size_t a, const uint8_t *cryptogram, size_t m, const uint8_t tag[32],
                 uint8_t *out);

#endif
