/* Pevghazo: a session of any mode as bytes, for storing it. These functions are plain C and not proved.
 *
 * A table is stored record by record: the bytes of its session, and beside them its count, a plain number of 32 bits that is no secret and that
 * the program writes in a layout of its own; the allowance is one more such number. Who left the counts out would give every group its whole
 * allowance again.
 *
 * The bytes have one layout on every machine: the twelve lanes of the accumulator, the twelve of the mask, and the index, 32 bits each with the
 * lowest byte first; then a byte for the toggle and a byte for openness, each 0 or 1. They are as secret as the session: pevghazo_wipe sets
 * them to zero. A session that is stored must not be used again until it is read back, and only the newest stored one may be read; in SANE
 * an older one would wrap with keystream that was used before. A session of old letters (sae.h) only opens: an older one opens again what came
 * after it. The bytes do not tell the mode: who stores sessions of several keeps them apart. */
#ifndef PEVGHAZO_STORED_H
#define PEVGHAZO_STORED_H

#include "sae.h"
#include "sane.h"
#include "session.h"

#ifdef __cplusplus
extern "C" {
#endif

/* The bytes of a stored session. */
enum { PEVGHAZO_SESSION_BYTES = 102 };

/* Why a session is not stored, or bytes are not taken for one: the first of these that is met. */
enum {
    PEVGHAZO_STORED_LENGTH = 101, /* there are not 102 bytes */
    PEVGHAZO_STORED_FLAG = 102,   /* a flag is neither 0 nor 1 */
    PEVGHAZO_STORED_INDEX = 103,  /* the index is above 1,048,576 */
    PEVGHAZO_STORED_CLOSED = 104  /* the session is not open, and not zero in all its numbers */
};

/* Writes a session's bytes. Its number is 0, or one of those above, and then the bytes stay as they were. */
PEVGHAZO_MUST_USE uint32_t pevghazo_store_session(const pevghazo_session *session, uint8_t *bytes, size_t bytes_len);

/* Reads a session from its bytes. Its number is 0, or one of those above, and then the record stays as it was. */
PEVGHAZO_MUST_USE uint32_t pevghazo_load_session(pevghazo_session *session, const uint8_t *bytes, size_t bytes_len);

/* The same for a session in SANE. */
PEVGHAZO_MUST_USE uint32_t pevghazo_store_sane_session(const pevghazo_sane_session *session, uint8_t *bytes, size_t bytes_len);
PEVGHAZO_MUST_USE uint32_t pevghazo_load_sane_session(pevghazo_sane_session *session, const uint8_t *bytes, size_t bytes_len);

/* The same for a session of old letters. */
PEVGHAZO_MUST_USE uint32_t pevghazo_store_sae_session(const pevghazo_sae_session *session, uint8_t *bytes, size_t bytes_len);
PEVGHAZO_MUST_USE uint32_t pevghazo_load_sae_session(pevghazo_sae_session *session, const uint8_t *bytes, size_t bytes_len);

#ifdef __cplusplus
}
#endif

#endif
