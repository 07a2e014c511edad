/* Pevghazo: codes for packets of rings, which a session gives. What all functions share is said in pevghazo.h.
 *
 * Codes belong to the session as it stands: with the next accepted message they are others, and the session does not give the old ones again.
 * Both ends have the same ones while each message that was wrapped has been unwrapped at the other end.
 *
 * The library does not compare codes. Do not compare one that was read off a packet by memcmp, which may stop at the first difference: its time
 * would tell how many bytes of a guess were right. Look at all bytes, wherever they differ:
 *
 *     unsigned differ = 0;
 *     for (i = 0; i < PEVGHAZO_CODE_LENGTH; i++) differ |= (unsigned)code[i] ^ read[i];
 *     is_right = differ == 0; */
#ifndef PEVGHAZO_CODES_H
#define PEVGHAZO_CODES_H

#include "numbers.h"
#include "session.h"

#ifdef __cplusplus
extern "C" {
#endif

/* Limits: the bytes of a code, and the highest number of a packet. */
enum {
    PEVGHAZO_CODE_LENGTH = 8,
    PEVGHAZO_PACKET_MAX = 2047
};

/* Checks 5, 12, 8, in this order. The packet's code goes to the start of `out`: 8 bytes of the deck function of the session's history, from
 * byte 32 + 8 * packet on. The count is 2. The session is not altered. A group's codes are those of its session in the table; they go past the
 * table, so the allowance is not looked at and the group's count stays. */
PEVGHAZO_MUST_USE pevghazo_answer pevghazo_code(const pevghazo_session *session, uint32_t packet, uint8_t *out, size_t out_len);

#ifdef __cplusplus
}
#endif

#endif
