/* Pevghazo: a lone session in Xoofff-SANE, for groups that keep a counter. What all functions share is said in pevghazo.h.
 *
 * SANE is for ends that keep a reliable counter, since A NONCE MUST NOT REPEAT UNDER ONE KEY. Its keystream does not wait for the tag, so that
 * one pass over a message is enough where SANSE (session.h) needs two, and its tag has 16 bytes instead of 32.
 *
 * Why: what a message is hidden with, its keystream, comes from the key, the nonce and the messages before it, and not from the message itself.
 * Two messages with one keystream give away their sum to anybody who sees the two cryptograms, and often enough both texts. One keystream is
 * used twice
 *
 *   - where two sessions start with one key and one nonce: for the first message in which they differ;
 *   - where both ends wrap from one state, since one of them had not yet unwrapped all that the other had wrapped: the ends have to agree on who
 *     wraps next;
 *   - where a session is copied, or loaded from stored bytes that are not the newest, and wraps again.
 *
 * None of these shows in a number: the calls are accepted. So the nonce is a counter that only grows, and that is written down before the
 * session is used, in a layout that both ends agree on. It is no secret. Who has no such counter uses SANSE, where none of the three shares
 * keystream.
 *
 * Sessions in SANE are held alone, and not in a table; there are no codes for packets of them. Their envelopes have the letter N. */
#ifndef PEVGHAZO_SANE_H
#define PEVGHAZO_SANE_H

#include "session.h"

#ifdef __cplusplus
extern "C" {
#endif

/* A session in SANE. It has the fields of a pevghazo_session and is as secret. Zeroed memory is a closed one, and it must not be copied and
 * used twice. It is a type of its own, so that compilers warn, or refuse the program, where a record of one mode is handed to a call of the
 * other. */
typedef struct pevghazo_sane_session {
    uint32_t acc[12];
    uint32_t mask[12];
    uint32_t index;
    pevghazo_flag toggle;
    pevghazo_flag opened;
} pevghazo_sane_session;

PEVGHAZO_LAYOUT(sane_session, sizeof(pevghazo_sane_session) == 104);
PEVGHAZO_LAYOUT(sane_session_acc, offsetof(pevghazo_sane_session, acc) == 0);
PEVGHAZO_LAYOUT(sane_session_mask, offsetof(pevghazo_sane_session, mask) == 48);
PEVGHAZO_LAYOUT(sane_session_index, offsetof(pevghazo_sane_session, index) == 96);
PEVGHAZO_LAYOUT(sane_session_toggle, offsetof(pevghazo_sane_session, toggle) == 100);
PEVGHAZO_LAYOUT(sane_session_opened, offsetof(pevghazo_sane_session, opened) == 101);

/* Checks 4, 6 (for the nonce) and 7 (for the tag buffer). The nonce has not been used under this key before. A fresh session takes the
 * record's place, and the start's tag fills `tag`; a tag that is the same at both ends shows that they share key and nonce. A refused start
 * closes the record, so that a session that was open in it is lost, and leaves `tag` as it was. The count is b(N) + 3 for a nonce of N bytes,
 * where b(L) = floor(L / 48) + 1. */
PEVGHAZO_MUST_USE pevghazo_answer pevghazo_sane_start(pevghazo_sane_session *session, const uint8_t *key, size_t key_len, const uint8_t *nonce,
                                                      size_t nonce_len, uint8_t *tag, size_t tag_len);

/* Checks 5 to 9. The cryptogram goes to the start of `out`, the tag fills `tag`. For A bytes of metadata and M of message the count is b(A) + 2
 * where M is 0, and otherwise a + b(M) + 3 + ceiling((M + 16) / 48), where a is b(A), or 0 where A is 0. */
PEVGHAZO_MUST_USE pevghazo_answer pevghazo_sane_wrap(pevghazo_sane_session *session, const uint8_t *metadata, size_t metadata_len,
                                                     const uint8_t *message, size_t message_len, uint8_t *out, size_t out_len, uint8_t *tag,
                                                     size_t tag_len);

/* Checks 5 to 9 and 11. The message goes to the start of `out`. The count is that of wrapping. */
PEVGHAZO_MUST_USE pevghazo_answer pevghazo_sane_unwrap(pevghazo_sane_session *session, const uint8_t *metadata, size_t metadata_len,
                                                       const uint8_t *cryptogram, size_t cryptogram_len, const uint8_t *tag, size_t tag_len,
                                                       uint8_t *out, size_t out_len);

/* pevghazo_sane_wrap for the envelope with this header, whose bytes then stand under the tag, before the metadata (envelope.h). Check 1, exactly
 * where the header is not `N,group,metadata length,message length,` with a group up to 31 and this call's two lengths, and nothing before or
 * after it; then 5 and 7 to 9, as a length that is too long gets 1. Count, index and 9 go by header and metadata together, so A is the bytes
 * of both. */
PEVGHAZO_MUST_USE pevghazo_answer pevghazo_sane_wrap_envelope(pevghazo_sane_session *session, const uint8_t *header, size_t header_len,
                                                              const uint8_t *metadata, size_t metadata_len, const uint8_t *message,
                                                              size_t message_len, uint8_t *out, size_t out_len, uint8_t *tag,
                                                              size_t tag_len);

/* pevghazo_sane_unwrap of what arrived in the envelope with this header. Check 1 as for wrapping, by the cryptogram's length; then 5, 7 to 9
 * and 11. */
PEVGHAZO_MUST_USE pevghazo_answer pevghazo_sane_unwrap_envelope(pevghazo_sane_session *session, const uint8_t *header, size_t header_len,
                                                                const uint8_t *metadata, size_t metadata_len, const uint8_t *cryptogram,
                                                                size_t cryptogram_len, const uint8_t *tag, size_t tag_len, uint8_t *out,
                                                                size_t out_len);

/* By four: the same four calls, faster from PEVGHAZO_FOUR_MIN bytes of metadata or text on, with the same number, count, record and buffers for all
 * bytes and lengths. A session may use either at each call, and each end its own choice: session.h says more. */
PEVGHAZO_MUST_USE pevghazo_answer pevghazo_sane_wrap_four(pevghazo_sane_session *session, const uint8_t *metadata, size_t metadata_len,
                                                          const uint8_t *message, size_t message_len, uint8_t *out, size_t out_len,
                                                          uint8_t *tag, size_t tag_len);
PEVGHAZO_MUST_USE pevghazo_answer pevghazo_sane_unwrap_four(pevghazo_sane_session *session, const uint8_t *metadata, size_t metadata_len,
                                                            const uint8_t *cryptogram, size_t cryptogram_len, const uint8_t *tag,
                                                            size_t tag_len, uint8_t *out, size_t out_len);
PEVGHAZO_MUST_USE pevghazo_answer pevghazo_sane_wrap_envelope_four(pevghazo_sane_session *session, const uint8_t *header, size_t header_len,
                                                                   const uint8_t *metadata, size_t metadata_len, const uint8_t *message,
                                                                   size_t message_len, uint8_t *out, size_t out_len, uint8_t *tag,
                                                                   size_t tag_len);
PEVGHAZO_MUST_USE pevghazo_answer pevghazo_sane_unwrap_envelope_four(pevghazo_sane_session *session, const uint8_t *header,
                                                                     size_t header_len, const uint8_t *metadata, size_t metadata_len,
                                                                     const uint8_t *cryptogram, size_t cryptogram_len, const uint8_t *tag,
                                                                     size_t tag_len, uint8_t *out, size_t out_len);

#ifdef __cplusplus
}
#endif

#endif
