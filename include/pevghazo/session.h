/* Pevghazo: a lone session in Xoofff-SANSE, one record that is lent to each call and altered by it. What all functions share is said in
 * pevghazo.h. */
#ifndef PEVGHAZO_SESSION_H
#define PEVGHAZO_SESSION_H

#include "numbers.h"

#ifdef __cplusplus
extern "C" {
#endif

/* Limits: the bytes of a key, and the highest index. */
enum {
    PEVGHAZO_KEY_MIN = 16,
    PEVGHAZO_KEY_MAX = 47,
    PEVGHAZO_INDEX_MAX = 1048576
};

/* A session. It is secret: it holds what the key gave. A closed one has zero in all its numbers, so zeroed memory is a closed session. It
 * must not be copied and used twice. */
typedef struct pevghazo_session {
    uint32_t acc[12];
    uint32_t mask[12];
    uint32_t index;
    pevghazo_flag toggle;
    pevghazo_flag opened;
} pevghazo_session;

PEVGHAZO_LAYOUT(session, sizeof(pevghazo_session) == 104);
PEVGHAZO_LAYOUT(session_acc, offsetof(pevghazo_session, acc) == 0);
PEVGHAZO_LAYOUT(session_mask, offsetof(pevghazo_session, mask) == 48);
PEVGHAZO_LAYOUT(session_index, offsetof(pevghazo_session, index) == 96);
PEVGHAZO_LAYOUT(session_toggle, offsetof(pevghazo_session, toggle) == 100);
PEVGHAZO_LAYOUT(session_opened, offsetof(pevghazo_session, opened) == 101);

/* What a call on a session gives, a lone one or a group's: its number, and the permutations done. */
typedef struct pevghazo_answer {
    uint32_t number;
    uint32_t count;
} pevghazo_answer;

PEVGHAZO_LAYOUT(answer, sizeof(pevghazo_answer) == 8 && offsetof(pevghazo_answer, count) == 4);

/* Check 4. A fresh session takes the record's place. A refused start closes the record: a session that was open in it is lost. */
PEVGHAZO_MUST_USE pevghazo_answer pevghazo_start(pevghazo_session *session, const uint8_t *key, size_t key_len);

/* Checks 5 to 9. The cryptogram goes to the start of `out`, the tag fills `tag`. */
PEVGHAZO_MUST_USE pevghazo_answer pevghazo_wrap(pevghazo_session *session, const uint8_t *metadata, size_t metadata_len,
                                                const uint8_t *message, size_t message_len, uint8_t *out, size_t out_len, uint8_t *tag,
                                                size_t tag_len);

/* Checks 5 to 9 and 11. The message goes to the start of `out`. */
PEVGHAZO_MUST_USE pevghazo_answer pevghazo_unwrap(pevghazo_session *session, const uint8_t *metadata, size_t metadata_len,
                                                  const uint8_t *cryptogram, size_t cryptogram_len, const uint8_t *tag, size_t tag_len,
                                                  uint8_t *out, size_t out_len);

/* pevghazo_wrap for the envelope with this header, whose bytes then stand under the tag, before the metadata (envelope.h). Check 1, exactly where
 * the header is not `S,group,metadata length,message length,` with a group up to 31 and this call's two lengths, and nothing before or after it;
 * then 5 and 7 to 9, as a length that is too long gets 1. Count, index and 9 go by header and metadata together. */
PEVGHAZO_MUST_USE pevghazo_answer pevghazo_wrap_envelope(pevghazo_session *session, const uint8_t *header, size_t header_len,
                                                         const uint8_t *metadata, size_t metadata_len, const uint8_t *message,
                                                         size_t message_len, uint8_t *out, size_t out_len, uint8_t *tag, size_t tag_len);

/* pevghazo_unwrap of what arrived in the envelope with this header. Check 1 as for wrapping, by the cryptogram's length; then 5, 7 to 9 and 11. */
PEVGHAZO_MUST_USE pevghazo_answer pevghazo_unwrap_envelope(pevghazo_session *session, const uint8_t *header, size_t header_len,
                                                           const uint8_t *metadata, size_t metadata_len, const uint8_t *cryptogram,
                                                           size_t cryptogram_len, const uint8_t *tag, size_t tag_len, uint8_t *out,
                                                           size_t out_len);

/* By four: the same four calls, which take four blocks of a string side by side wherever it still has four full ones, and blocks of keystream
 * likewise. For long texts they take about half the time. Each gives what the one above does, for all bytes and lengths: number, count, record and
 * buffers, refusals included. So a session may use either at each call, and each end its own choice: no byte tells which it was.
 *
 * They are faster from PEVGHAZO_FOUR_MIN bytes of metadata or text on, which are four full blocks; below that the calls above do as well. A
 * program may choose by length, which is no secret, as the Rust crate does. */
enum { PEVGHAZO_FOUR_MIN = 192 };

PEVGHAZO_MUST_USE pevghazo_answer pevghazo_wrap_four(pevghazo_session *session, const uint8_t *metadata, size_t metadata_len,
                                                     const uint8_t *message, size_t message_len, uint8_t *out, size_t out_len, uint8_t *tag,
                                                     size_t tag_len);
PEVGHAZO_MUST_USE pevghazo_answer pevghazo_unwrap_four(pevghazo_session *session, const uint8_t *metadata, size_t metadata_len,
                                                       const uint8_t *cryptogram, size_t cryptogram_len, const uint8_t *tag, size_t tag_len,
                                                       uint8_t *out, size_t out_len);
PEVGHAZO_MUST_USE pevghazo_answer pevghazo_wrap_envelope_four(pevghazo_session *session, const uint8_t *header, size_t header_len,
                                                              const uint8_t *metadata, size_t metadata_len, const uint8_t *message,
                                                              size_t message_len, uint8_t *out, size_t out_len, uint8_t *tag,
                                                              size_t tag_len);
PEVGHAZO_MUST_USE pevghazo_answer pevghazo_unwrap_envelope_four(pevghazo_session *session, const uint8_t *header, size_t header_len,
                                                                const uint8_t *metadata, size_t metadata_len, const uint8_t *cryptogram,
                                                                size_t cryptogram_len, const uint8_t *tag, size_t tag_len, uint8_t *out,
                                                                size_t out_len);

#ifdef __cplusplus
}
#endif

#endif
