/* Pevghazo: old letters, in lone sessions of Farfalle-SAE over Xoofff that only open. What all functions share is said in pevghazo.h.
 *
 * The first version, a trial, sealed its letters in Farfalle-SAE. They still open here, in their order and from a session's first letter on, where
 * key and nonce of the session are known. Nothing is sealed so any more: pevghazo_sae_wrap is refused by 18, and so is writing an envelope, or a
 * header, with the letter F. Messages of today go by SANSE (session.h) or SANE (sane.h).
 *
 *     opening    pevghazo_read_envelope, whose letter must be F; pevghazo_sae_unwrap with the envelope's metadata, cryptogram and tag
 *
 * A letter that is refused leaves the session as it was, so the right next one still opens. As nothing is sealed, a session may be started as
 * often as one likes with one key and one nonce, to read its letters again.
 *
 * The steps are those of SANE, but that the strings of the history carry no toggle. What an old letter's tag does not cover:
 *
 *   - THE HEADER. There is no call for an envelope. A group's number that was altered on the way is not seen, so a program that knows the group
 *     compares it. Lengths that were altered move bytes from one part of the letter to another, which gets 11.
 *   - WHERE ONE LETTER ENDS AND THE NEXT BEGINS. A letter with metadata A and cryptogram C, and the two letters (A, empty) and (empty, C) in a row,
 *     leave one and the same session. Whoever puts two such letters together to one, with the tag of the second, has it accepted, and its message
 *     is another than the one that was sealed.
 *
 * Sessions of old letters are held alone, and not in a table; there are no codes for packets of them. */
#ifndef PEVGHAZO_SAE_H
#define PEVGHAZO_SAE_H

#include "session.h"

#ifdef __cplusplus
extern "C" {
#endif

/* A session of old letters. It has the fields of a pevghazo_session and is as secret; zeroed memory is a closed one. Its toggle is 0 from the start
 * on, and no call alters it. It is a type of its own, so that compilers warn, or refuse the program, where a record of one mode is handed to a
 * call of another. */
typedef struct pevghazo_sae_session {
    uint32_t acc[12];
    uint32_t mask[12];
    uint32_t index;
    pevghazo_flag toggle;
    pevghazo_flag opened;
} pevghazo_sae_session;

PEVGHAZO_LAYOUT(sae_session, sizeof(pevghazo_sae_session) == 104);
PEVGHAZO_LAYOUT(sae_session_acc, offsetof(pevghazo_sae_session, acc) == 0);
PEVGHAZO_LAYOUT(sae_session_mask, offsetof(pevghazo_sae_session, mask) == 48);
PEVGHAZO_LAYOUT(sae_session_index, offsetof(pevghazo_sae_session, index) == 96);
PEVGHAZO_LAYOUT(sae_session_toggle, offsetof(pevghazo_sae_session, toggle) == 100);
PEVGHAZO_LAYOUT(sae_session_opened, offsetof(pevghazo_sae_session, opened) == 101);

/* Checks 4, 6 (for the nonce) and 7 (for the tag buffer). A fresh session takes the record's place, and the start's tag fills `tag`: where the first
 * version's own is known, equal tags show that key and nonce are the letters' own. A refused start closes the record, so that a session that was
 * open in it is lost, and leaves `tag` as it was. The count is b(N) + 3 for a nonce of N bytes, where b(L) = floor(L / 48) + 1. */
PEVGHAZO_MUST_USE pevghazo_answer pevghazo_sae_start(pevghazo_sae_session *session, const uint8_t *key, size_t key_len, const uint8_t *nonce,
                                                     size_t nonce_len, uint8_t *tag, size_t tag_len);

/* Checks 5 to 9 and 11. The message goes to the start of `out`. For A bytes of metadata and M of cryptogram the count is b(A) + 2 where M is 0, and
 * otherwise a + b(M) + 3 + ceiling((M + 16) / 48), where a is b(A), or 0 where A is 0. */
PEVGHAZO_MUST_USE pevghazo_answer pevghazo_sae_unwrap(pevghazo_sae_session *session, const uint8_t *metadata, size_t metadata_len,
                                                      const uint8_t *cryptogram, size_t cryptogram_len, const uint8_t *tag, size_t tag_len,
                                                      uint8_t *out, size_t out_len);

/* Always 18, before every other check, with count 0 and nothing altered, whatever it is handed: of a closed session too, and for any lengths. */
PEVGHAZO_MUST_USE pevghazo_answer pevghazo_sae_wrap(pevghazo_sae_session *session, const uint8_t *metadata, size_t metadata_len,
                                                    const uint8_t *message, size_t message_len, uint8_t *out, size_t out_len, uint8_t *tag,
                                                    size_t tag_len);

#ifdef __cplusplus
}
#endif

#endif
