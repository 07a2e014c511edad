/* Pevghazo: envelopes, the bytes in which messages travel. What all functions share is said in pevghazo.h.
 *
 * An envelope is its header, the metadata, the cryptogram and the tag. The header is `S,group,metadata length,message length,`, or with N
 * in SANE and F for an old letter, the numbers in decimal; the longest has 17 bytes.
 *
 * In SANSE and SANE the header belongs under the tag: the calls for an envelope (pevghazo_wrap_envelope and the others of session.h, sane.h and
 * table.h) are handed it, and what they take for metadata in history, tag and count is the header's bytes followed by the metadata. So an envelope
 * whose header was altered on its way is refused: by 1 where its letter, its lengths or, in the table, its group are not those of the call, and
 * otherwise by 11, as the tag is that of another text. The limit on the metadata is that on the metadata alone.
 *
 *     sealing    pevghazo_write_header, pevghazo_wrap_envelope with that header, pevghazo_write_envelope
 *     opening    pevghazo_read_envelope, pevghazo_unwrap_envelope with the header of the envelope, its bytes from 0 up to `metadata`
 *
 * The calls without an envelope (pevghazo_wrap and the others) put no header under the tag. What was wrapped by one sort is unwrapped by the same
 * sort, with the same header; both may be mixed in one session. Metadata that begin with the bytes of a header, handed to a call without an
 * envelope, are the same text as header and metadata of a call for one: who uses both sorts keeps them apart by what the metadata begin with.
 *
 * ENVELOPES SEALED BEFORE VERSION 0.8.0 had no header under the tag: opened as above they are refused by 11. So both ends move to this version
 * together.
 *
 * OLD LETTERS, those of the first version, have the letter F. They are read and never written, and their header is not under the tag: none of the
 * calls for an envelope takes one. They are opened by pevghazo_read_envelope, and pevghazo_sae_unwrap with metadata, cryptogram and tag (sae.h). */
#ifndef PEVGHAZO_ENVELOPE_H
#define PEVGHAZO_ENVELOPE_H

#include "numbers.h"

#ifdef __cplusplus
extern "C" {
#endif

/* Limit: the most bytes of a header. */
enum { PEVGHAZO_HEADER_MAX = 17 };

/* The letters, the first byte of an envelope: S for a message of SANSE, whose tag has 32 bytes, N for one of SANE, whose tag has 16, and F for an old
 * letter, whose tag has 16, too. */
enum {
    PEVGHAZO_LETTER_S = 'S',
    PEVGHAZO_LETTER_N = 'N',
    PEVGHAZO_LETTER_F = 'F'
};

/* An envelope as it was read: its number, its letter, the group, the places where metadata, cryptogram and tag begin, and the place after it.
 * The header reaches from 0 up to the metadata, the metadata up to the cryptogram, the cryptogram up to the tag, the tag up to `place`. All but
 * the number are 0 on a refusal. */
typedef struct pevghazo_parts {
    uint32_t number;
    uint8_t letter;
    uint32_t group;
    size_t metadata;
    size_t cryptogram;
    size_t tag;
    size_t place;
} pevghazo_parts;

PEVGHAZO_LAYOUT(parts, sizeof(pevghazo_parts) == 48);
PEVGHAZO_LAYOUT(parts_letter, offsetof(pevghazo_parts, letter) == 4);
PEVGHAZO_LAYOUT(parts_group, offsetof(pevghazo_parts, group) == 8);
PEVGHAZO_LAYOUT(parts_metadata, offsetof(pevghazo_parts, metadata) == 16);
PEVGHAZO_LAYOUT(parts_cryptogram, offsetof(pevghazo_parts, cryptogram) == 24);
PEVGHAZO_LAYOUT(parts_tag, offsetof(pevghazo_parts, tag) == 32);
PEVGHAZO_LAYOUT(parts_place, offsetof(pevghazo_parts, place) == 40);

/* An envelope, or a header, as it was written: the number, and how many bytes it has, or 0. */
typedef struct pevghazo_written {
    uint32_t number;
    size_t len;
} pevghazo_written;

PEVGHAZO_LAYOUT(written, sizeof(pevghazo_written) == 16 && offsetof(pevghazo_written, len) == 8);

/* Checks 1 and 2, where 2 goes by the letter's tag. More bytes may follow the envelope. It may have any of the three letters. */
PEVGHAZO_MUST_USE pevghazo_parts pevghazo_read_envelope(const uint8_t *bytes, size_t bytes_len);

/* Checks 18, 1, 3, 6, 7, 8. Number 18 is the letter F, before every other check: the length given is 0, and `out` stays as it was. Number 1 is a
 * letter that there is not; 7 goes by the letter: a tag of S has 32 bytes, one of N 16. */
PEVGHAZO_MUST_USE pevghazo_written pevghazo_write_envelope(uint8_t letter, uint32_t group, const uint8_t *metadata, size_t metadata_len,
                                                           const uint8_t *cryptogram, size_t cryptogram_len, const uint8_t *tag,
                                                           size_t tag_len, uint8_t *out, size_t out_len);

/* Writes the header alone of an envelope with these lengths of metadata and message, at the start of `out`; PEVGHAZO_HEADER_MAX bytes are always
 * enough. Checks 18, 1, 3, 6, 8. Number 18 is the letter F, before every other check, 1 a letter that there is not, 6 a length, 8 a buffer shorter
 * than the header. */
PEVGHAZO_MUST_USE pevghazo_written pevghazo_write_header(uint8_t letter, uint32_t group, size_t metadata_len, size_t message_len, uint8_t *out,
                                                         size_t out_len);

#ifdef __cplusplus
}
#endif

#endif
