/* Old letters as a C program sees them in the installed library: a session of vectors/sae.txt is opened letter by letter, with damaged and repeated
 * ones in between; wraps and envelopes with the letter F are refused; and no call of another mode takes such a letter. */
#include "letters.h"
#include <pevghazo.h>
#include <stdio.h>
#include <stdlib.h>
#include <string.h>

static void check(const char *what, uint32_t found, uint32_t expected) {
    if (found == expected) return;
    fprintf(stderr, "sae: %s gives %u, and should give %u\n", what, found, expected);
    exit(1);
}

static void same(const char *what, const void *found, const void *expected, size_t n) { check(what, memcmp(found, expected, n) != 0, 0); }

enum { ROOM = 256, FIELDS = offsetof(pevghazo_sae_session, opened) + 1 };

/* The bytes of hexadecimal digits, and how many there are. */
static size_t bytes_of(uint8_t *to, const char *digits) {
    const size_t n = strlen(digits) / 2;
    for (size_t i = 0; i < n; i++) {
        const char pair[3] = {digits[2 * i], digits[2 * i + 1], 0};
        to[i] = (uint8_t)strtoul(pair, NULL, 16);
    }
    return n;
}

/* A letter as it travels, in an envelope for group 7, and its parts. */
typedef struct travels {
    uint8_t bytes[ROOM];
    pevghazo_parts parts;
} travels;

static travels in_envelope(const old_letter *letter) {
    travels at;
    size_t n = (size_t)snprintf((char *)at.bytes, ROOM, "F,7,%zu,%zu,", strlen(letter->metadata) / 2, strlen(letter->cryptogram) / 2);
    n += bytes_of(at.bytes + n, letter->metadata);
    n += bytes_of(at.bytes + n, letter->cryptogram);
    n += bytes_of(at.bytes + n, letter->tag);
    at.parts = pevghazo_read_envelope(at.bytes, n);
    check("reading a letter", at.parts.number, PEVGHAZO_ACCEPTED);
    check("its letter", at.parts.letter, PEVGHAZO_LETTER_F);
    check("its group", at.parts.group, 7);
    check("the bytes of its tag", (uint32_t)(at.parts.place - at.parts.tag), PEVGHAZO_SAE_TAG_LENGTH);
    check("the place after it", (uint32_t)at.parts.place, (uint32_t)n);
    check("reading all but its last byte", pevghazo_read_envelope(at.bytes, n - 1).number, PEVGHAZO_TOO_FEW_BYTES);
    return at;
}

/* Opens a letter into a buffer. */
static pevghazo_answer open_letter(pevghazo_sae_session *session, const travels *at, uint8_t *out) {
    const uint8_t *bytes = at->bytes;
    const pevghazo_parts *parts = &at->parts;
    return pevghazo_sae_unwrap(session, bytes + parts->metadata, parts->cryptogram - parts->metadata, bytes + parts->cryptogram,
                               parts->tag - parts->cryptogram, bytes + parts->tag, parts->place - parts->tag, out, ROOM);
}

/* A letter that is refused: the real count, zeros in the message's place, and the session as it was. */
static void refused(pevghazo_sae_session *session, const travels *at, uint32_t count) {
    const pevghazo_sae_session before = *session;
    uint8_t out[ROOM];
    memset(out, 0xA5, sizeof out);
    pevghazo_answer answer = open_letter(session, at, out);
    check("a wrong letter", answer.number, PEVGHAZO_WRONG_TAG);
    check("its count", answer.count, count);
    for (size_t i = 0; i < ROOM; i++) check("a byte after a wrong letter", out[i], i < at->parts.tag - at->parts.cryptogram ? 0 : 0xA5);
    same("the session after it", session, &before, FIELDS);
}

/* A wrap is refused by 18, whatever it is handed, and alters nothing. */
static void no_wrap(pevghazo_sae_session *session, size_t text_len, size_t tag_len) {
    static const uint8_t text[2 * PEVGHAZO_TEXT_MAX];
    const pevghazo_sae_session before = *session;
    uint8_t out[ROOM], tag[ROOM], kept[ROOM];
    memset(out, 0xA5, sizeof out);
    memset(tag, 0xA5, sizeof tag);
    memset(kept, 0xA5, sizeof kept);
    pevghazo_answer answer = pevghazo_sae_wrap(session, text, text_len, text, text_len, out, sizeof out, tag, tag_len);
    check("a wrap", answer.number, PEVGHAZO_READ_ONLY);
    check("its count", answer.count, 0);
    same("the output buffer after it", out, kept, sizeof out);
    same("the tag buffer after it", tag, kept, sizeof tag);
    same("the session after it", session, &before, FIELDS);
}

static void wraps(pevghazo_sae_session *session) {
    no_wrap(session, 0, 0);
    no_wrap(session, 11, PEVGHAZO_SAE_TAG_LENGTH);
    no_wrap(session, 2 * PEVGHAZO_TEXT_MAX, PEVGHAZO_SAE_TAG_LENGTH + 1);
}

static pevghazo_answer start(pevghazo_sae_session *session, uint8_t tag[PEVGHAZO_SAE_TAG_LENGTH]) {
    uint8_t key[ROOM], nonce[ROOM];
    const size_t key_len = bytes_of(key, letters_key), nonce_len = bytes_of(nonce, letters_nonce);
    return pevghazo_sae_start(session, key, key_len, nonce, nonce_len, tag, PEVGHAZO_SAE_TAG_LENGTH);
}

/* The box is opened in its order. */
static void in_order(void) {
    static pevghazo_sae_session session;
    uint8_t tag[PEVGHAZO_SAE_TAG_LENGTH], expected[ROOM], out[ROOM];
    pevghazo_answer answer = start(&session, tag);
    check("starting", answer.number, PEVGHAZO_ACCEPTED);
    check("its count", answer.count, 4);
    check("its index", session.index, 2);
    bytes_of(expected, letters_start_tag);
    same("its tag", tag, expected, sizeof tag);
    for (int i = 0; i < LETTERS; i++) {
        const travels right = in_envelope(&letters[i]);
        travels damaged = right;
        damaged.bytes[right.parts.place - 1] ^= 1;
        refused(&session, &damaged, letters[i].count);
        for (int j = i + 1; j < LETTERS; j++) {
            const travels later = in_envelope(&letters[j]);
            refused(&session, &later, letters[j].count);
        }
        wraps(&session);
        answer = open_letter(&session, &right, out);
        check("the right next letter", answer.number, PEVGHAZO_ACCEPTED);
        check("its count", answer.count, letters[i].count);
        same("its message", out, expected, bytes_of(expected, letters[i].message));
        check("the index after it", session.index, letters[i].index);
        check("the toggle after it", session.toggle, 0);
        refused(&session, &right, letters[i].count);
    }
}

/* A refused start closes the record, and leaves the tag buffer. */
static void refused_starts(void) {
    static const uint8_t text[PEVGHAZO_NONCE_MAX + 1];
    static const struct { uint32_t number; size_t key_len, nonce_len, tag_len; } starts[] = {
        {PEVGHAZO_BAD_KEY, PEVGHAZO_KEY_MIN - 1, PEVGHAZO_NONCE_MAX + 1, 15},
        {PEVGHAZO_TOO_LONG, PEVGHAZO_KEY_MIN, PEVGHAZO_NONCE_MAX + 1, 15},
        {PEVGHAZO_BAD_TAG_LENGTH, PEVGHAZO_KEY_MAX, PEVGHAZO_NONCE_MAX, 15},
        {PEVGHAZO_BAD_TAG_LENGTH, PEVGHAZO_KEY_MAX, 0, 17},
    };
    static pevghazo_sae_session session, closed;
    uint8_t tag[32], kept[32], out[ROOM];
    memset(kept, 0xA5, sizeof kept);
    for (size_t i = 0; i < sizeof starts / sizeof starts[0]; i++) {
        check("starting", start(&session, tag).number, PEVGHAZO_ACCEPTED);
        memset(tag, 0xA5, sizeof tag);
        pevghazo_answer answer = pevghazo_sae_start(&session, text, starts[i].key_len, text, starts[i].nonce_len, tag, starts[i].tag_len);
        check("a start that is refused", answer.number, starts[i].number);
        check("its count", answer.count, 0);
        same("the tag buffer after it", tag, kept, sizeof tag);
        same("the record after it", &session, &closed, FIELDS);
    }
    wraps(&closed);
    const travels first = in_envelope(&letters[0]);
    check("a letter at a closed session", open_letter(&closed, &first, out).number, PEVGHAZO_NOT_OPEN);
}

/* No envelope, and no header, is written with the letter F. */
static void not_written(void) {
    uint8_t out[ROOM], kept[ROOM];
    memset(out, 0xA5, sizeof out);
    memset(kept, 0xA5, sizeof kept);
    for (uint32_t group = 0; group < 64; group += 7) {
        pevghazo_written written = pevghazo_write_envelope(PEVGHAZO_LETTER_F, group, kept, 6, kept, 11, kept, group, out, 4 * group);
        check("writing a letter", written.number, PEVGHAZO_READ_ONLY);
        check("its length", (uint32_t)written.len, 0);
        written = pevghazo_write_header(PEVGHAZO_LETTER_F, group, (size_t)-1, group, out, 4 * group);
        check("writing a letter's header", written.number, PEVGHAZO_READ_ONLY);
        check("its length", (uint32_t)written.len, 0);
    }
    same("the buffer after it", out, kept, sizeof out);
}

/* The calls for an envelope do not take a letter; and as a message of SANE, under the same key and nonce, it has another tag. */
static void at_other_sessions(void) {
    static pevghazo_session sanse;
    static pevghazo_sane_session sane;
    const travels at = in_envelope(&letters[0]);
    const uint8_t *h = at.bytes, *a = h + at.parts.metadata, *c = h + at.parts.cryptogram, *t = h + at.parts.tag;
    const size_t h_len = at.parts.metadata, a_len = at.parts.cryptogram - h_len, c_len = at.parts.tag - at.parts.cryptogram;
    uint8_t key[ROOM], nonce[ROOM], tag[PEVGHAZO_SANE_TAG_LENGTH], expected[ROOM], out[ROOM];
    const size_t key_len = bytes_of(key, letters_key), nonce_len = bytes_of(nonce, letters_nonce);
    check("starting in SANSE", pevghazo_start(&sanse, key, key_len).number, PEVGHAZO_ACCEPTED);
    check("starting in SANE", pevghazo_sane_start(&sane, key, key_len, nonce, nonce_len, tag, sizeof tag).number, PEVGHAZO_ACCEPTED);
    bytes_of(expected, letters_start_tag);
    same("the start's tag, which is the same", tag, expected, sizeof tag);
    check("a letter in SANSE", pevghazo_unwrap_envelope(&sanse, h, h_len, a, a_len, c, c_len, t, 16, out, sizeof out).number, PEVGHAZO_BAD_HEADER);
    check("a letter in SANE", pevghazo_sane_unwrap_envelope(&sane, h, h_len, a, a_len, c, c_len, t, 16, out, sizeof out).number,
          PEVGHAZO_BAD_HEADER);
    check("its parts in SANE", pevghazo_sane_unwrap(&sane, a, a_len, c, c_len, t, 16, out, sizeof out).number, PEVGHAZO_WRONG_TAG);
}

int main(void) {
    in_order();
    refused_starts();
    not_written();
    at_other_sessions();
    puts("sae: old letters open in their order, and none is sealed");
    return 0;
}
