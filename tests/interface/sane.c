/* SANE as a C program sees it in the installed library: the first session of vectors/sane.txt, what a refused start leaves, and a message in an
 * envelope with the letter N, there and back. */
#include <pevghazo.h>
#include <stdio.h>
#include <stdlib.h>
#include <string.h>

static void check(const char *what, uint32_t found, uint32_t expected) {
    if (found == expected) return;
    fprintf(stderr, "sane: %s gives %u, and should give %u\n", what, found, expected);
    exit(1);
}

static void same(const char *what, const void *found, const void *expected, size_t n) { check(what, memcmp(found, expected, n) != 0, 0); }

static const uint8_t key[] = "the key of group 7", nonce[] = {41, 0, 0, 0, 0, 0, 0, 0}, metadata[] = "size C", message[] = "12001-12100";
enum { key_len = sizeof key - 1, metadata_len = sizeof metadata - 1, message_len = sizeof message - 1 };

/* The first session of the vectors, whose nonce and first message have no bytes. */
static void vector(void) {
    static const uint8_t shared[] = {0x92, 0xc2, 0x38, 0xc2, 0x5b, 0xa7, 0x22, 0xdf, 0x59, 0x7a, 0x53, 0x70, 0x5c, 0x5b, 0xcc, 0x7d};
    static const uint8_t expected[2][PEVGHAZO_SANE_TAG_LENGTH] = {
        {0xbb, 0x52, 0x36, 0x11, 0x3b, 0xbc, 0x52, 0xee, 0x69, 0xc5, 0x93, 0x87, 0x9c, 0xf2, 0x85, 0xdd},
        {0x7f, 0xa4, 0x25, 0xa3, 0x87, 0x2b, 0x29, 0x03, 0x83, 0x1b, 0x2c, 0x01, 0xe7, 0xa7, 0xcb, 0x29}};
    static pevghazo_sane_session session;
    uint8_t tag[PEVGHAZO_SANE_TAG_LENGTH], out[1];
    pevghazo_answer answer = pevghazo_sane_start(&session, shared, sizeof shared, nonce, 0, tag, sizeof tag);
    check("starting", answer.number, PEVGHAZO_ACCEPTED);
    check("its count", answer.count, 4);
    check("its index", session.index, 2);
    same("its tag", tag, expected[0], sizeof tag);
    answer = pevghazo_sane_wrap(&session, metadata, 0, message, 0, out, 0, tag, sizeof tag);
    check("wrapping nothing", answer.number, PEVGHAZO_ACCEPTED);
    check("its count", answer.count, 3);
    check("the index after it", session.index, 4);
    check("the toggle after it", session.toggle, true);
    same("the tag of nothing", tag, expected[1], sizeof tag);
}

/* A refused start closes the record and leaves the tag buffer. */
static void refused_start(uint32_t number, size_t a_key_len, size_t nonce_len, size_t tag_len) {
    static const uint8_t long_nonce[PEVGHAZO_NONCE_MAX + 1];
    static pevghazo_sane_session session, closed;
    uint8_t tag[2 * PEVGHAZO_SANE_TAG_LENGTH], kept[sizeof tag], first[PEVGHAZO_SANE_TAG_LENGTH];
    memset(tag, 0xA5, sizeof tag);
    memset(kept, 0xA5, sizeof kept);
    check("starting", pevghazo_sane_start(&session, key, key_len, long_nonce, PEVGHAZO_NONCE_MAX, first, sizeof first).number, PEVGHAZO_ACCEPTED);
    pevghazo_answer answer = pevghazo_sane_start(&session, key, a_key_len, long_nonce, nonce_len, tag, tag_len);
    check("a start that is refused", answer.number, number);
    check("its count", answer.count, 0);
    same("the tag buffer after it", tag, kept, sizeof tag);
    check("the record after it", memcmp(session.acc, closed.acc, sizeof closed.acc) != 0 || memcmp(session.mask, closed.mask, sizeof closed.mask) != 0
          || session.index != 0 || session.toggle || session.opened, false);
}

/* A message from one end to the other, in an envelope with the letter N; a record in SANSE with the same key does not take it. */
static void in_an_envelope(pevghazo_sane_session *from, pevghazo_sane_session *to) {
    static pevghazo_session other;
    uint8_t header[PEVGHAZO_HEADER_MAX], cryptogram[sizeof message], out[sizeof message], tag[PEVGHAZO_SANE_TAG_LENGTH];
    uint8_t envelope[PEVGHAZO_HEADER_MAX + sizeof metadata + sizeof message + PEVGHAZO_SANE_TAG_LENGTH];
    pevghazo_written headed = pevghazo_write_header(PEVGHAZO_LETTER_N, 7, metadata_len, message_len, header, sizeof header);
    check("writing a header", headed.number, PEVGHAZO_ACCEPTED);
    pevghazo_answer wrapped = pevghazo_sane_wrap_envelope(from, header, headed.len, metadata, metadata_len, message, message_len, cryptogram,
                                                          sizeof cryptogram, tag, sizeof tag);
    check("wrapping", wrapped.number, PEVGHAZO_ACCEPTED);
    check("the count of wrapping", wrapped.count, 6);
    check("writing with another letter",
          pevghazo_write_envelope('M', 32, metadata, metadata_len, cryptogram, message_len, tag, sizeof tag, envelope, 0).number,
          PEVGHAZO_BAD_HEADER);
    check("writing with the letter S",
          pevghazo_write_envelope(PEVGHAZO_LETTER_S, 7, metadata, metadata_len, cryptogram, message_len, tag, sizeof tag, envelope, 0).number,
          PEVGHAZO_BAD_TAG_LENGTH);
    pevghazo_written written = pevghazo_write_envelope(PEVGHAZO_LETTER_N, 7, metadata, metadata_len, cryptogram, message_len, tag, sizeof tag,
                                                       envelope, sizeof envelope);
    check("writing an envelope", written.number, PEVGHAZO_ACCEPTED);
    same("its header", envelope, "N,7,6,11,size C", 15);
    pevghazo_parts parts = pevghazo_read_envelope(envelope, written.len);
    check("reading it", parts.number, PEVGHAZO_ACCEPTED);
    check("its letter", parts.letter, PEVGHAZO_LETTER_N);
    check("the bytes of its tag", (uint32_t)(parts.place - parts.tag), PEVGHAZO_SANE_TAG_LENGTH);

    const uint8_t *h = envelope, *m = envelope + parts.metadata, *c = envelope + parts.cryptogram, *t = envelope + parts.tag;
    const size_t h_len = parts.metadata, m_len = parts.cryptogram - parts.metadata, c_len = parts.tag - parts.cryptogram, t_len = parts.place - parts.tag;
    check("starting in SANSE", pevghazo_start(&other, key, key_len).number, PEVGHAZO_ACCEPTED);
    check("unwrapping in SANSE", pevghazo_unwrap_envelope(&other, h, h_len, m, m_len, c, c_len, t, t_len, out, sizeof out).number, PEVGHAZO_BAD_HEADER);
    check("unwrapping in SANSE without its header", pevghazo_unwrap(&other, m, m_len, c, c_len, t, t_len, out, sizeof out).number,
          PEVGHAZO_BAD_TAG_LENGTH);
    check("unwrapping without its header", pevghazo_sane_unwrap(to, m, m_len, c, c_len, t, t_len, out, sizeof out).number, PEVGHAZO_WRONG_TAG);
    check("unwrapping", pevghazo_sane_unwrap_envelope(to, h, h_len, m, m_len, c, c_len, t, t_len, out, sizeof out).number, PEVGHAZO_ACCEPTED);
    same("the message", out, message, message_len);
    pevghazo_answer again = pevghazo_sane_unwrap_envelope(to, h, h_len, m, m_len, c, c_len, t, t_len, out, sizeof out);
    check("unwrapping it again", again.number, PEVGHAZO_WRONG_TAG);
    check("its count", again.count, wrapped.count);
    for (size_t i = 0; i < message_len; i++) check("a byte of a refused message", out[i], 0);
    same("the ends' accumulators", from->acc, to->acc, sizeof from->acc);
}

int main(void) {
    static pevghazo_sane_session office, group; /* all zero: closed sessions */
    uint8_t here[PEVGHAZO_SANE_TAG_LENGTH], there[PEVGHAZO_SANE_TAG_LENGTH];
    vector();
    refused_start(PEVGHAZO_BAD_KEY, PEVGHAZO_KEY_MIN - 1, PEVGHAZO_NONCE_MAX + 1, 15);
    refused_start(PEVGHAZO_TOO_LONG, key_len, PEVGHAZO_NONCE_MAX + 1, 15);
    refused_start(PEVGHAZO_BAD_TAG_LENGTH, key_len, PEVGHAZO_NONCE_MAX, 15);
    refused_start(PEVGHAZO_BAD_TAG_LENGTH, key_len, 0, 17);
    check("wrapping before the start", pevghazo_sane_wrap(&office, metadata, 0, message, 0, here, 0, there, 0).number, PEVGHAZO_NOT_OPEN);
    check("starting at one end", pevghazo_sane_start(&office, key, key_len, nonce, sizeof nonce, here, sizeof here).number, PEVGHAZO_ACCEPTED);
    check("starting at the other", pevghazo_sane_start(&group, key, key_len, nonce, sizeof nonce, there, sizeof there).number, PEVGHAZO_ACCEPTED);
    same("the two ends' tags", here, there, sizeof here);
    in_an_envelope(&office, &group);
    in_an_envelope(&group, &office);
    puts("sane: tags are those of the vectors, and a message went both ways");
    return 0;
}
