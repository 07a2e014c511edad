/* Envelopes as a C program sees them in the installed library: a header alone, a message that is sealed and opened with the header under its tag, an
 * envelope that was sent on to another group with the same key, one that an earlier version sealed, and headers that are not the call's. */
#include <pevghazo.h>
#include <stdio.h>
#include <stdlib.h>
#include <string.h>

static void check(const char *what, uint32_t found, uint32_t expected) {
    if (found == expected) return;
    fprintf(stderr, "envelope: %s gives %u, and should give %u\n", what, found, expected);
    exit(1);
}

static const uint8_t key[] = "one key for two groups", nonce[] = {41}, metadata[] = "size C", message[] = "12001-12100";
enum { key_len = sizeof key - 1, metadata_len = sizeof metadata - 1, message_len = sizeof message - 1 };
enum { ENVELOPE = PEVGHAZO_HEADER_MAX + metadata_len + message_len + PEVGHAZO_TAG_LENGTH };

/* An envelope, and where its parts are. */
typedef struct sealed {
    uint8_t bytes[ENVELOPE];
    pevghazo_parts parts;
} sealed;

/* The header alone of an envelope for the message. */
static size_t header_of(uint8_t letter, uint32_t group, uint8_t header[PEVGHAZO_HEADER_MAX]) {
    const pevghazo_written written = pevghazo_write_header(letter, group, metadata_len, message_len, header, PEVGHAZO_HEADER_MAX);
    check("writing a header", written.number, PEVGHAZO_ACCEPTED);
    return written.len;
}

/* The checks of writing a header, in their order; and the header, with the buffer's other bytes kept. */
static void headers(void) {
    static const struct { uint8_t letter; uint32_t group; size_t metadata, message, room; uint32_t number; } refused[] = {
        {'F', 32, 16385, 0, 0, PEVGHAZO_READ_ONLY},    {'f', 32, 16385, 0, 0, PEVGHAZO_BAD_HEADER},   {'S', 32, 16385, 0, 0, PEVGHAZO_BAD_GROUP},
        {'F', 7, 20, 48, 99, PEVGHAZO_READ_ONLY},      {'N', 31, 16385, 0, 0, PEVGHAZO_TOO_LONG},
        {'S', 31, 0, 16385, 0, PEVGHAZO_TOO_LONG},     {'S', 31, SIZE_MAX, 0, 99, PEVGHAZO_TOO_LONG}, {'N', 7, 20, 48, 9, PEVGHAZO_NO_ROOM},
        {'S', 31, 16384, 16384, 16, PEVGHAZO_NO_ROOM}};
    uint8_t out[100], kept[100];
    memset(out, 0xA5, sizeof out);
    memset(kept, 0xA5, sizeof kept);
    for (size_t i = 0; i < sizeof refused / sizeof refused[0]; i++) {
        const pevghazo_written written = pevghazo_write_header(refused[i].letter, refused[i].group, refused[i].metadata, refused[i].message, out,
                                                               refused[i].room);
        check("a header that is not written", written.number, refused[i].number);
        check("its length", (uint32_t)written.len, 0);
        check("the buffer after it", memcmp(out, kept, sizeof out) != 0, 0);
    }
    const pevghazo_written written = pevghazo_write_header(PEVGHAZO_LETTER_N, 31, 16384, 16384, out, sizeof out);
    check("the longest header", written.number, PEVGHAZO_ACCEPTED);
    check("its length", (uint32_t)written.len, PEVGHAZO_HEADER_MAX);
    check("its bytes", memcmp(out, "N,31,16384,16384,\xA5", PEVGHAZO_HEADER_MAX + 1) != 0, 0);
}

/* Writes the envelope of a message that was wrapped for a group, and reads it. */
static void write(sealed *to, uint8_t letter, uint32_t group, const uint8_t *cryptogram, const uint8_t *tag, size_t tag_len) {
    const pevghazo_written written = pevghazo_write_envelope(letter, group, metadata, metadata_len, cryptogram, message_len, tag, tag_len, to->bytes,
                                                             sizeof to->bytes);
    check("writing an envelope", written.number, PEVGHAZO_ACCEPTED);
    to->parts = pevghazo_read_envelope(to->bytes, written.len);
    check("reading it", to->parts.number, PEVGHAZO_ACCEPTED);
}

/* Seals the message with a lone session, for an envelope or as versions before 0.8.0 did. */
static void seal(sealed *to, pevghazo_session *session, uint32_t group, bool as_before) {
    uint8_t header[PEVGHAZO_HEADER_MAX], cryptogram[message_len], tag[PEVGHAZO_TAG_LENGTH];
    const size_t header_len = header_of(PEVGHAZO_LETTER_S, group, header);
    const pevghazo_answer wrapped = as_before
        ? pevghazo_wrap(session, metadata, metadata_len, message, message_len, cryptogram, sizeof cryptogram, tag, sizeof tag)
        : pevghazo_wrap_envelope(session, header, header_len, metadata, metadata_len, message, message_len, cryptogram, sizeof cryptogram, tag,
                                 sizeof tag);
    check("wrapping", wrapped.number, PEVGHAZO_ACCEPTED);
    check("its count", wrapped.count, 7);
    write(to, PEVGHAZO_LETTER_S, group, cryptogram, tag, sizeof tag);
    check("the header's bytes, from 0 up to the metadata", to->parts.metadata != header_len || memcmp(to->bytes, header, header_len) != 0, 0);
}

/* Opens an envelope with a lone session; and for a group of a table, by the number. */
static uint32_t open_lone(pevghazo_session *session, const sealed *from) {
    const uint8_t *bytes = from->bytes;
    const pevghazo_parts *parts = &from->parts;
    uint8_t out[message_len] = {0};
    const pevghazo_answer answer = pevghazo_unwrap_envelope(
        session, bytes, parts->metadata, bytes + parts->metadata, parts->cryptogram - parts->metadata, bytes + parts->cryptogram,
        parts->tag - parts->cryptogram, bytes + parts->tag, parts->place - parts->tag, out, sizeof out);
    if (answer.number == PEVGHAZO_ACCEPTED) check("the message", memcmp(out, message, message_len) != 0, 0);
    return answer.number;
}

static uint32_t open_group(pevghazo_record *table, uint32_t group, const sealed *from) {
    const uint8_t *bytes = from->bytes;
    const pevghazo_parts *parts = &from->parts;
    uint8_t out[message_len] = {0};
    const pevghazo_answer answer = pevghazo_unwrap_envelope_group(
        table, PEVGHAZO_GROUPS, group, 1000, bytes, parts->metadata, bytes + parts->metadata, parts->cryptogram - parts->metadata,
        bytes + parts->cryptogram, parts->tag - parts->cryptogram, bytes + parts->tag, parts->place - parts->tag, out, sizeof out);
    if (answer.number == PEVGHAZO_ACCEPTED) check("the message", memcmp(out, message, message_len) != 0, 0);
    return answer.number;
}

/* Two groups with one key: the group's digit is altered on the way. */
static void readdressed(void) {
    static pevghazo_record office[PEVGHAZO_GROUPS];
    static pevghazo_session group_8, group_9, fresh;
    sealed right, altered;
    check("opening group 8", pevghazo_open_group(office, PEVGHAZO_GROUPS, 8, 1000, key, key_len).number, PEVGHAZO_ACCEPTED);
    check("opening group 9", pevghazo_open_group(office, PEVGHAZO_GROUPS, 9, 1000, key, key_len).number, PEVGHAZO_ACCEPTED);
    check("starting", pevghazo_start(&group_8, key, key_len).number, PEVGHAZO_ACCEPTED);
    fresh = group_9 = group_8;
    seal(&right, &group_8, 8, false);
    altered = right;
    altered.bytes[2] = '9';
    check("the altered envelope at group 9", open_lone(&group_9, &altered), PEVGHAZO_WRONG_TAG);
    check("its session after it", memcmp(&group_9, &fresh, offsetof(pevghazo_session, opened) + 1) != 0, 0);
    check("the altered envelope in the table, for group 9", open_group(office, 9, &altered), PEVGHAZO_WRONG_TAG);
    check("the count of group 9", office[9].count, 1 + 7);
    check("the altered envelope in the table, for group 8", open_group(office, 8, &altered), PEVGHAZO_BAD_HEADER);
    check("the envelope in the table, for group 9", open_group(office, 9, &right), PEVGHAZO_BAD_HEADER);
    check("a group above 31", open_group(office, 40, &right), PEVGHAZO_BAD_HEADER);
    check("the count of group 8", office[8].count, 1);
    check("the envelope in the table, for group 8", open_group(office, 8, &right), PEVGHAZO_ACCEPTED);
    check("the count of group 8 after it", office[8].count, 1 + 7);
    check("the same once more", open_group(office, 8, &right), PEVGHAZO_WRONG_TAG);
}

/* An envelope that a version before 0.8.0 sealed, without the header under the tag. */
static void sealed_before(void) {
    static pevghazo_session here, there;
    sealed old;
    check("starting", pevghazo_start(&here, key, key_len).number, PEVGHAZO_ACCEPTED);
    there = here;
    seal(&old, &here, 7, true);
    check("an envelope of a version before", open_lone(&there, &old), PEVGHAZO_WRONG_TAG);
}

/* Headers that are not the call's get 1, before all else; nothing is altered. */
static void other_headers(void) {
    static const char *const others[] = {"", "S", "S,7,6,11", "S,7,6,11,,", " S,7,6,11,", "S,07,6,11,", "S,32,6,11,", "S,7,7,11,", "S,7,6,10,",
                                         "N,7,6,11,", "F,7,6,11,"};
    static pevghazo_session closed;
    static pevghazo_record short_table[PEVGHAZO_GROUPS - 1];
    uint8_t out[message_len], tag[PEVGHAZO_TAG_LENGTH], kept[PEVGHAZO_TAG_LENGTH];
    memset(tag, 0xA5, sizeof tag);
    memset(kept, 0xA5, sizeof kept);
    for (size_t i = 0; i < sizeof others / sizeof others[0]; i++) {
        const uint8_t *header = (const uint8_t *)others[i];
        const size_t header_len = strlen(others[i]);
        pevghazo_answer answer = pevghazo_wrap_envelope(&closed, header, header_len, metadata, metadata_len, message, message_len, out, 0, tag, 1);
        check("another header", answer.number, PEVGHAZO_BAD_HEADER);
        check("its count", answer.count, 0);
        answer = pevghazo_wrap_envelope_group(short_table, PEVGHAZO_GROUPS - 1, 7, 0, header, header_len, metadata, metadata_len, message,
                                              message_len, out, 0, tag, 1);
        check("another header in a short table", answer.number, PEVGHAZO_BAD_HEADER);
        check("the tag buffer after it", memcmp(tag, kept, sizeof tag) != 0, 0);
    }
    const uint8_t *header = (const uint8_t *)"S,7,6,11,";
    check("a closed session", pevghazo_wrap_envelope(&closed, header, 9, metadata, metadata_len, message, message_len, out, 0, tag, 1).number,
          PEVGHAZO_NOT_OPEN);
    check("a short table",
          pevghazo_wrap_envelope_group(short_table, PEVGHAZO_GROUPS - 1, 7, 0, header, 9, metadata, metadata_len, message, message_len, out, 0, tag,
                                       1).number,
          PEVGHAZO_BAD_GROUP);
}

/* Opens the message in SANE, with this header; by the number. */
static uint32_t open_sane(pevghazo_sane_session *session, const uint8_t *header, size_t header_len, const uint8_t *cryptogram, const uint8_t *tag) {
    uint8_t out[message_len] = {0};
    const pevghazo_answer answer = pevghazo_sane_unwrap_envelope(session, header, header_len, metadata, metadata_len, cryptogram, message_len, tag,
                                                                 PEVGHAZO_SANE_TAG_LENGTH, out, sizeof out);
    if (answer.number == PEVGHAZO_ACCEPTED) check("the message", memcmp(out, message, message_len) != 0, 0);
    return answer.number;
}

/* The same message in SANE, with the digit of another group, with the letter S, and as it was wrapped. */
static void in_sane(void) {
    static pevghazo_sane_session here, there;
    uint8_t header[PEVGHAZO_HEADER_MAX], other[PEVGHAZO_HEADER_MAX], cryptogram[message_len], tag[PEVGHAZO_SANE_TAG_LENGTH];
    check("starting in SANE", pevghazo_sane_start(&here, key, key_len, nonce, sizeof nonce, tag, sizeof tag).number, PEVGHAZO_ACCEPTED);
    there = here;
    const size_t header_len = header_of(PEVGHAZO_LETTER_N, 8, header);
    check("the other header", (uint32_t)header_of(PEVGHAZO_LETTER_N, 9, other), (uint32_t)header_len);
    const pevghazo_answer wrapped = pevghazo_sane_wrap_envelope(&here, header, header_len, metadata, metadata_len, message, message_len, cryptogram,
                                                                sizeof cryptogram, tag, sizeof tag);
    check("wrapping in SANE", wrapped.number, PEVGHAZO_ACCEPTED);
    check("its count", wrapped.count, 6);
    check("another group's digit in SANE", open_sane(&there, other, header_len, cryptogram, tag), PEVGHAZO_WRONG_TAG);
    other[0] = PEVGHAZO_LETTER_S;
    check("the letter S in SANE", open_sane(&there, other, header_len, cryptogram, tag), PEVGHAZO_BAD_HEADER);
    check("unwrapping in SANE", open_sane(&there, header, header_len, cryptogram, tag), PEVGHAZO_ACCEPTED);
}

int main(void) {
    headers();
    readdressed();
    sealed_before();
    other_headers();
    in_sane();
    puts("envelope: the header stands under the tag, and one that is not the call's is refused");
    return 0;
}
