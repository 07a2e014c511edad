/* What a C program sees of the installed library: the table of zeros, what a refused start leaves, codes of packets, and a message from the office
 * to a group and back. */
#include <pevghazo.h>
#include <stdio.h>
#include <stdlib.h>
#include <string.h>

static void check(const char *what, uint32_t found, uint32_t expected) {
    if (found == expected) return;
    fprintf(stderr, "interface: %s gives %u, and should give %u\n", what, found, expected);
    exit(1);
}

static const uint8_t key[] = "the key of group 7", metadata[] = "size C", message[] = "12001-12100";
enum { key_len = sizeof key - 1, metadata_len = sizeof metadata - 1, message_len = sizeof message - 1 };

/* Zeroed memory is the table before the first day, when the allowance is 0. */
static void zeros(void) {
    pevghazo_record office[PEVGHAZO_GROUPS];
    uint8_t out[message_len], tag[PEVGHAZO_TAG_LENGTH] = {0};
    memset(office, 0, sizeof office);
    for (uint32_t group = 0; group < PEVGHAZO_GROUPS; group++) {
        check("wrapping before a group is opened",
              pevghazo_wrap_group(office, PEVGHAZO_GROUPS, group, UINT32_MAX, metadata, metadata_len, message, message_len, out, sizeof out, tag,
                                  sizeof tag).number,
              PEVGHAZO_NOT_OPEN);
        check("unwrapping before a group is opened",
              pevghazo_unwrap_group(office, PEVGHAZO_GROUPS, group, UINT32_MAX, metadata, metadata_len, message, message_len, tag, sizeof tag, out,
                                    sizeof out).number,
              PEVGHAZO_NOT_OPEN);
    }
    pevghazo_found full = pevghazo_nearly_full(office, PEVGHAZO_GROUPS, 0);
    check("the nearly-full question of zeros", full.number, PEVGHAZO_ACCEPTED);
    check("whether it names a group", full.found, false);
    check("the group that it names", full.group, 0);
    for (uint32_t group = 0; group < PEVGHAZO_GROUPS; group++) {
        check("opening a group before the first day", pevghazo_open_group(office, PEVGHAZO_GROUPS, group, 0, key, key_len).number, PEVGHAZO_ALLOWANCE);
        check("opening a group", pevghazo_open_group(office, PEVGHAZO_GROUPS, group, 1, key, key_len).number, PEVGHAZO_ACCEPTED);
        check("an opened group", office[group].session.opened, true);
        check("its count", office[group].count, 1);
    }
}

/* A refused start closes the session's record, and a refused opening leaves the group's. */
static void refused_start(void) {
    static pevghazo_record table[PEVGHAZO_GROUPS];
    static pevghazo_session closed;
    pevghazo_session before, *session = &table[31].session;
    check("starting", pevghazo_start(session, key, key_len).number, PEVGHAZO_ACCEPTED);
    before = *session;
    pevghazo_answer refused = pevghazo_open_group(table, PEVGHAZO_GROUPS, 31, 9, key, PEVGHAZO_KEY_MIN - 1);
    check("opening with a short key", refused.number, PEVGHAZO_BAD_KEY);
    check("the group's session after it", (uint32_t)memcmp(session, &before, offsetof(pevghazo_session, opened) + 1), 0);
    check("the group's count after it", table[31].count, 0);
    pevghazo_answer answer = pevghazo_start(session, key, PEVGHAZO_KEY_MIN - 1);
    check("starting with a short key", answer.number, PEVGHAZO_BAD_KEY);
    check("its count", answer.count, 0);
    check("the record after it", memcmp(session->acc, closed.acc, sizeof closed.acc) != 0 || memcmp(session->mask, closed.mask, sizeof closed.mask) != 0
          || session->index != 0 || session->toggle || session->opened, false);
}

/* The first codes of vectors/codes.txt, after a message without bytes; and their refusals, which leave the buffer as it was. */
static void codes(void) {
    static const uint8_t shared[] = {0x05, 0xad, 0x4e, 0xf9, 0x92, 0x08, 0x2b, 0x80, 0xd5, 0xbf, 0x1d, 0x19, 0x5f, 0x8c, 0x06, 0x05};
    static const uint8_t expected[2][PEVGHAZO_CODE_LENGTH] = {{0x12, 0x92, 0xc7, 0xf4, 0xdb, 0x53, 0xd2, 0x86},
                                                              {0x37, 0xf2, 0xa7, 0xdd, 0x3c, 0xab, 0x75, 0xbe}};
    static pevghazo_session session, before;
    uint8_t out[PEVGHAZO_CODE_LENGTH + 1], kept[sizeof out], tag[PEVGHAZO_TAG_LENGTH];
    memset(out, 0xA5, sizeof out);
    memcpy(kept, out, sizeof out);
    check("a code of a closed session", pevghazo_code(&session, 5000, out, PEVGHAZO_CODE_LENGTH - 1).number, PEVGHAZO_NOT_OPEN);
    check("starting", pevghazo_start(&session, shared, sizeof shared).number, PEVGHAZO_ACCEPTED);
    check("a code before the first message", pevghazo_code(&session, 0, out, PEVGHAZO_CODE_LENGTH - 1).number, PEVGHAZO_NO_CODE);
    check("wrapping nothing", pevghazo_wrap(&session, message, 0, message, 0, out, 0, tag, sizeof tag).number, PEVGHAZO_ACCEPTED);
    memcpy(&before, &session, sizeof before);
    check("a code of a packet too high", pevghazo_code(&session, PEVGHAZO_PACKET_MAX + 1, out, sizeof out).number, PEVGHAZO_NO_CODE);
    pevghazo_answer refused = pevghazo_code(&session, PEVGHAZO_PACKET_MAX, out, PEVGHAZO_CODE_LENGTH - 1);
    check("a code without room", refused.number, PEVGHAZO_NO_ROOM);
    check("its count", refused.count, 0);
    check("the buffer after refused codes", (uint32_t)memcmp(out, kept, sizeof out), 0);
    for (uint32_t packet = 0; packet < 2; packet++) {
        pevghazo_answer answer = pevghazo_code(&session, packet, out, sizeof out);
        check("a code", answer.number, PEVGHAZO_ACCEPTED);
        check("the count of a code", answer.count, 2);
        check("a code's bytes", (uint32_t)memcmp(out, expected[packet], PEVGHAZO_CODE_LENGTH), 0);
        check("the byte after a code", out[PEVGHAZO_CODE_LENGTH], 0xA5);
    }
    check("the last code", pevghazo_code(&session, PEVGHAZO_PACKET_MAX, out, PEVGHAZO_CODE_LENGTH).number, PEVGHAZO_ACCEPTED);
    check("the session after its codes", (uint32_t)memcmp(&session, &before, sizeof before), 0);
}

/* Both ends give a packet one code; the office's is that of the session in the group's record. */
static void same_code(const pevghazo_session *office, const pevghazo_session *group, uint32_t packet) {
    uint8_t here[PEVGHAZO_CODE_LENGTH] = {0}, there[PEVGHAZO_CODE_LENGTH] = {1};
    check("a code of the office", pevghazo_code(office, packet, here, sizeof here).number, PEVGHAZO_ACCEPTED);
    check("a code of the group", pevghazo_code(group, packet, there, sizeof there).number, PEVGHAZO_ACCEPTED);
    check("the two codes", (uint32_t)memcmp(here, there, sizeof here), 0);
}

/* The group unwraps what arrived in an envelope once, and a second time it is refused. */
static void opened_once(pevghazo_session *group, const uint8_t *envelope, pevghazo_parts parts) {
    const uint32_t expected[2] = {PEVGHAZO_ACCEPTED, PEVGHAZO_WRONG_TAG};
    uint8_t out[sizeof message];
    for (int i = 0; i < 2; i++) {
        pevghazo_answer answer = pevghazo_unwrap_envelope(group, envelope, parts.metadata, envelope + parts.metadata,
                                                          parts.cryptogram - parts.metadata, envelope + parts.cryptogram,
                                                          parts.tag - parts.cryptogram, envelope + parts.tag, parts.place - parts.tag, out,
                                                          sizeof out);
        check("unwrapping the message", answer.number, expected[i]);
        check("the count of unwrapping", answer.count, 7);
        if (i == 0) check("the message", (uint32_t)memcmp(out, message, message_len), 0);
    }
}

/* The group answers without an envelope, and the office asks which group is nearly full. */
static void answered(pevghazo_record *office, pevghazo_session *group, uint32_t allowance) {
    uint8_t out[sizeof message], tag[PEVGHAZO_TAG_LENGTH];
    pevghazo_answer back = pevghazo_wrap(group, metadata, metadata_len, message, 0, out, sizeof out, tag, sizeof tag);
    check("wrapping an answer", back.number, PEVGHAZO_ACCEPTED);
    pevghazo_answer arrived = pevghazo_unwrap_group(office, PEVGHAZO_GROUPS, 7, allowance, metadata, metadata_len, out, 0, tag, sizeof tag, out,
                                                    sizeof out);
    check("unwrapping the answer", arrived.number, PEVGHAZO_ACCEPTED);
    check("the group's count after it", office[7].count, 11);
    check("the ends' sessions", (uint32_t)memcmp(office[7].session.acc, group->acc, sizeof group->acc), 0);
    pevghazo_found full = pevghazo_nearly_full(office, PEVGHAZO_GROUPS, 5);
    check("the nearly-full question", full.number, PEVGHAZO_ACCEPTED);
    check("the group that is nearly full", full.found ? full.group : 99, 7);
}

/* A message from the office to a group, in an envelope, and an answer. */
static void both_ways(void) {
    static pevghazo_record office[PEVGHAZO_GROUPS]; /* all zero: closed sessions, before the first day */
    static pevghazo_session group;

    /* The office begins a day, opens group 7 and wraps a message for it. */
    const uint32_t allowance = pevghazo_start_day(office, PEVGHAZO_GROUPS, 1000);
    check("the allowance", allowance, 1000);
    pevghazo_answer opened = pevghazo_open_group(office, PEVGHAZO_GROUPS, 7, allowance, key, key_len);
    check("opening a group", opened.number, PEVGHAZO_ACCEPTED);
    uint8_t header[PEVGHAZO_HEADER_MAX], cryptogram[sizeof message], tag[PEVGHAZO_TAG_LENGTH];
    pevghazo_written headed = pevghazo_write_header(PEVGHAZO_LETTER_S, 7, metadata_len, message_len, header, sizeof header);
    check("writing a header", headed.number, PEVGHAZO_ACCEPTED);
    pevghazo_answer wrapped = pevghazo_wrap_envelope_group(office, PEVGHAZO_GROUPS, 7, allowance, header, headed.len, metadata, metadata_len, message,
                                                           message_len, cryptogram, sizeof cryptogram, tag, sizeof tag);
    check("wrapping", wrapped.number, PEVGHAZO_ACCEPTED);
    check("the count of wrapping", wrapped.count, 7);
    check("the group's count", office[7].count, 8);

    /* It travels in an envelope. */
    uint8_t envelope[PEVGHAZO_HEADER_MAX + sizeof metadata + sizeof message + PEVGHAZO_TAG_LENGTH];
    pevghazo_written written = pevghazo_write_envelope(PEVGHAZO_LETTER_S, 7, metadata, metadata_len, cryptogram, message_len, tag, sizeof tag,
                                                       envelope, sizeof envelope);
    check("writing an envelope", written.number, PEVGHAZO_ACCEPTED);
    check("the envelope's header", (uint32_t)memcmp(envelope, "S,7,6,11,size C", 15), 0);
    pevghazo_parts parts = pevghazo_read_envelope(envelope, written.len);
    check("reading an envelope", parts.number, PEVGHAZO_ACCEPTED);
    check("the envelope's letter", parts.letter, PEVGHAZO_LETTER_S);
    check("the envelope's group", parts.group, 7);
    pevghazo_parts half = pevghazo_read_envelope(envelope, written.len - 1);
    check("reading half an envelope", half.number, PEVGHAZO_TOO_FEW_BYTES);
    check("its letter", half.letter, 0);

    check("starting", pevghazo_start(&group, key, key_len).number, PEVGHAZO_ACCEPTED);
    opened_once(&group, envelope, parts);
    same_code(&office[7].session, &group, 12);
    answered(office, &group, allowance);
}

int main(void) {
    zeros();
    refused_start();
    codes();
    both_ways();
    puts("interface: zeros are the table before its first day, codes are those of the vectors, and a message went both ways");
    return 0;
}
