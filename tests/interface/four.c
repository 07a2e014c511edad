/* Calls by four as a C program sees them in the installed library: beside the calls that take a block at a time, with the same numbers, counts, records
 * and buffers, and in one session with them, where each end has its own choice. */
#include <pevghazo.h>
#include <stdio.h>
#include <stdlib.h>
#include <string.h>

static size_t metadata_len, message_len;

static void check(const char *what, bool holds) {
    if (holds) return;
    fprintf(stderr, "four: %s, with %zu bytes of metadata and %zu of message\n", what, metadata_len, message_len);
    exit(1);
}

enum { GROUP = 7, ALLOWANCE = 100000, FIELDS = offsetof(pevghazo_session, opened) + 1, LONGEST = PEVGHAZO_TEXT_MAX };
static const uint8_t key[] = "the key of group 7";
static uint8_t metadata[LONGEST], message[LONGEST];

/* An end: a session of each kind. */
typedef struct end {
    pevghazo_session lone;
    pevghazo_sane_session sane;
    pevghazo_record office[PEVGHAZO_GROUPS];
} end;
enum { LONE, SANE, OFFICE, KINDS };

/* What an end has given: the answer, the cryptogram or the message, and the tag. */
typedef struct given {
    pevghazo_answer answer;
    uint8_t out[LONGEST + 1], tag[PEVGHAZO_TAG_LENGTH];
} given;

#define PARTS metadata, metadata_len, text, message_len
#define HEADED header, header_len, PARTS
#define IN_OFFICE at->office, PEVGHAZO_GROUPS, GROUP, ALLOWANCE

static size_t tag_len(int kind) { return kind == SANE ? PEVGHAZO_SANE_TAG_LENGTH : PEVGHAZO_TAG_LENGTH; }

/* Wraps the message, for the envelope with this header or without one. */
static void wrap(int kind, end *at, bool four, const uint8_t *header, size_t header_len, given *to) {
    const uint8_t *text = message;
    memset(to, 0xA5, sizeof *to);
#define CALL(name, ...) (four ? name##_four : name)(__VA_ARGS__, to->out, sizeof to->out, to->tag, tag_len(kind))
    switch (2 * kind + (header != NULL)) {
    case 2 * LONE: to->answer = CALL(pevghazo_wrap, &at->lone, PARTS); break;
    case 2 * LONE + 1: to->answer = CALL(pevghazo_wrap_envelope, &at->lone, HEADED); break;
    case 2 * SANE: to->answer = CALL(pevghazo_sane_wrap, &at->sane, PARTS); break;
    case 2 * SANE + 1: to->answer = CALL(pevghazo_sane_wrap_envelope, &at->sane, HEADED); break;
    case 2 * OFFICE: to->answer = CALL(pevghazo_wrap_group, IN_OFFICE, PARTS); break;
    default: to->answer = CALL(pevghazo_wrap_envelope_group, IN_OFFICE, HEADED);
    }
#undef CALL
}

/* Unwraps what was wrapped so. */
static void unwrap(int kind, end *at, bool four, const uint8_t *header, size_t header_len, const given *sent, given *to) {
    const uint8_t *text = sent->out;
    memset(to, 0xA5, sizeof *to);
#define CALL(name, ...) (four ? name##_four : name)(__VA_ARGS__, sent->tag, tag_len(kind), to->out, sizeof to->out)
    switch (2 * kind + (header != NULL)) {
    case 2 * LONE: to->answer = CALL(pevghazo_unwrap, &at->lone, PARTS); break;
    case 2 * LONE + 1: to->answer = CALL(pevghazo_unwrap_envelope, &at->lone, HEADED); break;
    case 2 * SANE: to->answer = CALL(pevghazo_sane_unwrap, &at->sane, PARTS); break;
    case 2 * SANE + 1: to->answer = CALL(pevghazo_sane_unwrap_envelope, &at->sane, HEADED); break;
    case 2 * OFFICE: to->answer = CALL(pevghazo_unwrap_group, IN_OFFICE, PARTS); break;
    default: to->answer = CALL(pevghazo_unwrap_envelope_group, IN_OFFICE, HEADED);
    }
#undef CALL
}

static void same_ends(const end *a, const end *b) {
    check("the records in SANSE", memcmp(&a->lone, &b->lone, FIELDS) == 0);
    check("the records in SANE", memcmp(&a->sane, &b->sane, FIELDS) == 0);
    for (int i = 0; i < PEVGHAZO_GROUPS; i++) {
        check("the sessions of a group", memcmp(&a->office[i].session, &b->office[i].session, FIELDS) == 0);
        check("the counts of a group", a->office[i].count == b->office[i].count);
    }
}

static void same_given(const given *a, const given *b, uint32_t number) {
    check("the number", a->answer.number == number && b->answer.number == number);
    check("the count", a->answer.count == b->answer.count && a->answer.count > 0);
    check("the output", memcmp(a->out, b->out, sizeof a->out) == 0);
    check("the tag", memcmp(a->tag, b->tag, sizeof a->tag) == 0);
}

/* What both ends hold before a message. */
static end now;

/* A message that is wrapped both ways; and unwrapped both ways, after it was refused with a wrong tag. */
static void message_of(int kind, const uint8_t *header, size_t header_len) {
    static unsigned messages;
    static end ends[2];
    static given sent[2], back[2];
    for (int four = 0; four < 2; four++) {
        ends[four] = now;
        wrap(kind, &ends[four], four, header, header_len, &sent[four]);
    }
    same_given(&sent[0], &sent[1], PEVGHAZO_ACCEPTED);
    same_ends(&ends[0], &ends[1]);
    for (uint32_t damage = 2; damage-- > 0;) {
        sent[0].tag[5] ^= damage, sent[1].tag[5] ^= damage;
        for (int four = 0; four < 2; four++) {
            ends[four] = now;
            unwrap(kind, &ends[four], four, header, header_len, &sent[!four], &back[four]);
        }
        sent[0].tag[5] ^= damage, sent[1].tag[5] ^= damage;
        same_given(&back[0], &back[1], damage ? PEVGHAZO_WRONG_TAG : PEVGHAZO_ACCEPTED);
        same_ends(&ends[0], &ends[1]);
    }
    check("the message", memcmp(back[0].out, message, message_len) == 0 && back[0].out[message_len] == 0xA5);
    now = ends[messages++ % 2];
}

/* Of these lengths, in every kind of session, without an envelope and for one. */
static void messages_of(size_t a, size_t m) {
    metadata_len = a, message_len = m;
    for (int kind = 0; kind < KINDS; kind++) {
        uint8_t header[PEVGHAZO_HEADER_MAX];
        const uint8_t letter = kind == SANE ? PEVGHAZO_LETTER_N : PEVGHAZO_LETTER_S;
        const pevghazo_written written = pevghazo_write_header(letter, GROUP, a, m, header, sizeof header);
        check("writing a header", written.number == PEVGHAZO_ACCEPTED);
        message_of(kind, NULL, 0);
        message_of(kind, header, written.len);
    }
}

int main(void) {
    static const size_t lengths[] = {0, PEVGHAZO_FOUR_MIN - 1, PEVGHAZO_FOUR_MIN, PEVGHAZO_FOUR_MIN + 1, 400, LONGEST};
    enum { LENGTHS = sizeof lengths / sizeof lengths[0] };
    uint8_t tag[PEVGHAZO_SANE_TAG_LENGTH];
    check("four blocks", PEVGHAZO_FOUR_MIN == 4 * 48);
    for (size_t i = 0; i < LONGEST; i++) metadata[i] = (uint8_t)(5 * i + 1), message[i] = (uint8_t)(7 * i + i / 256);
    check("starting", pevghazo_start(&now.lone, key, sizeof key).number == PEVGHAZO_ACCEPTED);
    check("starting in SANE", pevghazo_sane_start(&now.sane, key, sizeof key, key, 1, tag, sizeof tag).number == PEVGHAZO_ACCEPTED);
    check("opening a group", pevghazo_open_group(now.office, PEVGHAZO_GROUPS, GROUP, ALLOWANCE, key, sizeof key).number == PEVGHAZO_ACCEPTED);
    for (int i = 0; i < LENGTHS; i++)
        for (int j = 0; j < LENGTHS; j++) messages_of(lengths[i], lengths[j]);
    puts("four: calls by four give what the others do, at either end");
    return 0;
}
