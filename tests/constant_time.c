/* Constant time: which branches and addresses depend on a secret?
 *
 * Valgrind's memcheck follows every bit that was never set, and reports a branch or an address that depends on one. Here the secrets are
 * marked so: the key, the lanes of a record, and the message, before they are handed to the library. Start, wrap, codes, the start of a day and
 * the nearly-full question must give no report, and neither must a call that is refused for its header, or a wrap of old letters.
 * Unwrap may give one, once in a call: its verdict on the tag, which everybody may know. tests/constant_time.sh runs this for lone sessions, for a
 * group of a table and for sessions in SANE, without an envelope and for one, with calls that take a block at a time and with those by four, and for
 * sessions of old letters, and checks that all these reports come from one branch; and for the leaves, which must give none. Old letters are made by
 * the independent implementation, from a record that is no secret then. The lengths go up to the limit of 16,384 bytes. A second argument N plants a
 * leak in every wrap of a message of more than N bytes, and 'early' and N a
 * comparison that ends at the first difference in every unwrap of one; they must be seen.
 *
 * A record's index, toggle and openness, a group's count, the allowance and all lengths are no secrets: anybody who sees the messages can count
 * them. Headers, metadata, cryptograms, tags and nonces travel in the clear, and packets are numbered in the open. */
#include <pevghazo.h>
#include <stdio.h>
#include <stdlib.h>
#include <string.h>
#include <valgrind/memcheck.h>

enum { LONGEST = PEVGHAZO_TEXT_MAX, ROOM = LONGEST + 16 };

/* The independent implementation's wrap of the first version (rust/bench). */
uint32_t rust_trial_wrap(pevghazo_sae_session *s, const uint8_t *metadata, size_t a, const uint8_t *message, size_t m, uint8_t *out, uint8_t *tag);

/* A session's bytes, in every mode: the lanes, then index, toggle and openness, which are no secret. */
enum { LANES = offsetof(pevghazo_session, index), PUBLIC = offsetof(pevghazo_session, opened) + 1 - LANES, RECORD = sizeof(pevghazo_session) };
PEVGHAZO_LAYOUT(one_layout, sizeof(pevghazo_sane_session) == RECORD && offsetof(pevghazo_sane_session, index) == LANES);
PEVGHAZO_LAYOUT(old_layout, sizeof(pevghazo_sae_session) == RECORD && offsetof(pevghazo_sae_session, index) == LANES);

/* Short lengths, of which all pairs are tried, and long ones, each with itself, none and one block; 16,320 bytes are 340 whole blocks, and 32 bytes
 * the first block of keystream in SANE and in old letters. */
static const size_t lengths[] = {0, 1, 16, 32, 33, 47, 48, 49, 95, 96, 97, 200, 1024};
static const size_t long_lengths[] = {1025, 5000, 16320, LONGEST - 1, LONGEST};
enum { LENGTHS = sizeof lengths / sizeof lengths[0], LONG_LENGTHS = sizeof long_lengths / sizeof long_lengths[0] };

/* The same of calls by four: where four blocks end, and eight, with some bytes before or behind. */
static const size_t four_lengths[] = {0, 48, 191, 192, 193, 384, 400};
static const size_t four_long_lengths[] = {LONGEST};
enum { FOUR_LENGTHS = sizeof four_lengths / sizeof four_lengths[0] };

/* Whose calls are made: those of a lone session, of a group of a table, of a session in SANE, or of one of old letters; whether for an envelope, and
 * whether by four, which these have not. Or the leaves. */
enum { LONE, GROUP, SANE, SAE, LEAVES, KINDS };
static const char *const kinds[KINDS] = {"lone", "group", "sane", "sae", "leaves"};
static int kind;
static bool for_envelope, four;

/* A function, or the one by four. */
#define BY(function) (four ? function##_four : function)

/* Takes the word for them, as in lone, sane-envelope or group-envelope-four. */
static bool understood(const char *word) {
    for (kind = 0; kind < KINDS && strncmp(word, kinds[kind], strlen(kinds[kind])) != 0; kind++) continue;
    if (kind == KINDS) return false;
    word += strlen(kinds[kind]);
    for_envelope = strncmp(word, "-envelope", 9) == 0;
    if (for_envelope) word += 9;
    four = strcmp(word, "-four") == 0;
    return (four || *word == 0) && (kind < SAE || !(for_envelope || four));
}

/* Whether the sessions start with a nonce, and have shorter tags and no codes. */
static bool with_nonce(void) { return kind == SANE || kind == SAE; }

static const char *doing = "";
static unsigned verdicts, calls;

static void fail(const char *what) {
    fprintf(stderr, "constant time: %s: %s\n", doing, what);
    exit(1);
}

/* ---- secrets */

static void hide(const void *p, size_t n) { (void)VALGRIND_MAKE_MEM_UNDEFINED(p, n); }
static void reveal(const void *p, size_t n) { (void)VALGRIND_MAKE_MEM_DEFINED(p, n); }

/* What everybody may know must not depend on a secret. */
static void is_public(const void *p, size_t n, const char *what) {
    if (VALGRIND_CHECK_MEM_IS_DEFINED(p, n) != 0) fail(what);
}

/* Every byte must depend on a secret; otherwise this test would follow nothing. */
static void is_secret(const void *p, size_t n, const char *what) {
    static unsigned char bits[ROOM];
    if (n > 0 && VALGRIND_GET_VBITS(p, bits, n) != 1) fail("the bits cannot be read");
    for (size_t i = 0; i < n; i++)
        if (bits[i] == 0) fail(what);
}

/* The reports since the last question. */
static unsigned reports(void) {
    static unsigned before;
    unsigned all = VALGRIND_COUNT_ERRORS, since = all - before;
    before = all;
    return since;
}

static void no_report(void) {
    calls++;
    if (reports() != 0) fail("a branch or an address depends on a secret");
}

/* ---- leaks, which must be reported: otherwise this test would see nothing */

static volatile int sink;

__attribute__((noinline)) static void leak_by_branch(const volatile uint8_t *secret) {
    if (*secret & 1) sink = 1;
}

__attribute__((noinline)) static void leak_by_address(const volatile uint8_t *secret, const volatile uint8_t *table) { sink = table[*secret]; }

__attribute__((noinline)) static void leak_by_early_end(const volatile uint8_t *secret, const volatile uint8_t *guess, size_t n) {
    for (size_t i = 0; i < n; i++)
        if (secret[i] != guess[i]) return;
    sink = 1;
}

/* Messages longer than this leak their last byte where they are wrapped, or are compared with an early end where they are unwrapped. */
static size_t planted = SIZE_MAX, planted_early = SIZE_MAX;

static void leaks_are_seen(void) {
    static uint8_t table[256];
    uint8_t secret = 5;
    doing = "a leak made on purpose";
    hide(&secret, 1);
    reports();
    leak_by_branch(&secret);
    if (reports() != 1) fail("a branch on a secret was not reported");
    leak_by_address(&secret, table);
    if (reports() != 1) fail("an address from a secret was not reported");
}

/* ---- the calls */

/* A group's session stands in a table, and so does the lone one; one more record is for runs of 33. */
static pevghazo_record table[PEVGHAZO_GROUPS + 1];
static pevghazo_sane_session sane;
static pevghazo_sae_session sae;
static const uint32_t group = 7, allowance = UINT32_MAX;

static uint8_t *record(void) { return kind == SAE ? (uint8_t *)&sae : kind == SANE ? (uint8_t *)&sane : (uint8_t *)&table[group].session; }
static size_t tag_len(void) { return with_nonce() ? PEVGHAZO_SANE_TAG_LENGTH : PEVGHAZO_TAG_LENGTH; }
static void hide_lanes(void) { hide(record(), LANES); }

/* The group's count is public after an unwrap too, whatever the verdict: a wrong tag counts as much. */
static void count_is_public(void) { is_public(&table[group].count, sizeof table[group].count, "the group's count depends on a secret"); }

static void numbers_are_public(void) {
    is_public(record() + LANES, PUBLIC, "index, toggle or openness depend on a secret");
    count_is_public();
}

static uint8_t metadata[ROOM], message[ROOM], cryptogram[ROOM], tag[PEVGHAZO_TAG_LENGTH], back[ROOM];

/* The header of a call for an envelope. */
static uint8_t header[PEVGHAZO_HEADER_MAX];
static size_t header_len;

static void put_header(size_t a, size_t m) {
    const uint8_t letter = kind == SANE ? PEVGHAZO_LETTER_N : PEVGHAZO_LETTER_S;
    const pevghazo_written written = pevghazo_write_header(letter, group, a, m, header, sizeof header);
    if (written.number != PEVGHAZO_ACCEPTED) fail("the header is refused");
    header_len = written.len;
}

/* A nonce is used in SANE and for old letters alone, and is no secret. */
static pevghazo_answer call_start(const uint8_t *key, size_t key_len, size_t nonce_len) {
    switch (kind) {
    case LONE: return pevghazo_start(&table[group].session, key, key_len);
    case GROUP: return pevghazo_open_group(table, PEVGHAZO_GROUPS, group, allowance, key, key_len);
    case SAE: return pevghazo_sae_start(&sae, key, key_len, metadata, nonce_len, tag, tag_len());
    default: return pevghazo_sane_start(&sane, key, key_len, metadata, nonce_len, tag, tag_len());
    }
}

/* The same two for an envelope. */
static pevghazo_answer wrap_envelope(size_t a, size_t m) {
    switch (kind) {
    case LONE:
        return BY(pevghazo_wrap_envelope)(&table[group].session, header, header_len, metadata, a, message, m, cryptogram, ROOM, tag, tag_len());
    case GROUP:
        return BY(pevghazo_wrap_envelope_group)(table, PEVGHAZO_GROUPS, group, allowance, header, header_len, metadata, a, message, m, cryptogram,
                                            ROOM, tag, tag_len());
    default: return BY(pevghazo_sane_wrap_envelope)(&sane, header, header_len, metadata, a, message, m, cryptogram, ROOM, tag, tag_len());
    }
}

static pevghazo_answer unwrap_envelope(size_t a, size_t m, const uint8_t *arrived) {
    switch (kind) {
    case LONE:
        return BY(pevghazo_unwrap_envelope)(&table[group].session, header, header_len, metadata, a, cryptogram, m, arrived, tag_len(), back, ROOM);
    case GROUP:
        return BY(pevghazo_unwrap_envelope_group)(table, PEVGHAZO_GROUPS, group, allowance, header, header_len, metadata, a, cryptogram, m, arrived,
                                              tag_len(), back, ROOM);
    default: return BY(pevghazo_sane_unwrap_envelope)(&sane, header, header_len, metadata, a, cryptogram, m, arrived, tag_len(), back, ROOM);
    }
}

static pevghazo_answer call_wrap(size_t a, size_t m) {
    if (for_envelope) return wrap_envelope(a, m);
    switch (kind) {
    case LONE: return BY(pevghazo_wrap)(&table[group].session, metadata, a, message, m, cryptogram, ROOM, tag, tag_len());
    case GROUP:
        return BY(pevghazo_wrap_group)(table, PEVGHAZO_GROUPS, group, allowance, metadata, a, message, m, cryptogram, ROOM, tag, tag_len());
    default: return BY(pevghazo_sane_wrap)(&sane, metadata, a, message, m, cryptogram, ROOM, tag, tag_len());
    }
}

static pevghazo_answer call_unwrap(size_t a, size_t m, const uint8_t *arrived) {
    if (for_envelope) return unwrap_envelope(a, m, arrived);
    switch (kind) {
    case LONE: return BY(pevghazo_unwrap)(&table[group].session, metadata, a, cryptogram, m, arrived, tag_len(), back, ROOM);
    case GROUP:
        return BY(pevghazo_unwrap_group)(table, PEVGHAZO_GROUPS, group, allowance, metadata, a, cryptogram, m, arrived, tag_len(), back, ROOM);
    case SAE: return pevghazo_sae_unwrap(&sae, metadata, a, cryptogram, m, arrived, tag_len(), back, ROOM);
    default: return BY(pevghazo_sane_unwrap)(&sane, metadata, a, cryptogram, m, arrived, tag_len(), back, ROOM);
    }
}

static void start(size_t key_len, size_t nonce_len) {
    uint8_t key[PEVGHAZO_KEY_MAX];
    memset(key, 0x35, sizeof key);
    hide(key, sizeof key);
    reports();
    pevghazo_answer answer = call_start(key, key_len, nonce_len);
    no_report();
    is_public(&answer, sizeof answer, "the answer depends on a secret");
    numbers_are_public();
    if (answer.number != 0) fail("refused");
    is_secret(record() + LANES / 2, LANES / 2, "the mask does not depend on the key");
    if (with_nonce()) {
        is_secret(record(), LANES / 2, "the accumulator does not depend on the key");
        is_secret(tag, tag_len(), "the tag does not depend on the key");
    }
}

static void wrap(size_t a, size_t m) {
    hide_lanes();
    hide(message, m);
    reports();
    pevghazo_answer answer = call_wrap(a, m);
    if (m > planted) leak_by_branch(&message[m - 1]);
    no_report();
    is_public(&answer, sizeof answer, "the answer depends on a secret");
    numbers_are_public();
    if (answer.number != 0) fail("refused");
    is_secret(cryptogram, m, "the cryptogram does not depend on the message");
    is_secret(tag, tag_len(), "the tag does not depend on the session");
    reveal(message, m);
    reveal(cryptogram, m);
    reveal(tag, sizeof tag);
}

/* A wrap of old letters, which is refused: neither its answer nor a byte that it leaves depends on a secret. Then the letter is made as the first
 * version did, with nothing hidden. */
static void refused_wrap(size_t a, size_t m) {
    reveal(tag, sizeof tag);
    hide_lanes();
    hide(message, m);
    reports();
    pevghazo_answer answer = pevghazo_sae_wrap(&sae, metadata, a, message, m, cryptogram, ROOM, tag, tag_len());
    if (m > planted) leak_by_branch(&message[m - 1]);
    no_report();
    is_public(&answer, sizeof answer, "the answer depends on a secret");
    numbers_are_public();
    is_public(cryptogram, sizeof cryptogram, "the output buffer depends on a secret");
    is_public(tag, sizeof tag, "the tag buffer depends on a secret");
    if (answer.number != PEVGHAZO_READ_ONLY || answer.count != 0) fail("the number is not the expected one");
    is_secret(&sae, LANES, "the session was altered");
    reveal(&sae, LANES);
    reveal(message, m);
    if (rust_trial_wrap(&sae, metadata, a, message, m, cryptogram, tag) != PEVGHAZO_ACCEPTED) fail("the first version refuses");
}

/* `wrong` damages the tag's bit of that number; RIGHT leaves it. */
enum { RIGHT = 8 * PEVGHAZO_TAG_LENGTH };

static void unwrap(size_t a, size_t m, unsigned wrong) {
    uint8_t arrived[PEVGHAZO_TAG_LENGTH];
    memcpy(arrived, tag, sizeof arrived);
    if (wrong < RIGHT) arrived[wrong / 8] ^= (uint8_t)(1 << wrong % 8);
    hide_lanes();
    memset(back, 0, sizeof back);
    reports();
    pevghazo_answer answer = call_unwrap(a, m, arrived);
    if (m > planted_early) leak_by_early_end(back, message, m);
    unsigned seen = reports();
    calls++;
    if (seen > 1) fail("a branch or an address depends on a secret, beside the verdict on the tag");
    verdicts += seen;
    is_public(&answer.count, sizeof answer.count, "the count depends on a secret");
    count_is_public();
    /* The verdict is public, and what follows from it: which index and toggle the session has now. */
    reveal(&answer, sizeof answer);
    reveal(record() + LANES, PUBLIC);
    if (answer.number != (wrong < RIGHT ? PEVGHAZO_WRONG_TAG : PEVGHAZO_ACCEPTED)) fail("the verdict is not the expected one");
    if (wrong >= RIGHT) is_secret(back, m, "the message does not depend on the session");
    reveal(back, sizeof back);
    if (wrong >= RIGHT && memcmp(back, message, m) != 0) fail("the message does not come back");
}

/* A call for an envelope that is refused for its header depends on no secret, either: neither its answer nor a byte that it leaves. */
static void refused_header(size_t a, size_t m) {
    hide_lanes();
    hide(message, m);
    hide(cryptogram, m);
    memset(back, 0, sizeof back);
    reports();
    const pevghazo_answer answers[2] = {wrap_envelope(a, m), unwrap_envelope(a, m, tag)};
    no_report();
    is_public(answers, sizeof answers, "an answer depends on a secret");
    numbers_are_public();
    is_public(back, sizeof back, "the output buffer depends on a secret");
    is_public(tag, tag_len(), "the tag depends on a secret");
    if (answers[0].number != PEVGHAZO_BAD_HEADER || answers[1].number != PEVGHAZO_BAD_HEADER) fail("the number is not the expected one");
    reveal(message, m);
    reveal(cryptogram, m);
}

/* One byte of the header altered, cut off or left out, and texts of another length than it says. */
static void refused_headers(void) {
    doing = "a header that is refused";
    for (size_t i = 0; i < PEVGHAZO_HEADER_MAX; i++) {
        put_header(6, 100);
        if (i < header_len) header[i] ^= 0x40;
        if (i >= header_len) header_len = PEVGHAZO_HEADER_MAX - 1 - i;
        refused_header(6, 100);
    }
    put_header(6, 100);
    refused_header(7, 100);
    refused_header(6, 99);
}

/* Storing and loading, plain C beside the proved library. */
static void store_and_load(void) {
    static uint8_t bytes[PEVGHAZO_SESSION_BYTES];
    uint32_t number;
    doing = "store and load";
    hide_lanes();
    reports();
    number = kind == SAE    ? pevghazo_store_sae_session(&sae, bytes, sizeof bytes)
             : kind == SANE ? pevghazo_store_sane_session(&sane, bytes, sizeof bytes)
                            : pevghazo_store_session(&table[group].session, bytes, sizeof bytes);
    if (number != PEVGHAZO_ACCEPTED) fail("storing is refused");
    no_report();
    is_secret(bytes, LANES, "the stored bytes do not depend on the session");
    number = kind == SAE    ? pevghazo_load_sae_session(&sae, bytes, sizeof bytes)
             : kind == SANE ? pevghazo_load_sane_session(&sane, bytes, sizeof bytes)
                            : pevghazo_load_session(&table[group].session, bytes, sizeof bytes);
    if (number != PEVGHAZO_ACCEPTED) fail("loading is refused");
    no_report();
    numbers_are_public();
}

/* A packet's code into a buffer of this length, or its refusal by this number; a refusal depends on no secret, either. */
static void code(uint32_t packet, size_t out_len, uint32_t number) {
    static char text[64];
    const size_t written = number == PEVGHAZO_ACCEPTED ? PEVGHAZO_CODE_LENGTH : 0;
    uint8_t out[2 * PEVGHAZO_CODE_LENGTH] = {0};
    snprintf(text, sizeof text, "code of packet %u, %zu bytes", packet, out_len);
    doing = text;
    hide_lanes();
    reports();
    pevghazo_answer answer = pevghazo_code(&table[group].session, packet, out, out_len);
    no_report();
    is_public(&answer, sizeof answer, "the answer depends on a secret");
    numbers_are_public();
    if (answer.number != number) fail("the number is not the expected one");
    is_secret(out, written, "the code does not depend on the session");
    is_public(out + written, sizeof out - written, "a byte beside the code depends on a secret");
}

static void codes(void) {
    static const uint32_t packets[] = {0, 1, 2, 5, 6, 7, 8, 100, 1023, 2046, PEVGHAZO_PACKET_MAX};
    for (size_t i = 0; i < sizeof packets / sizeof packets[0]; i++) {
        code(packets[i], PEVGHAZO_CODE_LENGTH, PEVGHAZO_ACCEPTED);
        code(packets[i], 2 * PEVGHAZO_CODE_LENGTH, PEVGHAZO_ACCEPTED);
        code(packets[i], PEVGHAZO_CODE_LENGTH - 1, PEVGHAZO_NO_ROOM);
    }
    code(PEVGHAZO_PACKET_MAX + 1, PEVGHAZO_CODE_LENGTH, PEVGHAZO_NO_CODE);
    table[group].session.opened = false;
    code(0, PEVGHAZO_CODE_LENGTH, PEVGHAZO_NOT_OPEN);
    table[group].session.opened = true;
}

/* Before a call over a run of so many records: their lanes are all secret. */
static void hide_run(const char *call, size_t records) {
    static char text[64];
    snprintf(text, sizeof text, "%s over %zu records", call, records);
    doing = text;
    for (size_t i = 0; i < records; i++) hide(&table[i].session, LANES);
    reports();
}

/* After it: they still are, and nothing else is. */
static void reveal_run(size_t records) {
    for (size_t i = 0; i < records; i++) {
        is_public(&table[i].count, sizeof table[i].count, "a count depends on a secret");
        is_public((uint8_t *)&table[i].session + LANES, PUBLIC, "index, toggle or openness depend on a secret");
        is_secret(&table[i].session, LANES, "a session was altered");
        reveal(&table[i].session, LANES);
    }
}

/* A day over such a run. */
static void day(size_t records) {
    hide_run("start of a day", records);
    const uint32_t given = pevghazo_start_day(table, records, allowance);
    no_report();
    is_public(&given, sizeof given, "the allowance depends on a secret");
    if (given != allowance) fail("the allowance is another one");
    reveal_run(records);
}

/* The nearly-full question of such a run: one group is open, and its index is above a mark of 0 and not above the limit. */
static void question(size_t records, uint32_t mark) {
    hide_run("nearly-full question", records);
    const pevghazo_found given = pevghazo_nearly_full(table, records, mark);
    no_report();
    is_public(&given.number, sizeof given.number, "the number depends on a secret");
    is_public(&given.found, sizeof given.found, "what is found depends on a secret");
    is_public(&given.group, sizeof given.group, "the group depends on a secret");
    reveal_run(records);
    if (given.found != (records == PEVGHAZO_GROUPS && mark == 0)) fail("the open group was missed, or another one was found");
}

static void runs(void) {
    static const size_t records[] = {0, 1, PEVGHAZO_GROUPS - 1, PEVGHAZO_GROUPS, PEVGHAZO_GROUPS + 1};
    for (size_t i = 0; i < sizeof records / sizeof records[0]; i++) {
        day(records[i]);
        question(records[i], 0);
        question(records[i], PEVGHAZO_INDEX_MAX);
    }
}

/* Both ends of a session are played in turn with one record: what it was before a wrap is put back for the unwrap. */
static void message_of(size_t a, size_t m) {
    static char text[64];
    static unsigned wrong;
    uint8_t before[RECORD];
    reveal(record(), RECORD);
    memcpy(before, record(), RECORD);
    doing = text;
    if (for_envelope) put_header(a, m);
    snprintf(text, sizeof text, "wrap, %zu and %zu bytes", a, m);
    if (kind == SAE) refused_wrap(a, m);
    else wrap(a, m);
    snprintf(text, sizeof text, "unwrap, %zu and %zu bytes", a, m);
    memcpy(record(), before, RECORD);
    unwrap(a, m, wrong);
    wrong = (wrong + 2) % (8 * (unsigned)tag_len());
    memcpy(record(), before, RECORD);
    unwrap(a, m, RIGHT);
}

/* Of all pairs of short lengths, and of each long one with itself, none and one block. */
static void messages_of(const size_t *short_ones, int short_count, const size_t *long_ones, int long_count) {
    for (int i = 0; i < long_count; i++) {
        const size_t n = long_ones[i], with[] = {0, 48};
        message_of(n, n);
        for (int j = 0; j < 2; j++) {
            message_of(n, with[j]);
            message_of(with[j], n);
        }
    }
    for (int i = 0; i < short_count; i++)
        for (int j = 0; j < short_count; j++) message_of(short_ones[i], short_ones[j]);
}

static void messages(void) {
    if (four) messages_of(four_lengths, FOUR_LENGTHS, four_long_lengths, 1);
    else messages_of(lengths, LENGTHS, long_lengths, LONG_LENGTHS);
}

/* All lengths of a key; in SANE and for old letters with nonces of some lengths, of which the last stays. */
static void starts(void) {
    static const size_t nonces[] = {0, 1, 47, 48, LONGEST, 8};
    doing = kind == GROUP ? "open a group" : "start";
    for (size_t n = PEVGHAZO_KEY_MIN; n <= PEVGHAZO_KEY_MAX; n++) {
        if (!with_nonce()) start(n, 0);
        for (size_t i = 0; with_nonce() && i < sizeof nonces / sizeof nonces[0]; i++) start(n, nonces[i]);
    }
}

/* ---- the leaves */

typedef void compression(uint32_t acc[12], uint32_t mask[12], const uint8_t *s, size_t n);
typedef uint32_t expansion(const uint32_t y[12], const uint32_t mask[12], uint8_t *out, size_t n);
compression pevghazo_compress, pevghazo_compress_four;
expansion pevghazo_expand, pevghazo_expand_four;

/* A string of n bytes, and as much output, where the states and the string are secret. */
static void leaf(compression *compress, expansion *expand, size_t n) {
    static uint32_t acc[12], mask[12];
    static char text[64];
    snprintf(text, sizeof text, "compress and expand%s, %zu bytes", four ? " by four" : "", n);
    doing = text;
    for (uint32_t i = 0; i < 12; i++) acc[i] = i, mask[i] = 7 * i + 1;
    hide(acc, sizeof acc);
    hide(mask, sizeof mask);
    hide(message, n);
    memset(back, 0, sizeof back);
    reports();
    compress(acc, mask, message, n);
    const uint32_t blocks = expand(acc, mask, back, n);
    no_report();
    is_public(&blocks, sizeof blocks, "the count depends on a secret");
    if (blocks != (n + 47) / 48) fail("the count is not the expected one");
    is_secret(acc, sizeof acc, "the accumulator does not depend on the string");
    is_secret(mask, sizeof mask, "the mask does not depend on the one before");
    is_secret(back, n, "the output does not depend on the state");
    is_public(back + n, sizeof back - n, "a byte beside the output depends on a secret");
    reveal(message, n);
    reveal(back, n);
}

static void leaves(void) {
    static const size_t all[] = {0, 1, 47, 48, 49, 191, 192, 193, 239, 240, 241, 383, 384, 385, 400, 1024, LONGEST};
    for (size_t i = 0; i < 2 * sizeof all / sizeof all[0]; i++) {
        four = i % 2 == 1;
        leaf(BY(pevghazo_compress), BY(pevghazo_expand), all[i / 2]);
    }
}

/* Sessions of a kind, from their starts on. */
static void sessions(void) {
    starts();
    if (!with_nonce()) code(0, PEVGHAZO_CODE_LENGTH, PEVGHAZO_NO_CODE);
    store_and_load();
    messages();
    if (for_envelope) refused_headers();
    if (!with_nonce()) codes();
    if (kind == GROUP) runs();
}

int main(int argc, char **argv) {
    const bool early = argc == 4 && strcmp(argv[2], "early") == 0;
    if (!RUNNING_ON_VALGRIND || argc < 2 || !understood(argv[1]) || argc > 4 || (argc == 4 && !early)) {
        fprintf(stderr, "constant time: run tests/constant_time.sh, which runs this under valgrind for each kind of session\n");
        return 2;
    }
    if (argc == 3) planted = (size_t)strtoul(argv[2], NULL, 10);
    if (early) planted_early = (size_t)strtoul(argv[3], NULL, 10);
    for (int i = 0; i < ROOM; i++) metadata[i] = (uint8_t)(3 * i), message[i] = (uint8_t)(5 * i + 1);
    leaks_are_seen();
    if (kind == LEAVES) leaves();
    else sessions();
    printf("constant time, %s: %u calls, %u verdicts on tags seen, nothing else\n", argv[1], calls, verdicts);
    return 0;
}
