/* The C library that programs link, with each buffer of a call directly beside closed pages and at every address modulo 16 (tests/pages.h), at the
 * lengths where blocks begin and end, and where four of them do. Wraps and unwraps are made a block at a time and by four. Sessions in SANSE, alone
 * and in a table, and those of old letters are compared with the independent implementation; those in SANE, codes, and calls on a pool, with
 * windows and with prices, with the same calls on ordinary buffers, which rust/pevghazo/tests compares with it. The other side works on copies elsewhere.
 * tests/buffers.sh builds and runs this. */
#include "pages.h"
#include <pevghazo.h>
#include <stdio.h>
#include <string.h>
#include <sys/mman.h>

/* The independent implementation (rust/bench). */
void rust_start(pevghazo_session *s, const uint8_t *key, size_t n);
bool rust_wrap(pevghazo_session *s, const uint8_t *metadata, size_t a, const uint8_t *message, size_t m, uint8_t *out, uint8_t *tag);
bool rust_unwrap(pevghazo_session *s, const uint8_t *metadata, size_t a, const uint8_t *cryptogram, size_t m, const uint8_t *tag, uint8_t *out);
uint32_t rust_wrap_envelope(pevghazo_session *s, const uint8_t *header, size_t h, const uint8_t *metadata, size_t a, const uint8_t *message, size_t m,
                            uint8_t *out, uint8_t *tag);
uint32_t rust_unwrap_envelope(pevghazo_session *s, const uint8_t *header, size_t h, const uint8_t *metadata, size_t a, const uint8_t *cryptogram,
                              size_t m, const uint8_t *tag, uint8_t *out);
uint32_t rust_count(size_t a, size_t m);
void rust_sae_start(pevghazo_sae_session *s, const uint8_t *key, size_t n, const uint8_t *nonce, size_t nonce_n, uint8_t *tag);
uint32_t rust_trial_wrap(pevghazo_sae_session *s, const uint8_t *metadata, size_t a, const uint8_t *message, size_t m, uint8_t *out, uint8_t *tag);
uint32_t rust_sae_unwrap(pevghazo_sae_session *s, const uint8_t *metadata, size_t a, const uint8_t *cryptogram, size_t m, const uint8_t *tag,
                         uint8_t *out);

/* Of metadata, messages and nonces. The keystream of SANE and of old letters is the output from byte 16 on, so that its blocks begin and end 16
 * bytes earlier. A header beside short texts has 10 or 11 bytes, so that the first block of header and metadata ends with 36 or 37 bytes of these. */
static const size_t lengths[] = {0, 1, 31, 32, 33, 36, 37, 38, 47, 48, 49, 79, 80, 81, 95, 96, 97, PEVGHAZO_TEXT_MAX - 1, PEVGHAZO_TEXT_MAX};
enum { LENGTHS = sizeof lengths / sizeof lengths[0] };

/* Where four blocks end, and eight. In SANE's keystream four end at 224 bytes, and behind the first block of header and metadata at 227 to 229. */
static const size_t four_lengths[] = {191, 192, 193, 223, 224, 225, 226, 227, 228, 229, 230, 383, 384, 385};
enum { FOUR_LENGTHS = sizeof four_lengths / sizeof four_lengths[0] };

/* The buffers of a call: a row each, its length, and the same of the other side. Where they stand between, each kind's addresses go by steps of its
 * own, so that they differ from the others'; a record's are multiples of 4, and a pool's of 8. Windows have the steps of a key, which no call has
 * beside them. */
enum { RECORD, KEY, NONCE, HEADER, METADATA, INPUT, OUTPUT, TAG, POOL, LINE, WINDOWS, BUFFERS };
static const int steps[BUFFERS] = {4, 1, 3, 15, 5, 7, 9, 11, 8, 13, 1};
static const char *const otherwise[BUFFERS] = {"another record", "the key was altered", "the nonce was altered", "the header was altered",
                                               "the metadata were altered", "the message or cryptogram was altered", "another output",
                                               "another tag", "another pool", "the line was altered", "the windows were altered"};
static row rows[BUFFERS];
static size_t n[BUFFERS];
static _Alignas(16) uint8_t other[BUFFERS][PEVGHAZO_TEXT_MAX];

/* A session of any mode, and its fields; behind them anything may stand. In a table the group's count follows it. */
enum { ONE_SESSION = sizeof(pevghazo_session), FIELDS = offsetof(pevghazo_session, opened) + 1, IN_TABLE = sizeof(pevghazo_record) };
PEVGHAZO_LAYOUT(one_layout, sizeof(pevghazo_sane_session) == ONE_SESSION && offsetof(pevghazo_sane_session, opened) == FIELDS - 1);
PEVGHAZO_LAYOUT(old_layout, sizeof(pevghazo_sae_session) == ONE_SESSION && offsetof(pevghazo_sae_session, opened) == FIELDS - 1);

static int where;
static uint32_t packet;
static unsigned calls;

/* ---- the calls */

/* Those of a lone session, of a group of a table and of a session in SANE, five each; a packet's code; a header; the start of a day; the
 * nearly-full question, by a mark that no index is above, so that every record is read; those of a pool, which are asked for a ring that it does
 * not have; those with windows; that with prices; and those of old letters. */
enum { LONE, GROUP, SANE, KINDS };
enum { START, WRAP, UNWRAP, WRAP_ENVELOPE, UNWRAP_ENVELOPE, OPEN_GROUP, WRAP_GROUP, UNWRAP_GROUP, WRAP_ENVELOPE_GROUP, UNWRAP_ENVELOPE_GROUP,
       SANE_START, SANE_WRAP, SANE_UNWRAP, SANE_WRAP_ENVELOPE, SANE_UNWRAP_ENVELOPE, CODE, WRITE_HEADER, DAY, QUESTION,
       ADD, HOLDS, RINGS, ADD_IN_SEASON, FIRST_DAY, PRICE, SAE_START, SAE_WRAP, SAE_UNWRAP, CALLS, OF_A_KIND = 5 };
static const char *const names[CALLS] = {"start", "wrap", "unwrap", "wrap for an envelope", "unwrap for an envelope", "open a group",
                                         "wrap for a group", "unwrap for a group", "wrap for a group's envelope", "unwrap for a group's envelope",
                                         "start in SANE", "wrap in SANE", "unwrap in SANE", "wrap for an envelope in SANE",
                                         "unwrap for an envelope in SANE", "code", "write a header", "start of a day", "nearly-full question",
                                         "add a line", "whether a ring is held", "rings", "add a line inside the season",
                                         "first permitted day", "price a line", "start of old letters", "wrap of an old letter", "unwrap of an old letter"};
static const uint32_t group = 17, allowance = UINT32_MAX;

/* Whether there is a second function for a call, by four; whether that one is to be called; and a function, or that one. */
static bool is_twice(int call) { return call < CODE && call % OF_A_KIND != START; }
static bool four;
#define BY(function) (four ? function##_four : function)

/* A buffer as calls take it. */
#define OF(buffer) b[buffer], n[buffer]

/* Whether a call's records are those of a table, and how many there are then. */
static bool in_table(int call) { return call / OF_A_KIND == GROUP || call == DAY || call == QUESTION; }
static size_t table_len(void) { return n[RECORD] / IN_TABLE; }

/* The number that the library gives, of the calls for an envelope and of the writing of a header. */
static uint32_t called_for_envelope(int call, uint8_t *const b[BUFFERS]) {
    pevghazo_session *session = (void *)b[RECORD];
    pevghazo_record *table = (void *)b[RECORD];
    pevghazo_sane_session *sane = (void *)b[RECORD];
    switch (call) {
    case WRAP_ENVELOPE: return BY(pevghazo_wrap_envelope)(session, OF(HEADER), OF(METADATA), OF(INPUT), OF(OUTPUT), OF(TAG)).number;
    case UNWRAP_ENVELOPE: return BY(pevghazo_unwrap_envelope)(session, OF(HEADER), OF(METADATA), OF(INPUT), OF(TAG), OF(OUTPUT)).number;
    case WRAP_ENVELOPE_GROUP:
        return BY(pevghazo_wrap_envelope_group)(table, table_len(), group, allowance, OF(HEADER), OF(METADATA), OF(INPUT), OF(OUTPUT), OF(TAG)).number;
    case UNWRAP_ENVELOPE_GROUP:
        return BY(pevghazo_unwrap_envelope_group)(table, table_len(), group, allowance, OF(HEADER), OF(METADATA), OF(INPUT), OF(TAG), OF(OUTPUT)).number;
    case SANE_WRAP_ENVELOPE: return BY(pevghazo_sane_wrap_envelope)(sane, OF(HEADER), OF(METADATA), OF(INPUT), OF(OUTPUT), OF(TAG)).number;
    case SANE_UNWRAP_ENVELOPE: return BY(pevghazo_sane_unwrap_envelope)(sane, OF(HEADER), OF(METADATA), OF(INPUT), OF(TAG), OF(OUTPUT)).number;
    default: return pevghazo_write_header(PEVGHAZO_LETTER_S, group, n[METADATA], n[INPUT], OF(OUTPUT)).number;
    }
}

/* What the question for the first permitted day gives: the day, or 0 for none, or the number of a refusal. */
static uint32_t asked(uint8_t *const b[BUFFERS]) {
    const pevghazo_first first = pevghazo_first_day((const void *)b[WINDOWS], OF(LINE));
    return first.number != PEVGHAZO_ACCEPTED ? first.number : first.day;
}

/* What pricing a line gives, with three sizes that are sold, on a till with room for one line more: the charge, or the number of a refusal, which
 * gives the same till back. */
static uint32_t priced(uint8_t *const b[BUFFERS]) {
    static const pevghazo_prices prices = {{250, 0, PEVGHAZO_PRICE_MAX, PEVGHAZO_PRICE_MAX + 1, UINT32_MAX, 0, 0, 999}};
    const pevghazo_till till = {PEVGHAZO_TILL_LINES - 1, 7, UINT64_MAX - 1000000};
    const pevghazo_priced answer = pevghazo_price(till, prices, OF(LINE));
    const bool is_charged = answer.number == PEVGHAZO_ACCEPTED;
    if (answer.till.lines != till.lines + is_charged || answer.till.charged != till.charged + answer.charge) fail("another till");
    if ((answer.till.exact != till.exact) != is_charged) fail("another exact total");
    return is_charged ? (uint32_t)answer.charge : answer.number;
}

/* What the library gives, of the calls on a pool and with windows. */
static uint32_t called_on_pool(int call, uint8_t *const b[BUFFERS]) {
    pevghazo_pool *pool = (void *)b[POOL];
    switch (call) {
    case ADD: return pevghazo_pool_add(pool, OF(LINE));
    case HOLDS: return pevghazo_pool_holds(pool, 'C', 99);
    case RINGS: return (uint32_t)pevghazo_pool_rings(pool);
    case ADD_IN_SEASON: return pevghazo_pool_add_in_season(pool, (const void *)b[WINDOWS], OF(LINE));
    default: return asked(b);
    }
}

/* The number that the library gives, of the calls of old letters. */
static uint32_t called_on_old(int call, uint8_t *const b[BUFFERS]) {
    pevghazo_sae_session *old = (void *)b[RECORD];
    switch (call) {
    case SAE_START: return pevghazo_sae_start(old, OF(KEY), OF(NONCE), OF(TAG)).number;
    case SAE_WRAP: return pevghazo_sae_wrap(old, OF(METADATA), OF(INPUT), OF(OUTPUT), OF(TAG)).number;
    default: return pevghazo_sae_unwrap(old, OF(METADATA), OF(INPUT), OF(TAG), OF(OUTPUT)).number;
    }
}

/* The number that the library gives. */
static uint32_t called(int call, uint8_t *const b[BUFFERS]) {
    pevghazo_session *session = (void *)b[RECORD];
    pevghazo_record *table = (void *)b[RECORD];
    pevghazo_sane_session *sane = (void *)b[RECORD];
    switch (call) {
    case START: return pevghazo_start(session, OF(KEY)).number;
    case WRAP: return BY(pevghazo_wrap)(session, OF(METADATA), OF(INPUT), OF(OUTPUT), OF(TAG)).number;
    case UNWRAP: return BY(pevghazo_unwrap)(session, OF(METADATA), OF(INPUT), OF(TAG), OF(OUTPUT)).number;
    case OPEN_GROUP: return pevghazo_open_group(table, table_len(), group, allowance, OF(KEY)).number;
    case WRAP_GROUP: return BY(pevghazo_wrap_group)(table, table_len(), group, allowance, OF(METADATA), OF(INPUT), OF(OUTPUT), OF(TAG)).number;
    case UNWRAP_GROUP: return BY(pevghazo_unwrap_group)(table, table_len(), group, allowance, OF(METADATA), OF(INPUT), OF(TAG), OF(OUTPUT)).number;
    case DAY: return pevghazo_start_day(table, table_len(), allowance) == allowance ? PEVGHAZO_ACCEPTED : PEVGHAZO_ALLOWANCE;
    case QUESTION: return pevghazo_nearly_full(table, table_len(), UINT32_MAX).number;
    case ADD:
    case HOLDS:
    case RINGS:
    case ADD_IN_SEASON:
    case FIRST_DAY: return called_on_pool(call, b);
    case PRICE: return priced(b);
    case SANE_START: return pevghazo_sane_start(sane, OF(KEY), OF(NONCE), OF(TAG)).number;
    case SANE_WRAP: return BY(pevghazo_sane_wrap)(sane, OF(METADATA), OF(INPUT), OF(OUTPUT), OF(TAG)).number;
    case SANE_UNWRAP: return BY(pevghazo_sane_unwrap)(sane, OF(METADATA), OF(INPUT), OF(TAG), OF(OUTPUT)).number;
    case CODE: return pevghazo_code(session, packet, OF(OUTPUT)).number;
    case SAE_START:
    case SAE_WRAP:
    case SAE_UNWRAP: return called_on_old(call, b);
    default: return called_for_envelope(call, b);
    }
}

/* A group's record on the other side. */
static pevghazo_record *other_record(size_t i) { return (pevghazo_record *)(void *)other[RECORD] + i; }

/* The same on the other side, but for what a table counts. */
static uint32_t expected(int call) {
    uint8_t *const b[BUFFERS] = {other[RECORD], other[KEY], other[NONCE], other[HEADER], other[METADATA], other[INPUT], other[OUTPUT], other[TAG],
                                other[POOL], other[LINE], other[WINDOWS]};
    pevghazo_session *session = in_table(call) ? &other_record(group)->session : (void *)b[RECORD];
    switch (call) {
    case START:
    case OPEN_GROUP: return rust_start(session, OF(KEY)), PEVGHAZO_ACCEPTED;
    case WRAP:
    case WRAP_GROUP:
        if (!rust_wrap(session, OF(METADATA), OF(INPUT), b[OUTPUT], b[TAG])) fail("the independent implementation refuses");
        return PEVGHAZO_ACCEPTED;
    case UNWRAP:
    case UNWRAP_GROUP: return rust_unwrap(session, OF(METADATA), OF(INPUT), b[TAG], b[OUTPUT]) ? PEVGHAZO_ACCEPTED : PEVGHAZO_WRONG_TAG;
    case WRAP_ENVELOPE:
    case WRAP_ENVELOPE_GROUP: return rust_wrap_envelope(session, OF(HEADER), OF(METADATA), OF(INPUT), b[OUTPUT], b[TAG]);
    case UNWRAP_ENVELOPE:
    case UNWRAP_ENVELOPE_GROUP: return rust_unwrap_envelope(session, OF(HEADER), OF(METADATA), OF(INPUT), b[TAG], b[OUTPUT]);
    case DAY: return PEVGHAZO_ACCEPTED;
    case SAE_START: return rust_sae_start((void *)b[RECORD], OF(KEY), OF(NONCE), b[TAG]), PEVGHAZO_ACCEPTED;
    case SAE_WRAP: return PEVGHAZO_READ_ONLY;
    case SAE_UNWRAP: return rust_sae_unwrap((void *)b[RECORD], OF(METADATA), OF(INPUT), b[TAG], b[OUTPUT]);
    default: return called(call, b);
    }
}

/* What a table counts on the other side: the call's permutations in its group, a wrong tag's too but no refused header's, and 0 in every record
 * where a day begins. */
static void expected_counts(int call, uint32_t number) {
    const bool for_envelope = call == WRAP_ENVELOPE_GROUP || call == UNWRAP_ENVELOPE_GROUP;
    const size_t header = for_envelope ? n[HEADER] : 0;
    if (call == OPEN_GROUP) other_record(group)->count += 1;
    if (call == WRAP_GROUP || call == UNWRAP_GROUP || (for_envelope && number != PEVGHAZO_BAD_HEADER))
        other_record(group)->count += rust_count(header + n[METADATA], n[INPUT]);
    for (size_t i = 0; call == DAY && i < table_len(); i++) other_record(i)->count = 0;
}

/* What stood on the other side before a call. */
static uint8_t before[BUFFERS][PEVGHAZO_TEXT_MAX];

/* Lays out what stood on the other side before the call, makes it here, and compares number and buffers. */
static void here(int call, uint32_t number) {
    const size_t step = in_table(call) ? IN_TABLE : ONE_SESSION;
    uint8_t *b[BUFFERS];
    snprintf(doing, sizeof doing,
             "%s%s, lengths %zu (records), %zu (key), %zu (nonce), %zu (header), %zu (metadata), %zu (message), %zu (line), %s (place %d)",
             names[call], four ? " by four" : "", n[RECORD], n[KEY], n[NONCE], n[HEADER], n[METADATA], n[INPUT], n[LINE], place_name(where), where);
    for (int i = 0; i < BUFFERS; i++) {
        lay(&rows[i], where, steps[i], before[i], n[i]);
        b[i] = rows[i].at;
    }
    if (called(call, b) != number) fail("another number");
    for (size_t i = FIELDS; i < n[RECORD]; i += step) memcpy(&other[RECORD][i], b[RECORD] + i, ONE_SESSION - FIELDS);
    for (int i = 0; i < BUFFERS; i++) holds(&rows[i], other[i], otherwise[i]);
    calls++;
}

/* Makes a call on the other side, and here by each function that there is for it. */
static void both(int call, uint32_t number) {
    snprintf(doing, sizeof doing, "%s on the other side", names[call]);
    for (int i = 0; i < BUFFERS; i++) memcpy(before[i], other[i], n[i]);
    if (expected(call) != number) fail("another number");
    expected_counts(call, number);
    for (int i = KEY; i <= INPUT; i++)
        if (memcmp(before[i], other[i], n[i]) != 0) fail(otherwise[i]);
    here(call, number);
    four = is_twice(call);
    if (four) here(call, number);
    four = false;
}

/* ---- sessions */

static void fill(int buffer, size_t length) {
    n[buffer] = length;
    random_bytes(other[buffer], length);
}

/* Under a key of each length, in SANE and for old letters with a nonce of each length; the last session stays. */
static void starts(int call) {
    const bool with_nonce = call == SANE_START || call == SAE_START;
    n[RECORD] = in_table(call) ? PEVGHAZO_GROUPS * IN_TABLE : ONE_SESSION;
    memset(other[RECORD], 0, n[RECORD]);
    for (size_t length = PEVGHAZO_KEY_MIN; length <= PEVGHAZO_KEY_MAX; length++) {
        fill(KEY, length);
        fill(TAG, with_nonce ? PEVGHAZO_SANE_TAG_LENGTH : PEVGHAZO_TAG_LENGTH);
        for (int i = 0; i < (with_nonce ? LENGTHS : 1); i++) {
            fill(NONCE, lengths[i]);
            both(call, PEVGHAZO_ACCEPTED);
        }
    }
}

/* The next letter of the first version, by the independent implementation alone. */
static void trial_wrap(void) {
    if (rust_trial_wrap((void *)other[RECORD], other[METADATA], n[METADATA], other[INPUT], n[INPUT], other[OUTPUT], other[TAG]) != PEVGHAZO_ACCEPTED)
        fail("the independent implementation refuses");
}

/* Wraps a message by this call; the end that has the record of before then refuses it with a wrong tag, and takes it with the right one, by that
 * call. An old letter is not wrapped by the library. */
static void message(int wrap, int unwrap, size_t a, size_t m) {
    static uint8_t session[PEVGHAZO_TEXT_MAX], sent[PEVGHAZO_TEXT_MAX];
    uint8_t *wrong = &other[TAG][calls % n[TAG]];
    fill(METADATA, a);
    fill(INPUT, m);
    fill(OUTPUT, m);
    memcpy(session, other[RECORD], n[RECORD]);
    memcpy(sent, other[INPUT], m);
    both(wrap, wrap == SAE_WRAP ? PEVGHAZO_READ_ONLY : PEVGHAZO_ACCEPTED);
    if (wrap == SAE_WRAP) trial_wrap();
    memcpy(other[RECORD], session, n[RECORD]);
    memcpy(other[INPUT], other[OUTPUT], m);
    *wrong ^= 1;
    both(unwrap, PEVGHAZO_WRONG_TAG);
    *wrong ^= 1;
    fill(OUTPUT, m);
    both(unwrap, PEVGHAZO_ACCEPTED);
    if (memcmp(other[OUTPUT], sent, m) != 0) fail("another message comes back");
}

/* A header with this letter for texts of these lengths. */
static void put_header(char letter, size_t a, size_t m) {
    char text[PEVGHAZO_HEADER_MAX + 1];
    n[HEADER] = (size_t)snprintf(text, sizeof text, "%c,%u,%zu,%zu,", letter, group, a, m);
    memcpy(other[HEADER], text, n[HEADER]);
}

/* The same for an envelope, whose header is written into a buffer of just its length, too. */
static void message_in_envelope(int kind, size_t a, size_t m) {
    put_header(kind == SANE ? PEVGHAZO_LETTER_N : PEVGHAZO_LETTER_S, a, m);
    message(OF_A_KIND * kind + WRAP_ENVELOPE, OF_A_KIND * kind + UNWRAP_ENVELOPE, a, m);
    if (kind == SANE) return;
    fill(OUTPUT, n[HEADER]);
    both(WRITE_HEADER, PEVGHAZO_ACCEPTED);
    if (memcmp(other[OUTPUT], other[HEADER], n[HEADER]) != 0) fail("another header is written");
}

/* Every part of a header from its start on, and one with a byte more, is refused; nothing behind it is read. */
static void refused_headers(int kind) {
    const size_t whole = PEVGHAZO_HEADER_MAX;
    fill(METADATA, PEVGHAZO_TEXT_MAX);
    fill(INPUT, PEVGHAZO_TEXT_MAX);
    fill(OUTPUT, PEVGHAZO_TEXT_MAX);
    for (size_t length = 0; length <= whole + 1; length++) {
        put_header(kind == SANE ? PEVGHAZO_LETTER_N : PEVGHAZO_LETTER_S, n[METADATA], n[INPUT]);
        if (n[HEADER] != whole) fail("this is not the longest header");
        if (length == whole) continue;
        other[HEADER][whole] = ',';
        n[HEADER] = length;
        both(OF_A_KIND * kind + WRAP_ENVELOPE, PEVGHAZO_BAD_HEADER);
        both(OF_A_KIND * kind + UNWRAP_ENVELOPE, PEVGHAZO_BAD_HEADER);
    }
}

/* A packet's code; a group's is that of its session. */
static void code(void) {
    packet = (packet + 5) % (PEVGHAZO_PACKET_MAX + 1);
    fill(OUTPUT, PEVGHAZO_CODE_LENGTH);
    both(CODE, PEVGHAZO_ACCEPTED);
}

/* A message of these lengths, without an envelope and in one. */
static void messages(int kind, size_t a, size_t m) {
    message(OF_A_KIND * kind + WRAP, OF_A_KIND * kind + UNWRAP, a, m);
    message_in_envelope(kind, a, m);
    if (kind == LONE) code();
}

static void session(int kind) {
    starts(OF_A_KIND * kind + START);
    for (int i = 0; i < LENGTHS; i++)
        for (int j = 0; j < LENGTHS; j++) messages(kind, lengths[i], lengths[j]);
    for (int i = 0; i < FOUR_LENGTHS; i++) {
        const size_t with[] = {0, 48};
        messages(kind, four_lengths[i], four_lengths[i]);
        for (int j = 0; j < 2; j++) {
            messages(kind, four_lengths[i], with[j]);
            messages(kind, with[j], four_lengths[i]);
        }
    }
    refused_headers(kind);
}

/* Old letters, under keys and nonces of each length. */
static void old_letters(void) {
    starts(SAE_START);
    for (int i = 0; i < LENGTHS; i++)
        for (int j = 0; j < LENGTHS; j++) message(SAE_WRAP, SAE_UNWRAP, lengths[i], lengths[j]);
}

/* What is refused by 18 touches no byte of its buffers, however long they are: here they are closed as a whole, and of more than 4 GiB each. */
static void refused_untouched(void) {
    const size_t far_len = ((size_t)1 << 32) + 4096;
    uint8_t *far = mmap(NULL, 4 * far_len, PROT_NONE, MAP_PRIVATE | MAP_ANONYMOUS | MAP_NORESERVE, -1, 0);
    uint8_t *const b[4] = {far, far + far_len, far + 2 * far_len, far + 3 * far_len};
    pevghazo_sae_session closed = {{0}, {0}, 0, 0, 0};
    snprintf(doing, sizeof doing, "what is refused by 18, with closed buffers of %zu bytes", far_len);
    if (far == MAP_FAILED) fail("there is no room for them");
    if (pevghazo_sae_wrap(&closed, b[0], far_len, b[1], far_len, b[2], far_len, b[3], far_len).number != PEVGHAZO_READ_ONLY) fail("another number");
    if (pevghazo_write_envelope(PEVGHAZO_LETTER_F, 7, b[0], far_len, b[1], far_len, b[2], far_len, b[3], far_len).number != PEVGHAZO_READ_ONLY)
        fail("another number for an envelope");
    if (pevghazo_write_header(PEVGHAZO_LETTER_F, 7, far_len, far_len, b[3], far_len).number != PEVGHAZO_READ_ONLY) fail("another number for a header");
    munmap(far, 4 * far_len);
    calls += 3;
}

/* A day over a run of so many records, of any content, and the question. */
static void run(size_t records) {
    fill(RECORD, records * IN_TABLE);
    for (size_t i = 0; i < records; i++) {
        uint8_t *flags = (uint8_t *)other_record(i) + offsetof(pevghazo_session, toggle);
        flags[0] &= 1, flags[1] &= 1;
    }
    both(DAY, PEVGHAZO_ACCEPTED);
    both(QUESTION, records == PEVGHAZO_GROUPS ? PEVGHAZO_ACCEPTED : PEVGHAZO_BAD_GROUP);
}

/* A line for the next call. */
static void put_line(const char *text) {
    n[LINE] = strlen(text);
    memcpy(other[LINE], text, n[LINE]);
}

/* A line that the pool is to give this number for. */
static void line(const char *text, uint32_t number) {
    put_line(text);
    both(ADD, number);
}

/* A pool is filled; each number is given, by lines of all lengths; and both questions go over all runs. */
static void pool(void) {
    static const char *const whole = "31,C,99999998,99999999,20250304\n";
    char text[PEVGHAZO_LINE_MAX + 1];
    n[POOL] = sizeof(pevghazo_pool);
    memset(other[POOL], 0, n[POOL]);
    for (size_t length = 0; length < strlen(whole); length++) {
        snprintf(text, sizeof text, "%.*s", (int)length, whole);
        line(text, PEVGHAZO_BAD_LINE);
    }
    line(whole, PEVGHAZO_ACCEPTED);
    for (unsigned i = 1; i < PEVGHAZO_POOL_RUNS; i++) {
        snprintf(text, sizeof text, "7,C,%u,%u,20250304\n", 2 * i + 100, 2 * i + 100);
        line(text, PEVGHAZO_ACCEPTED);
    }
    line(whole, PEVGHAZO_POOLED);
    line("7,C,102,103,20250304\n", PEVGHAZO_POOLED);
    line("0,D,1,1,20250304\n", PEVGHAZO_POOL_FULL);
    both(HOLDS, false);
    both(RINGS, PEVGHAZO_POOL_RUNS + 1);
    line("7,C,103,103,20250304\n", PEVGHAZO_ACCEPTED);
}

/* A line that the pool is to give this number for inside the season, and the question this answer. */
static void line_in_season(const char *text, uint32_t number, uint32_t first) {
    put_line(text);
    both(FIRST_DAY, first);
    both(ADD_IN_SEASON, number);
}

/* Windows of which the first and the last are the outermost bytes. Each number is given, by lines of the first and the last size. */
static void season(void) {
    static const pevghazo_windows windows = {{{3, 1, 9, 30}, {2, 30, 9, 30}, {3, 1, 9, 31}, {0, 0, 0, 0}, {3, 1, 9, 30}, {3, 1, 9, 30},
                                              {255, 255, 255, 255}, {2, 29, 2, 29}}};
    n[POOL] = sizeof(pevghazo_pool), n[WINDOWS] = sizeof windows;
    memset(other[POOL], 0, n[POOL]);
    memcpy(other[WINDOWS], &windows, sizeof windows);
    line_in_season("", PEVGHAZO_BAD_LINE, PEVGHAZO_BAD_LINE);
    line_in_season("7,A,1,1,20250304", PEVGHAZO_BAD_LINE, PEVGHAZO_BAD_LINE);
    line_in_season("7,A,1,1,20250229\n", PEVGHAZO_NO_SUCH_DAY, PEVGHAZO_NO_SUCH_DAY);
    line_in_season("7,G,1,1,20250304\n", PEVGHAZO_NO_SUCH_DAY, PEVGHAZO_NO_SUCH_DAY);
    line_in_season("7,A,1,1,20251001\n", PEVGHAZO_OUT_OF_SEASON, 20260301);
    line_in_season("7,H,1,1,20960301\n", PEVGHAZO_OUT_OF_SEASON, 21040229);
    line_in_season("7,H,1,1,21960301\n", PEVGHAZO_OUT_OF_SEASON, 0);
    line_in_season("7,A,1,1,20250930\n", PEVGHAZO_ACCEPTED, 20250930);
    line_in_season("31,H,99999998,99999999,21040229\n", PEVGHAZO_ACCEPTED, 21040229);
    line_in_season("7,A,1,2,20250301\n", PEVGHAZO_POOLED, 20250301);
}

/* A line that is to give this charge, or this number. */
static void line_priced(const char *text, uint32_t answer) {
    put_line(text);
    both(PRICE, answer);
}

/* Each number is given, and some charges, by lines of all lengths. */
static void till(void) {
    static const char *const whole = "31,H,99999000,99999999,20250304\n";
    char text[PEVGHAZO_LINE_MAX + 1];
    for (size_t length = 0; length < strlen(whole); length++) {
        snprintf(text, sizeof text, "%.*s", (int)length, whole);
        line_priced(text, PEVGHAZO_BAD_LINE);
    }
    line_priced(whole, 9990);
    line_priced("7,A,1,99,20250304\n", 248);
    line_priced("0,C,1,1,20250304\n", 10000);
    line_priced("7,D,1,1,20250229\n", PEVGHAZO_NO_SUCH_DAY);
    line_priced("7,B,1,1,20250304\n", PEVGHAZO_NOT_SOLD);
    line_priced("7,D,1,99999999,20250304\n", PEVGHAZO_NOT_SOLD);
    line_priced("7,E,1,99999999,20250304\n", PEVGHAZO_NOT_SOLD);
    line_priced("7,C,1,2,20250304\n", PEVGHAZO_TILL_FULL);
}

static void everywhere(void) {
    static const size_t runs[] = {0, 1, PEVGHAZO_GROUPS - 1, PEVGHAZO_GROUPS, PEVGHAZO_GROUPS + 1};
    for (where = 0; where < PLACES; where++) {
        for (int kind = 0; kind < KINDS; kind++) session(kind);
        for (int i = 0; i < 5; i++) run(runs[i]);
        pool();
        season();
        till();
        old_letters();
    }
    refused_untouched();
}

int main(void) {
    make_rows("buffers", rows, BUFFERS, PEVGHAZO_TEXT_MAX);
    beside_closed_pages(everywhere);
    printf("buffers: %u calls at %d lengths and %d addresses touch no byte beside their buffers, and agree with the other side\n", calls,
           LENGTHS + FOUR_LENGTHS, ADDRESSES);
    return 0;
}
