/* The functions in plain C beside the proved ones, in old C: texts, version, and sessions of every mode as bytes. `print` as an argument prints
 * what the Rust crate must print, too: the sentences, and the sessions' bytes and codes. */
#include <pevghazo.h>
#include <stdio.h>
#include <stdlib.h>
#include <string.h>

static void check(const char *what, int holds) {
    if (holds) return;
    fprintf(stderr, "plain: %s\n", what);
    exit(1);
}

static const uint8_t key[] = "a key for the stored bytes", metadata[] = "size C", message[] = "12001-12100";
static pevghazo_session session, zero;
static pevghazo_sane_session sane_session;
static pevghazo_sae_session sae_session;
static uint8_t stored[PEVGHAZO_SESSION_BYTES], sane_stored[PEVGHAZO_SESSION_BYTES], sae_stored[PEVGHAZO_SESSION_BYTES];

static void texts(void) {
    const char *none = pevghazo_number_text(100);
    char version[32];
    uint32_t i, j;
    sprintf(version, "%d.%d.%d", PEVGHAZO_VERSION_MAJOR, PEVGHAZO_VERSION_MINOR, PEVGHAZO_VERSION_PATCH);
    check("the version's text is another than its numbers", strcmp(version, PEVGHAZO_VERSION) == 0);
    check("the library's version is another than the headers'", strcmp(version, pevghazo_version()) == 0);
    for (i = 0; i <= 300; i++) {
        const char *text = pevghazo_number_text(i);
        const int is_refusal = i <= PEVGHAZO_NOT_SOLD || i == PEVGHAZO_TILL_FULL;
        const int is_number = is_refusal || (i >= PEVGHAZO_STORED_LENGTH && i <= PEVGHAZO_STORED_CLOSED);
        check("a text is no sentence", strlen(text) > 5 && text[strlen(text) - 1] == '.');
        check("a number has no text, or a text no number", (strcmp(text, none) != 0) == is_number);
        for (j = 0; is_number && j < i; j++) check("two numbers have one text", strcmp(text, pevghazo_number_text(j)) != 0);
    }
    check("the highest number has a text", strcmp(pevghazo_number_text(0xFFFFFFFF), none) == 0);
}

/* The record and the bytes stay where a call is refused, in every mode: the three kinds of record have one layout. */
static void refused(uint32_t number, const pevghazo_session *bad, const uint8_t *bytes, size_t bytes_len) {
    static uint8_t out[300], before[300];
    pevghazo_session record = session;
    pevghazo_sane_session bad_sane, sane = sane_session;
    pevghazo_sae_session bad_sae, sae = sae_session;
    memset(out, 0xA5, sizeof out);
    memcpy(before, out, sizeof out);
    if (bad != NULL) {
        memcpy(&bad_sane, bad, sizeof bad_sane);
        memcpy(&bad_sae, bad, sizeof bad_sae);
        check("storing gives another number", pevghazo_store_session(bad, out, bytes_len) == number);
        check("storing in SANE gives another number", pevghazo_store_sane_session(&bad_sane, out, bytes_len) == number);
        check("storing old letters gives another number", pevghazo_store_sae_session(&bad_sae, out, bytes_len) == number);
    }
    check("a refused storing alters the bytes", memcmp(out, before, sizeof out) == 0);
    if (bytes != NULL) {
        check("loading gives another number", pevghazo_load_session(&record, bytes, bytes_len) == number);
        check("loading in SANE gives another number", pevghazo_load_sane_session(&sane, bytes, bytes_len) == number);
        check("loading old letters gives another number", pevghazo_load_sae_session(&sae, bytes, bytes_len) == number);
    }
    check("a refused loading alters the record", memcmp(&record, &session, sizeof record) == 0);
    check("a refused loading in SANE alters the record", memcmp(&sane, &sane_session, sizeof sane) == 0);
    check("a refused loading of old letters alters the record", memcmp(&sae, &sae_session, sizeof sae) == 0);
}

/* A session with one byte of its record and of its stored bytes altered; the two stand at the same place. */
static void altered(uint32_t number, const pevghazo_session *from, const uint8_t *from_bytes, size_t place, unsigned value) {
    pevghazo_session bad = *from;
    uint8_t bytes[PEVGHAZO_SESSION_BYTES];
    memcpy(bytes, from_bytes, sizeof bytes);
    bytes[place] = (uint8_t)value;
    ((uint8_t *)&bad)[place] = (uint8_t)value;
    refused(number, &bad, bytes, sizeof bytes);
}

/* What is stored of the session in SANE is loaded. */
static void sane_comes_back(void) {
    pevghazo_sane_session back;
    check("storing in SANE is refused", pevghazo_store_sane_session(&sane_session, sane_stored, sizeof sane_stored) == PEVGHAZO_ACCEPTED);
    memset(&back, 0, sizeof back);
    check("loading in SANE is refused", pevghazo_load_sane_session(&back, sane_stored, sizeof sane_stored) == PEVGHAZO_ACCEPTED);
    check("another session in SANE comes back", memcmp(back.acc, sane_session.acc, sizeof back.acc) == 0
          && memcmp(back.mask, sane_session.mask, sizeof back.mask) == 0 && back.index == sane_session.index && back.toggle == sane_session.toggle
          && back.opened == sane_session.opened);
}

/* The same of the session of old letters. */
static void sae_comes_back(void) {
    pevghazo_sae_session back;
    check("storing old letters is refused", pevghazo_store_sae_session(&sae_session, sae_stored, sizeof sae_stored) == PEVGHAZO_ACCEPTED);
    memset(&back, 0, sizeof back);
    check("loading old letters is refused", pevghazo_load_sae_session(&back, sae_stored, sizeof sae_stored) == PEVGHAZO_ACCEPTED);
    check("another session of old letters comes back", memcmp(back.acc, sae_session.acc, sizeof back.acc) == 0
          && memcmp(back.mask, sae_session.mask, sizeof back.mask) == 0 && back.index == sae_session.index && back.toggle == sae_session.toggle
          && back.opened == sae_session.opened);
}

/* The same of the session in SANSE. */
static void comes_back(void) {
    pevghazo_session back;
    check("storing is refused", pevghazo_store_session(&session, stored, sizeof stored) == PEVGHAZO_ACCEPTED);
    memset(&back, 0, sizeof back);
    check("loading is refused", pevghazo_load_session(&back, stored, sizeof stored) == PEVGHAZO_ACCEPTED);
    check("another session comes back", memcmp(back.acc, session.acc, sizeof back.acc) == 0 && memcmp(back.mask, session.mask, sizeof back.mask) == 0
          && back.index == session.index && back.toggle == session.toggle && back.opened == session.opened);
}

/* The header of an envelope to group 7 with the message, which the Rust program seals, too. */
static size_t header_of(uint8_t letter, uint8_t *header) {
    const pevghazo_written written = pevghazo_write_header(letter, 7, sizeof metadata - 1, sizeof message - 1, header, PEVGHAZO_HEADER_MAX);
    check("writing a header is refused", written.number == PEVGHAZO_ACCEPTED);
    return written.len;
}

/* A session in SANE, with either toggle. */
static void sane_sessions(void) {
    static uint8_t header[PEVGHAZO_HEADER_MAX], out[sizeof message], tag[PEVGHAZO_SANE_TAG_LENGTH];
    const size_t header_len = header_of(PEVGHAZO_LETTER_N, header);
    check("starting in SANE is refused",
          pevghazo_sane_start(&sane_session, key, sizeof key - 1, metadata, sizeof metadata - 1, tag, sizeof tag).number == PEVGHAZO_ACCEPTED);
    sane_comes_back();
    check("wrapping in SANE is refused",
          pevghazo_sane_wrap_envelope(&sane_session, header, header_len, metadata, sizeof metadata - 1, message, sizeof message - 1, out, sizeof out,
                                      tag, sizeof tag).number
              == PEVGHAZO_ACCEPTED);
    sane_comes_back();
}

/* A session of old letters, started; with the toggle set, which no start leaves; and started again. */
static void sae_sessions(void) {
    static uint8_t tag[PEVGHAZO_SAE_TAG_LENGTH];
    int toggle;
    for (toggle = 1; toggle >= 0; toggle--) {
        check("starting old letters is refused",
              pevghazo_sae_start(&sae_session, key, sizeof key - 1, metadata, sizeof metadata - 1, tag, sizeof tag).number == PEVGHAZO_ACCEPTED);
        sae_session.toggle = toggle == 1;
        sae_comes_back();
    }
}

static void sessions(void) {
    static const uint8_t zeros[PEVGHAZO_SESSION_BYTES];
    static uint8_t longer[300], header[PEVGHAZO_HEADER_MAX], out[sizeof message], tag[PEVGHAZO_TAG_LENGTH];
    const size_t header_len = header_of(PEVGHAZO_LETTER_S, header);
    pevghazo_session back;
    unsigned value;
    size_t i;
    check("starting is refused", pevghazo_start(&session, key, sizeof key - 1).number == PEVGHAZO_ACCEPTED);
    comes_back();
    check("wrapping is refused",
          pevghazo_wrap_envelope(&session, header, header_len, metadata, sizeof metadata - 1, message, sizeof message - 1, out, sizeof out, tag,
                                 sizeof tag).number
              == PEVGHAZO_ACCEPTED);
    comes_back();
    check("a closed session is refused", pevghazo_load_session(&back, zeros, sizeof zeros) == PEVGHAZO_ACCEPTED && !back.opened);
    check("a closed session has other bytes", pevghazo_store_session(&zero, longer, sizeof zeros) == PEVGHAZO_ACCEPTED
          && memcmp(longer, zeros, sizeof zeros) == 0);
    for (i = 0; i <= 300; i++)
        if (i != PEVGHAZO_SESSION_BYTES) refused(PEVGHAZO_STORED_LENGTH, &session, longer, i);
    for (value = 2; value < 256; value++) {
        altered(PEVGHAZO_STORED_FLAG, &session, stored, 100, value);
        altered(PEVGHAZO_STORED_FLAG, &session, stored, 101, value);
    }
    altered(PEVGHAZO_STORED_INDEX, &session, stored, 98, 0x11);
    altered(PEVGHAZO_STORED_INDEX, &session, stored, 99, 1);
    altered(PEVGHAZO_STORED_CLOSED, &session, stored, 101, 0);
    for (i = 0; i <= 100; i++) altered(i == 99 ? PEVGHAZO_STORED_INDEX : PEVGHAZO_STORED_CLOSED, &zero, zeros, i, 1);
    back = session;
    back.index = PEVGHAZO_INDEX_MAX;
    check("a full session is refused", pevghazo_store_session(&back, longer, sizeof stored) == PEVGHAZO_ACCEPTED
          && pevghazo_load_session(&back, longer, sizeof stored) == PEVGHAZO_ACCEPTED && back.index == PEVGHAZO_INDEX_MAX);
    back.index = PEVGHAZO_INDEX_MAX + 1;
    refused(PEVGHAZO_STORED_INDEX, &back, NULL, sizeof stored);
}

/* Wiped memory is zero, and what is beside it stays. */
static void wiped(void) {
    uint8_t bytes[64];
    size_t i;
    memset(bytes, 0xA5, sizeof bytes);
    pevghazo_wipe(bytes, 0);
    check("nothing is wiped as something", bytes[0] == 0xA5);
    pevghazo_wipe(bytes + 1, sizeof bytes - 2);
    for (i = 0; i < sizeof bytes; i++) check("other bytes are wiped", bytes[i] == (i == 0 || i == sizeof bytes - 1 ? 0xA5 : 0));
    pevghazo_wipe_stack();
}

/* A packet's code, in groups of four digits. */
static void print_code(uint32_t packet) {
    uint8_t code[PEVGHAZO_CODE_LENGTH];
    size_t i;
    check("a code is refused", pevghazo_code(&session, packet, code, sizeof code).number == PEVGHAZO_ACCEPTED);
    for (i = 0; i < sizeof code; i++) printf("%s%02x", i > 0 && i % 2 == 0 ? " " : "", code[i]);
    putchar('\n');
}

static void print_bytes(const uint8_t *bytes) {
    size_t i;
    for (i = 0; i < PEVGHAZO_SESSION_BYTES; i++) printf("%02x", bytes[i]);
    putchar('\n');
}

static void print(void) {
    uint32_t number;
    for (number = PEVGHAZO_BAD_HEADER; number <= PEVGHAZO_NOT_SOLD; number++) puts(pevghazo_number_text(number));
    puts(pevghazo_number_text(PEVGHAZO_TILL_FULL));
    for (number = PEVGHAZO_STORED_FLAG; number <= PEVGHAZO_STORED_CLOSED; number++) puts(pevghazo_number_text(number));
    print_bytes(stored);
    print_bytes(sane_stored);
    print_bytes(sae_stored);
    print_code(0);
    print_code(PEVGHAZO_PACKET_MAX);
}

int main(int argc, char **argv) {
    texts();
    sane_sessions();
    sae_sessions();
    sessions();
    wiped();
    if (argc == 2 && strcmp(argv[1], "print") == 0) print();
    return 0;
}
