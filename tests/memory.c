/* What stays of a session in memory: the lanes that a call leaves on the stack are seen here, and gone after pevghazo_wipe_stack; a buffer that
 * nobody reads any more is zero after pevghazo_wipe. The memory is read through /proc/self/mem, as a debugger or a core dump would show it. */
#include <fcntl.h>
#include <pevghazo.h>
#include <stdio.h>
#include <stdlib.h>
#include <string.h>
#include <unistd.h>

enum { BELOW = 3 * PEVGHAZO_STACK_BYTES };

static int memory;
static pevghazo_record office[PEVGHAZO_GROUPS];
static pevghazo_session lone;
static pevghazo_sane_session sane;
static pevghazo_sae_session sae;
static const uint8_t key[] = "a key for the memory's test", metadata[] = "size C";

/* Whether wraps and unwraps are made by four; and a function, or the one by four. */
static int four;
#define BY(function) (four ? function##_four : function)
static uint8_t message[500], out[500], tag[PEVGHAZO_TAG_LENGTH], sane_tag[PEVGHAZO_SANE_TAG_LENGTH], header[PEVGHAZO_HEADER_MAX];

static void fail(const char *what, const char *when) {
    fprintf(stderr, "memory: %s: %s\n", when, what);
    exit(1);
}

static void look(uintptr_t from, void *to, size_t n) {
    if (pread(memory, to, n, (off_t)from) != (ssize_t)n) fail("/proc/self/mem cannot be read", "look");
}

/* The words below this function's frame that are a lane of this accumulator or this mask. */
__attribute__((noinline)) static unsigned lanes_below(const uint32_t acc[12], const uint32_t mask[12]) {
    static uint32_t words[BELOW / 4];
    unsigned found = 0;
    uintptr_t here = (uintptr_t)__builtin_frame_address(0) & ~(uintptr_t)15;
    look(here - sizeof words, words, sizeof words);
    for (size_t i = 0; i < BELOW / 4; i++)
        for (int k = 0; k < 12; k++)
            found += (acc[k] != 0 && words[i] == acc[k]) || (mask[k] != 0 && words[i] == mask[k]);
    memset(words, 0, sizeof words);
    return found;
}

/* The calls that leave something behind; and the start of a day and the wrap of old letters, which may leave nothing. */
enum { START, WRAP, UNWRAP, WRAP_ENVELOPE, UNWRAP_ENVELOPE, CODE,
       OPEN_GROUP, WRAP_GROUP, UNWRAP_GROUP, WRAP_ENVELOPE_GROUP, UNWRAP_ENVELOPE_GROUP,
       SANE_START, SANE_WRAP, SANE_UNWRAP, SANE_WRAP_ENVELOPE, SANE_UNWRAP_ENVELOPE, SAE_START, SAE_UNWRAP, CALLS, DAY = CALLS, SAE_WRAP };
static const char *const names[] = {"start", "wrap", "unwrap", "wrap for an envelope", "unwrap for an envelope", "code",
                                    "open a group", "wrap for a group", "unwrap for a group", "wrap for a group's envelope",
                                    "unwrap for a group's envelope", "start in SANE", "wrap in SANE", "unwrap in SANE",
                                    "wrap for an envelope in SANE", "unwrap for an envelope in SANE", "start of old letters",
                                    "unwrap of an old letter", "start of a day", "wrap of an old letter"};

static uint32_t call_for_envelope(int which, size_t n) {
    const uint32_t allowance = UINT32_MAX;
    const uint8_t letter = which < SANE_START ? PEVGHAZO_LETTER_S : PEVGHAZO_LETTER_N;
    const size_t h = pevghazo_write_header(letter, 7, sizeof metadata, n, header, sizeof header).len, a = sizeof metadata;
    switch (which) {
    case WRAP_ENVELOPE: return BY(pevghazo_wrap_envelope)(&lone, header, h, metadata, a, message, n, out, n, tag, sizeof tag).number;
    case UNWRAP_ENVELOPE: return BY(pevghazo_unwrap_envelope)(&lone, header, h, metadata, a, out, n, tag, sizeof tag, message, n).number;
    case WRAP_ENVELOPE_GROUP:
        return BY(pevghazo_wrap_envelope_group)(office, PEVGHAZO_GROUPS, 7, allowance, header, h, metadata, a, message, n, out, n, tag, sizeof tag).number;
    case UNWRAP_ENVELOPE_GROUP:
        return BY(pevghazo_unwrap_envelope_group)(office, PEVGHAZO_GROUPS, 7, allowance, header, h, metadata, a, out, n, tag, sizeof tag, message, n).number;
    case SANE_WRAP_ENVELOPE:
        return BY(pevghazo_sane_wrap_envelope)(&sane, header, h, metadata, a, message, n, out, n, sane_tag, sizeof sane_tag).number;
    default: return BY(pevghazo_sane_unwrap_envelope)(&sane, header, h, metadata, a, out, n, sane_tag, sizeof sane_tag, message, n).number;
    }
}

static uint32_t call(int which, size_t n) {
    const uint32_t allowance = UINT32_MAX;
    switch (which) {
    case START: return pevghazo_start(&lone, key, sizeof key).number;
    case WRAP: return BY(pevghazo_wrap)(&lone, metadata, sizeof metadata, message, n, out, n, tag, sizeof tag).number;
    case UNWRAP: return BY(pevghazo_unwrap)(&lone, metadata, sizeof metadata, out, n, tag, sizeof tag, message, n).number;
    case CODE: return pevghazo_code(&lone, (uint32_t)n, out, sizeof out).number;
    case OPEN_GROUP: return pevghazo_open_group(office, PEVGHAZO_GROUPS, 7, allowance, key, sizeof key).number;
    case WRAP_GROUP:
        return BY(pevghazo_wrap_group)(office, PEVGHAZO_GROUPS, 7, allowance, metadata, sizeof metadata, message, n, out, n, tag, sizeof tag).number;
    case UNWRAP_GROUP:
        return BY(pevghazo_unwrap_group)(office, PEVGHAZO_GROUPS, 7, allowance, metadata, sizeof metadata, out, n, tag, sizeof tag, message, n).number;
    case SANE_START: return pevghazo_sane_start(&sane, key, sizeof key, message, n, sane_tag, sizeof sane_tag).number;
    case SANE_WRAP: return BY(pevghazo_sane_wrap)(&sane, metadata, sizeof metadata, message, n, out, n, sane_tag, sizeof sane_tag).number;
    case DAY: return pevghazo_start_day(office, PEVGHAZO_GROUPS, 0);
    case SANE_UNWRAP: return BY(pevghazo_sane_unwrap)(&sane, metadata, sizeof metadata, out, n, sane_tag, sizeof sane_tag, message, n).number;
    case SAE_START: return pevghazo_sae_start(&sae, key, sizeof key, message, n, sane_tag, sizeof sane_tag).number;
    case SAE_WRAP: return pevghazo_sae_wrap(&sae, metadata, sizeof metadata, message, n, out, n, sane_tag, sizeof sane_tag).number;
    case SAE_UNWRAP: return pevghazo_sae_unwrap(&sae, metadata, sizeof metadata, out, n, sane_tag, sizeof sane_tag, message, n).number;
    default: return call_for_envelope(which, n);
    }
}

/* A call, alone or with the stack wiped after it. */
__attribute__((noinline)) static uint32_t called(int which, size_t n, int wiped) {
    uint32_t number = call(which, n);
    if (wiped) pevghazo_wipe_stack();
    return number;
}

/* The lanes on the stack of the session that a call works on. */
static unsigned lanes_of(int which) {
    const pevghazo_session *session = which < OPEN_GROUP ? &lone : &office[7].session;
    if (which == SAE_START || which == SAE_UNWRAP || which == SAE_WRAP) return lanes_below(sae.acc, sae.mask);
    return which < SANE_START || which == DAY ? lanes_below(session->acc, session->mask) : lanes_below(sane.acc, sane.mask);
}

static void on_the_stack(int which, size_t n) {
    if (called(which, n, 0) == PEVGHAZO_BAD_HEADER) fail("the header is refused", names[which]);
    if (lanes_of(which) == 0) fail("no lane is found on the stack, so this test sees nothing", names[which]);
    (void)called(which, n, 1);
    if (lanes_of(which) != 0) fail("lanes are left on the stack", names[which]);
}

/* After such a call and the wipe there is no lane of its session, neither its own nor one that a call before it left there. */
static void wiped_after(int which, int before, size_t n) {
    (void)called(before, n, 0);
    if (lanes_of(which) == 0) fail("no lane is found on the stack, so this test sees nothing", names[which]);
    (void)called(which, n, 1);
    if (lanes_of(which) != 0) fail("lanes are left on the stack", names[which]);
}

/* A secret that nobody reads after the wipe: a compiler that looked at all files at once would see that. */
__attribute__((noinline)) static void dead_secret(int wiped, uintptr_t *place) {
    uint8_t secret[64];
    for (unsigned i = 0; i < sizeof secret; i++) ((volatile uint8_t *)secret)[i] = (uint8_t)(0xA0 + i);
    if (wiped) pevghazo_wipe(secret, sizeof secret);
    *place = (uintptr_t)secret;
}

static unsigned bytes_of_the_secret(int wiped) {
    static uint8_t bytes[64];
    unsigned found = 0;
    uintptr_t place;
    dead_secret(wiped, &place);
    look(place, bytes, sizeof bytes);
    for (unsigned i = 0; i < sizeof bytes; i++) found += bytes[i] == (uint8_t)(0xA0 + i);
    return found;
}

int main(void) {
    memory = open("/proc/self/mem", O_RDONLY);
    if (memory < 0) fail("/proc/self/mem cannot be opened", "start");
    for (unsigned i = 0; i < sizeof message; i++) message[i] = (uint8_t)(7 * i + 1);
    for (four = 0; four < 2; four++)
        for (int which = 0; which < CALLS; which++)
            for (size_t n = 0; n <= sizeof message; n += 100) on_the_stack(which, n);
    for (size_t n = 0; n <= sizeof message; n += 100) {
        wiped_after(DAY, WRAP_GROUP, n);
        wiped_after(SAE_WRAP, SAE_UNWRAP, n);
    }
    if (bytes_of_the_secret(0) < 16) fail("a buffer's bytes are not found, so this test sees nothing", "wipe");
    if (bytes_of_the_secret(1) != 0) fail("a wiped buffer holds its bytes", "wipe");
    puts("memory: calls leave lanes on the stack, and the wipes take them away");
    return 0;
}
