/* A session of any mode as bytes. Nothing here branches on a lane of an open session, or takes an address from one. */
#include "pevghazo/stored.h"

/* Where index, toggle and openness stand in the bytes. */
enum { INDEX = 96, TOGGLE = 100, OPENED = 101 };

/* A flag's byte. It is looked at in this way, since what another byte than 0 and 1 means there is not defined. */
static uint8_t byte_of(const pevghazo_flag *flag) { return *(const uint8_t *)flag; }

/* The checks that store and load share; `others` is zero where all numbers but openness are. */
static uint32_t check(uint8_t toggle, uint8_t opened, uint32_t index, uint32_t others) {
    if (toggle > 1 || opened > 1) return PEVGHAZO_STORED_FLAG;
    if (index > PEVGHAZO_INDEX_MAX) return PEVGHAZO_STORED_INDEX;
    if (opened == 0 && others != 0) return PEVGHAZO_STORED_CLOSED;
    return PEVGHAZO_ACCEPTED;
}

/* 32 bits, the lowest byte first. */
static void put(uint8_t *place, uint32_t number) {
    place[0] = (uint8_t)(number & 0xFF);
    place[1] = (uint8_t)(number >> 8 & 0xFF);
    place[2] = (uint8_t)(number >> 16 & 0xFF);
    place[3] = (uint8_t)(number >> 24);
}

static uint32_t get(const uint8_t *place) {
    return (uint32_t)place[0] | (uint32_t)place[1] << 8 | (uint32_t)place[2] << 16 | (uint32_t)place[3] << 24;
}

/* Writes the bytes of a record with these fields, of any mode. */
static uint32_t store(const uint32_t *acc, const uint32_t *mask, uint32_t index, uint8_t toggle, uint8_t opened, uint8_t *bytes,
                      size_t bytes_len) {
    uint32_t others = index | toggle, number;
    size_t i;
    if (bytes_len != PEVGHAZO_SESSION_BYTES) return PEVGHAZO_STORED_LENGTH;
    for (i = 0; i < 12; i++) others |= acc[i] | mask[i];
    number = check(toggle, opened, index, others);
    if (number != PEVGHAZO_ACCEPTED) return number;
    for (i = 0; i < 12; i++) {
        put(bytes + 4 * i, acc[i]);
        put(bytes + 48 + 4 * i, mask[i]);
    }
    put(bytes + INDEX, index);
    bytes[TOGGLE] = toggle;
    bytes[OPENED] = opened;
    return PEVGHAZO_ACCEPTED;
}

/* Reads the fields of a record of any mode from its bytes. */
static uint32_t load(uint32_t *acc, uint32_t *mask, uint32_t *index, pevghazo_flag *toggle, pevghazo_flag *opened, const uint8_t *bytes,
                     size_t bytes_len) {
    uint32_t others = 0, number;
    size_t i;
    if (bytes_len != PEVGHAZO_SESSION_BYTES) return PEVGHAZO_STORED_LENGTH;
    for (i = 0; i < OPENED; i++) others |= bytes[i];
    number = check(bytes[TOGGLE], bytes[OPENED], get(bytes + INDEX), others);
    if (number != PEVGHAZO_ACCEPTED) return number;
    for (i = 0; i < 12; i++) {
        acc[i] = get(bytes + 4 * i);
        mask[i] = get(bytes + 48 + 4 * i);
    }
    *index = get(bytes + INDEX);
    *toggle = bytes[TOGGLE] == 1;
    *opened = bytes[OPENED] == 1;
    return PEVGHAZO_ACCEPTED;
}

uint32_t pevghazo_store_session(const pevghazo_session *s, uint8_t *bytes, size_t bytes_len) {
    return store(s->acc, s->mask, s->index, byte_of(&s->toggle), byte_of(&s->opened), bytes, bytes_len);
}

uint32_t pevghazo_load_session(pevghazo_session *s, const uint8_t *bytes, size_t bytes_len) {
    return load(s->acc, s->mask, &s->index, &s->toggle, &s->opened, bytes, bytes_len);
}

uint32_t pevghazo_store_sane_session(const pevghazo_sane_session *s, uint8_t *bytes, size_t bytes_len) {
    return store(s->acc, s->mask, s->index, byte_of(&s->toggle), byte_of(&s->opened), bytes, bytes_len);
}

uint32_t pevghazo_load_sane_session(pevghazo_sane_session *s, const uint8_t *bytes, size_t bytes_len) {
    return load(s->acc, s->mask, &s->index, &s->toggle, &s->opened, bytes, bytes_len);
}

uint32_t pevghazo_store_sae_session(const pevghazo_sae_session *s, uint8_t *bytes, size_t bytes_len) {
    return store(s->acc, s->mask, s->index, byte_of(&s->toggle), byte_of(&s->opened), bytes, bytes_len);
}

uint32_t pevghazo_load_sae_session(pevghazo_sae_session *s, const uint8_t *bytes, size_t bytes_len) {
    return load(s->acc, s->mask, &s->index, &s->toggle, &s->opened, bytes, bytes_len);
}
