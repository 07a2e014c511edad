/* Pevghazo: the office's table, a run of 32 records: each group's session, and beside it the group's own count of the day. What all functions
 * share is said in pevghazo.h.
 *
 * All groups have one allowance, a number that the program keeps: each call is handed it by value, and none alters it. A call looks at its own
 * group's count alone, so a busy group that has used its allowance does not stop the others.
 *
 * Zeroed memory is the table before the first day, 32 records of it, and the allowance is 0 then: no group can be opened, wraps and unwraps for
 * every group get 5 (or 1, for a header that is not the call's), and the nearly-full question finds none.
 *
 *     static pevghazo_record office[PEVGHAZO_GROUPS];
 *     uint32_t allowance = 0;
 *
 *     allowance = pevghazo_start_day(office, PEVGHAZO_GROUPS, 1000);
 *     opened = pevghazo_open_group(office, PEVGHAZO_GROUPS, 7, allowance, key, key_len);
 *
 * The day of a group is its record's count and the allowance: after the two lines office[7].count is 1, and group 7 has 999 left. The next day
 * begins with the next pevghazo_start_day. A group's session is a session like a lone one: its codes are those of &office[7].session. A
 * pevghazo_start, or a wrap or unwrap of session.h, of it goes past the table: the allowance is not looked at, nothing is added to the group's
 * count, and the group in an envelope's header is not compared with 7. */
#ifndef PEVGHAZO_TABLE_H
#define PEVGHAZO_TABLE_H

#include "numbers.h"
#include "session.h"

#ifdef __cplusplus
extern "C" {
#endif

/* A group's record: its session, and the permutations of its calls since the day began. It is as secret as the session; the count alone is no
 * secret. */
typedef struct pevghazo_record {
    pevghazo_session session;
    uint32_t count;
} pevghazo_record;

PEVGHAZO_LAYOUT(record, sizeof(pevghazo_record) == 108);
PEVGHAZO_LAYOUT(record_session, offsetof(pevghazo_record, session) == 0);
PEVGHAZO_LAYOUT(record_count, offsetof(pevghazo_record, count) == 104);

/* What the nearly-full question gives: its number, whether it names a group, and that group. Where it names none, found is false and the group
 * is 0. */
typedef struct pevghazo_found {
    uint32_t number;
    pevghazo_flag found;
    uint32_t group;
} pevghazo_found;

PEVGHAZO_LAYOUT(found, sizeof(pevghazo_found) == 12);
PEVGHAZO_LAYOUT(found_found, offsetof(pevghazo_found, found) == 4);
PEVGHAZO_LAYOUT(found_group, offsetof(pevghazo_found, group) == 8);

/* A day begins: the count of every record of the run becomes 0, and every session stays. It returns the allowance that it was handed, the one
 * of all groups until the next day. Never refused, whatever the run's length: 0 records, 1 or 33 are as good as 32. `records` is not NULL, also
 * where the length is 0. */
uint32_t pevghazo_start_day(pevghazo_record *records, size_t length, uint32_t allowance);

/* Checks 3, 4, 10. A fresh session takes the place of the group's, and 1 is added to its count, which is not set back. A refusal leaves the
 * record. */
PEVGHAZO_MUST_USE pevghazo_answer pevghazo_open_group(pevghazo_record *table, size_t table_len, uint32_t group, uint32_t allowance,
                                                      const uint8_t *key, size_t key_len);

/* Checks 3 and 5 to 10. The call's count is added to the group's; a refusal leaves the record. */
PEVGHAZO_MUST_USE pevghazo_answer pevghazo_wrap_group(pevghazo_record *table, size_t table_len, uint32_t group, uint32_t allowance,
                                                      const uint8_t *metadata, size_t metadata_len, const uint8_t *message,
                                                      size_t message_len, uint8_t *out, size_t out_len, uint8_t *tag, size_t tag_len);

/* Checks 3 and 5 to 11. The call's count is added to the group's, for number 11 too, which alters nothing else in the record; any other refusal
 * leaves the record. */
PEVGHAZO_MUST_USE pevghazo_answer pevghazo_unwrap_group(pevghazo_record *table, size_t table_len, uint32_t group, uint32_t allowance,
                                                        const uint8_t *metadata, size_t metadata_len, const uint8_t *cryptogram,
                                                        size_t cryptogram_len, const uint8_t *tag, size_t tag_len, uint8_t *out,
                                                        size_t out_len);

/* pevghazo_wrap_group for the envelope with this header, whose bytes then stand under the tag, before the metadata (envelope.h). Check 1, exactly
 * where the header is not `S,group,metadata length,message length,` with this call's group and its two lengths, and nothing before or after it;
 * then 3, 5 and 7 to 10, as a length that is too long gets 1, and so does a group above 31. Count, index, 9 and 10 go by header and metadata
 * together. */
PEVGHAZO_MUST_USE pevghazo_answer pevghazo_wrap_envelope_group(pevghazo_record *table, size_t table_len, uint32_t group, uint32_t allowance,
                                                               const uint8_t *header, size_t header_len, const uint8_t *metadata,
                                                               size_t metadata_len, const uint8_t *message, size_t message_len,
                                                               uint8_t *out, size_t out_len, uint8_t *tag, size_t tag_len);

/* pevghazo_unwrap_group of what arrived in the envelope with this header. Check 1 as for wrapping, by the cryptogram's length; then 3, 5 and 7 to
 * 11. */
PEVGHAZO_MUST_USE pevghazo_answer pevghazo_unwrap_envelope_group(pevghazo_record *table, size_t table_len, uint32_t group, uint32_t allowance,
                                                                 const uint8_t *header, size_t header_len, const uint8_t *metadata,
                                                                 size_t metadata_len, const uint8_t *cryptogram, size_t cryptogram_len,
                                                                 const uint8_t *tag, size_t tag_len, uint8_t *out, size_t out_len);

/* By four: the same four calls, faster from PEVGHAZO_FOUR_MIN bytes of metadata or text on, with the same number, count, records and buffers for all
 * bytes and lengths, and with the same addition to the group's count. Each call may be either, and so may those of the group at its end: session.h
 * says more. */
PEVGHAZO_MUST_USE pevghazo_answer pevghazo_wrap_group_four(pevghazo_record *table, size_t table_len, uint32_t group, uint32_t allowance,
                                                           const uint8_t *metadata, size_t metadata_len, const uint8_t *message,
                                                           size_t message_len, uint8_t *out, size_t out_len, uint8_t *tag, size_t tag_len);
PEVGHAZO_MUST_USE pevghazo_answer pevghazo_unwrap_group_four(pevghazo_record *table, size_t table_len, uint32_t group, uint32_t allowance,
                                                             const uint8_t *metadata, size_t metadata_len, const uint8_t *cryptogram,
                                                             size_t cryptogram_len, const uint8_t *tag, size_t tag_len, uint8_t *out,
                                                             size_t out_len);
PEVGHAZO_MUST_USE pevghazo_answer pevghazo_wrap_envelope_group_four(pevghazo_record *table, size_t table_len, uint32_t group,
                                                                    uint32_t allowance, const uint8_t *header, size_t header_len,
                                                                    const uint8_t *metadata, size_t metadata_len, const uint8_t *message,
                                                                    size_t message_len, uint8_t *out, size_t out_len, uint8_t *tag,
                                                                    size_t tag_len);
PEVGHAZO_MUST_USE pevghazo_answer pevghazo_unwrap_envelope_group_four(pevghazo_record *table, size_t table_len, uint32_t group,
                                                                      uint32_t allowance, const uint8_t *header, size_t header_len,
                                                                      const uint8_t *metadata, size_t metadata_len,
                                                                      const uint8_t *cryptogram, size_t cryptogram_len, const uint8_t *tag,
                                                                      size_t tag_len, uint8_t *out, size_t out_len);

/* Check 3, exactly where the table does not hold 32 records; it then names no group. Otherwise it names the lowest group that is open with an
 * index above the mark, and none exactly where there is no such group. An index that equals the mark is not above it, and a closed group is never
 * named, whatever its index. A group that is opened again has index 0: the same question then names the next. */
PEVGHAZO_MUST_USE pevghazo_found pevghazo_nearly_full(const pevghazo_record *table, size_t table_len, uint32_t mark);

#ifdef __cplusplus
}
#endif

#endif
