/* Pevghazo: the numbers of refusals, and the limits that several areas share. */
#ifndef PEVGHAZO_NUMBERS_H
#define PEVGHAZO_NUMBERS_H

#include "language.h"

#ifdef __cplusplus
extern "C" {
#endif

/* Numbers, in the order in which they are checked; but a code meets 5, 12, 8, an addition to a pool inside the season 13, 16, 17, 14, 15, in
 * these orders, and 18 is met before every other. There are no numbers 20 and 21 yet. */
enum {
    PEVGHAZO_ACCEPTED = 0,
    PEVGHAZO_BAD_HEADER = 1,     /* the envelope's header does not follow the layout, or is not the one of the call */
    PEVGHAZO_TOO_FEW_BYTES = 2,  /* fewer bytes follow the header than its lengths and the tag's together */
    PEVGHAZO_BAD_GROUP = 3,      /* the table does not hold 32 records, or the group is above 31 */
    PEVGHAZO_BAD_KEY = 4,        /* the key does not have 16 to 47 bytes */
    PEVGHAZO_NOT_OPEN = 5,       /* the session is not open */
    PEVGHAZO_TOO_LONG = 6,       /* metadata, message or nonce has more than 16,384 bytes */
    PEVGHAZO_BAD_TAG_LENGTH = 7, /* the tag, or the tag buffer, does not have 32 bytes, or in SANE and in old letters 16 */
    PEVGHAZO_NO_ROOM = 8,        /* the output buffer is too short */
    PEVGHAZO_INDEX_FULL = 9,     /* the index after the call would exceed 1,048,576 */
    PEVGHAZO_ALLOWANCE = 10,     /* the allowance is smaller than the group's count of the day plus this call's count */
    PEVGHAZO_WRONG_TAG = 11,     /* the tag differs */
    PEVGHAZO_NO_CODE = 12,       /* no message was accepted yet, or the packet is above 2,047 */
    PEVGHAZO_BAD_LINE = 13,      /* the bytes are not exactly one issue line */
    PEVGHAZO_POOLED = 14,        /* a number of the line is pooled already in its size */
    PEVGHAZO_POOL_FULL = 15,     /* the pool would need more than 256 runs after joining */
    PEVGHAZO_NO_SUCH_DAY = 16,   /* the line's day does not exist in 1900 to 2199, or its size's window has a date that no leap year has */
    PEVGHAZO_OUT_OF_SEASON = 17, /* the line's day is outside its size's window */
    PEVGHAZO_READ_ONLY = 18,     /* old letters (letter F) are only opened: none is wrapped, and no envelope of one is written */
    PEVGHAZO_NOT_SOLD = 19,      /* the price of the line's size is 0, or above 1,000,000 pence for a hundred */
    PEVGHAZO_TILL_FULL = 22      /* the till has 65,536 lines or more, or one of its totals would pass 64 bits */
};

/* Limits: the groups of a table, the bytes of a tag in SANSE, in SANE and in old letters (SAE), and the most bytes of metadata and of a message,
 * and of a nonce, which may have none. */
enum {
    PEVGHAZO_GROUPS = 32,
    PEVGHAZO_TAG_LENGTH = 32,
    PEVGHAZO_SANE_TAG_LENGTH = 16,
    PEVGHAZO_SAE_TAG_LENGTH = 16,
    PEVGHAZO_TEXT_MAX = 16384,
    PEVGHAZO_NONCE_MAX = 16384
};

/* A plain English sentence for a number, also for those of stored.h; never NULL, also where there is no such number. It must not be altered
 * or freed. Plain C and not proved. */
const char *pevghazo_number_text(uint32_t number);

#ifdef __cplusplus
}
#endif

#endif
