/* Texts for people: the version, and a sentence for each number. */
#include "pevghazo/numbers.h"
#include "pevghazo/stored.h"
#include "pevghazo/version.h"

const char *pevghazo_version(void) { return PEVGHAZO_VERSION; }

const char *pevghazo_number_text(uint32_t number) {
    switch (number) {
    case PEVGHAZO_ACCEPTED: return "Accepted.";
    case PEVGHAZO_BAD_HEADER: return "This is no envelope for this call: its header does not follow the layout, or is not the call's own.";
    case PEVGHAZO_TOO_FEW_BYTES: return "The envelope ends before all that its header announces.";
    case PEVGHAZO_BAD_GROUP: return "There is no such group: groups are numbered 0 to 31.";
    case PEVGHAZO_BAD_KEY: return "The key must have 16 to 47 bytes.";
    case PEVGHAZO_NOT_OPEN: return "The session is not open.";
    case PEVGHAZO_TOO_LONG: return "The metadata, the message or the nonce has more than 16,384 bytes.";
    case PEVGHAZO_BAD_TAG_LENGTH: return "The tag must have 32 bytes in SANSE (letter S), and 16 in SANE (letter N) and in old letters (letter F).";
    case PEVGHAZO_NO_ROOM: return "The output buffer is too short.";
    case PEVGHAZO_INDEX_FULL: return "The session is full: start a new one with a new key, or in SANE with a new nonce; of old letters (letter F) no more can be opened in it.";
    case PEVGHAZO_ALLOWANCE: return "The group's allowance for the day does not cover this call.";
    case PEVGHAZO_WRONG_TAG: return "The tag is wrong: the arrival is damaged, repeated, out of order or not meant for this session.";
    case PEVGHAZO_NO_CODE: return "There is no such code: no message was accepted yet, or the packet is above 2,047.";
    case PEVGHAZO_BAD_LINE: return "This is not an issue line: it must be group,size,first,last,day, as 7,C,12001,12100,20250304, and a line feed.";
    case PEVGHAZO_POOLED: return "A number of this line is in the pool already, in its size.";
    case PEVGHAZO_POOL_FULL: return "The pool is full: with this line it would need more than 256 runs.";
    case PEVGHAZO_NO_SUCH_DAY: return "The line's day does not exist in the years 1900 to 2199, or its size's window has a date that no year has.";
    case PEVGHAZO_OUT_OF_SEASON: return "The line's day is outside the window in which rings of its size may be issued.";
    case PEVGHAZO_READ_ONLY: return "Old letters, those of the first version (letter F), are only opened: none is sealed any more.";
    case PEVGHAZO_NOT_SOLD: return "Rings of this size are not sold: the price list has 0 for it, or a price above 1,000,000 pence a hundred.";
    case PEVGHAZO_TILL_FULL: return "The till is full: it has 65,536 lines, or a total would pass 64 bits. Start a new one.";
    case PEVGHAZO_STORED_LENGTH: return "The stored bytes are too few or too many.";
    case PEVGHAZO_STORED_FLAG: return "The stored bytes hold a flag that is neither 0 nor 1.";
    case PEVGHAZO_STORED_INDEX: return "The stored bytes hold an index above 1,048,576.";
    case PEVGHAZO_STORED_CLOSED: return "The stored bytes are those of a closed session that is not all zero.";
    default: return "There is no such number.";
    }
}
