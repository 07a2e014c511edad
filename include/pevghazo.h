/* Pevghazo: sessions in Xoofff-SANSE and Xoofff-SANE, the office's table of sessions, message envelopes, codes for packets, a pool of unused rings
 * with the seasons in which they may be issued, charges for rings, and old letters of the first version.
 *
 *     pevghazo/session.h    a lone session in SANSE
 *     pevghazo/sane.h       a lone session in SANE, for groups that keep a counter; a nonce must not repeat under one key
 *     pevghazo/table.h      the office's table of 32 sessions, each with its count of the day
 *     pevghazo/envelope.h   the bytes in which a message travels, with a header that stands under the tag
 *     pevghazo/codes.h      codes for packets of rings
 *     pevghazo/pool.h       a pool of unused rings, which issue lines bring back
 *     pevghazo/season.h     issue seasons: the days on which rings of each size may be issued
 *     pevghazo/till.h       charging for rings: a price list, and a till that adds up what was charged
 *     pevghazo/sae.h        old letters, in sessions of Farfalle-SAE that only open
 *     pevghazo/stored.h     a session of any mode as bytes, for storing it
 *     pevghazo/memory.h     setting secrets in memory to zero
 *     pevghazo/numbers.h    the numbers of refusals, with a sentence for each, and limits; the others include it
 *     pevghazo/version.h    the version
 *     pevghazo/language.h   what differs between old C, later C and C++
 *
 * Proved for all bytes are the functions of session.h, sane.h, table.h, envelope.h, codes.h, pool.h, season.h, till.h and sae.h. The others are plain C,
 * which is tested only: pevghazo_store_session, pevghazo_load_session, pevghazo_store_sane_session, pevghazo_load_sane_session,
 * pevghazo_store_sae_session, pevghazo_load_sae_session, pevghazo_wipe, pevghazo_wipe_stack, pevghazo_number_text and pevghazo_version.
 *
 * Every proved function takes any bytes and returns. Its number is 0 where the call was accepted, and otherwise the number of the first check
 * that it met (PEVGHAZO_* in numbers.h); pevghazo_start_day, pevghazo_pool_holds and pevghazo_pool_rings have no number, as they are never
 * refused. A refusal has count 0 and leaves sessions, pools, tills, buffers and the groups' counts as they were, but for two:
 *
 *   - A refused pevghazo_start, pevghazo_sane_start or pevghazo_sae_start closes the record that it was lent. The session that the record held
 *     is lost with all that it could still seal or open; no call gives it back. Who wants to keep it until the new one has started hands over
 *     another record. (A refused pevghazo_open_group leaves the group's record.)
 *   - Number 11 returns the real count, adds it to the group's count in the table, and sets the first bytes of the output buffer, as many as
 *     the cryptogram has, to zero. The session stays as it was.
 *
 * A message that travels in an envelope is wrapped and unwrapped by the calls for an envelope: their names have `_envelope`, they are handed its
 * header, and they put it under the tag. They meet 1 before every other check. Both ends use them, or neither: envelope.h says more. Old letters
 * have no such call.
 *
 * Each call that wraps or unwraps, but for old letters, is there twice: those whose names end with `_four` work on four blocks at a time, and are
 * faster for long texts. They give the same in every byte and count, so that each call and each end may use either: session.h says more.
 *
 * On success the bytes of a buffer beyond the text keep their content. A refused wrap leaves the output buffer as it was, so a program that
 * does not look at the number might send what stood there before: compilers warn of it (PEVGHAZO_MUST_USE).
 *
 * Pointers are not NULL, also where a length is 0. A `pevghazo_flag` holds 0 or 1.
 *
 * In place: a buffer or a record that is written to overlaps no other argument, so a message cannot be wrapped into its own buffer. Hand over
 * a second buffer for the output, copy it back where it is wanted, and pevghazo_wipe the one that held the message.
 *
 * Threads: the library has no globals and allocates nothing, so any number of threads may call it at once. A record, a table, a pool and a buffer
 * are used by one call at a time: who shares one between threads takes a lock around the call.
 */
#ifndef PEVGHAZO_H
#define PEVGHAZO_H

#include "pevghazo/codes.h"
#include "pevghazo/envelope.h"
#include "pevghazo/memory.h"
#include "pevghazo/numbers.h"
#include "pevghazo/pool.h"
#include "pevghazo/sae.h"
#include "pevghazo/sane.h"
#include "pevghazo/season.h"
#include "pevghazo/session.h"
#include "pevghazo/stored.h"
#include "pevghazo/table.h"
#include "pevghazo/till.h"
#include "pevghazo/version.h"

#endif
