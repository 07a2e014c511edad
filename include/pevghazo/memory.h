/* Pevghazo: setting secrets in memory to zero. These functions are plain C and not proved.
 *
 * The proved functions keep nothing between calls and use no memory of their own but the stack. There, below the frame of the function that
 * called them, lanes of mask and accumulator stay behind, and may bytes of a key and of keystream: pevghazo_wipe_stack overwrites all of that.
 * What a program still has to see to:
 *
 *   - keys, records, stored bytes and messages: pevghazo_wipe, before their memory is given back;
 *   - copies: assigning a record makes a second one, and a buffer that is grown may leave the old one behind;
 *   - what the system writes elsewhere: swapped pages and core dumps (mlock and setrlimit help against these). */
#ifndef PEVGHAZO_MEMORY_H
#define PEVGHAZO_MEMORY_H

#include "language.h"

#ifdef __cplusplus
extern "C" {
#endif

/* The bytes of stack that pevghazo_wipe_stack overwrites, more than three times what the deepest call on a session uses. Adding a line to a pool
 * uses more, and leaves nothing secret. */
enum { PEVGHAZO_STACK_BYTES = 14336 };

/* Sets bytes to zero, also where nobody reads them afterwards. `memory` is not NULL, also where the length is 0. */
void pevghazo_wipe(void *memory, size_t len);

/* Overwrites the stack that calls on sessions used, and the registers xmm0 to xmm15; wider ones, which the C library may have used to copy
 * a message, stay. The function that made the calls calls it, after the last one and before it returns. */
void pevghazo_wipe_stack(void);

#ifdef __cplusplus
}
#endif

#endif
