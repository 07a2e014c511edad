/* The implementations of sealing that the benchmark times side by side. All seal the same message with the same metadata, whose lengths
 * are `peer_size` and METADATA; each starts every call from the session that its start left. */
#ifndef PEERS_H
#define PEERS_H
#include <stdbool.h>
#include <stddef.h>
#include <stdint.h>

enum { METADATA = 20, LONGEST = 16384, KEY = 32 };

/* How the tables name those that there are both leaves and sessions of. */
#define LIBRARY "proved library"
#define BY_FOUR "proved library, by four"
#define BEFORE "the library before"
#define PLAIN "plain C, gcc -O3"
#define BY_HAND "SSE2 by hand, gcc -O3"

extern size_t peer_size;
extern uint8_t peer_key[KEY], peer_metadata[METADATA], peer_message[LONGEST];

typedef struct peer {
    const char *name;
    bool sanse;             /* whether it is Xoofff-SANSE, so that results can be compared */
    bool (*start)(void);    /* makes a session or a key schedule from the key; NULL where the key itself serves, or an earlier peer's session */
    bool (*wrap)(void);     /* writes `out` and `tag` */
    bool (*unwrap)(void);   /* writes `back` from `out` and `tag` */
    uint8_t *out, *tag, *back;
} peer;

/* The proved library first, and then the same by four; those that are not installed are left out. */
extern const peer peers[];
extern const int peer_count;

/* To be called first; false where a library does not start. */
bool peers_ready(void);

#endif
