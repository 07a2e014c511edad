/* Pevghazo: the version. It stands here, and nowhere else by hand: what is installed is made from it, and tests compare the others. */
#ifndef PEVGHAZO_VERSION_H
#define PEVGHAZO_VERSION_H

#include "language.h"

#ifdef __cplusplus
extern "C" {
#endif

#define PEVGHAZO_VERSION_MAJOR 0
#define PEVGHAZO_VERSION_MINOR 12
#define PEVGHAZO_VERSION_PATCH 0

/* The three as a text. */
#define PEVGHAZO_VERSION PEVGHAZO_VERSION_OF(PEVGHAZO_VERSION_MAJOR, PEVGHAZO_VERSION_MINOR, PEVGHAZO_VERSION_PATCH)
#define PEVGHAZO_VERSION_OF(major, minor, patch) PEVGHAZO_VERSION_TEXT(major, minor, patch)
#define PEVGHAZO_VERSION_TEXT(major, minor, patch) #major "." #minor "." #patch

/* The version of the library that a program runs with; PEVGHAZO_VERSION is that of the headers that it was compiled with. Plain C. */
const char *pevghazo_version(void);

#ifdef __cplusplus
}
#endif

#endif
