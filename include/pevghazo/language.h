/* Pevghazo: what differs between old C, later C and C++. */
#ifndef PEVGHAZO_LANGUAGE_H
#define PEVGHAZO_LANGUAGE_H

#include <stddef.h>
#include <stdint.h>

/* A flag, one byte that holds 0 or 1. */
#if defined(__cplusplus) || (defined(__STDC_VERSION__) && __STDC_VERSION__ >= 199901L)
#include <stdbool.h>
typedef bool pevghazo_flag;
#else
typedef unsigned char pevghazo_flag;
#endif

/* Before a function whose answer must not be ignored: compilers that can do so warn where a program does not look at it. Who ignored the
 * number of a refused wrap might send what was in the buffer before. */
#if (defined(__cplusplus) && __cplusplus >= 201703L) || (defined(__STDC_VERSION__) && __STDC_VERSION__ >= 202311L)
#define PEVGHAZO_MUST_USE [[nodiscard]]
#elif defined(__GNUC__)
#define PEVGHAZO_MUST_USE __attribute__((warn_unused_result))
#else
#define PEVGHAZO_MUST_USE
#endif

/* A layout that the library relies on; where another compiler lays a record out otherwise, its programs do not compile. */
#if defined(__cplusplus) && __cplusplus >= 201103L
#define PEVGHAZO_LAYOUT(name, condition) static_assert(condition, #name)
#elif defined(__STDC_VERSION__) && __STDC_VERSION__ >= 201112L
#define PEVGHAZO_LAYOUT(name, condition) _Static_assert(condition, #name)
#else
#define PEVGHAZO_LAYOUT(name, condition) typedef char pevghazo_layout_##name[(condition) ? 1 : -1]
#endif

#endif
