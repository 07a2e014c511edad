/* Setting secrets in memory to zero. */
#include "pevghazo/memory.h"

/* Nothing is moved over this place, and all memory counts as read there. */
static void fence(void) {
#if defined(__GNUC__)
    __asm__ volatile("" ::: "memory");
#endif
}

/* The vector registers, which the permutation leaves full of lanes, and which a first call of another library may spill. */
static void wipe_registers(void) {
#if defined(__GNUC__) && defined(__x86_64__)
    __asm__ volatile("pxor %%xmm0, %%xmm0\n\tpxor %%xmm1, %%xmm1\n\tpxor %%xmm2, %%xmm2\n\tpxor %%xmm3, %%xmm3\n\t"
                     "pxor %%xmm4, %%xmm4\n\tpxor %%xmm5, %%xmm5\n\tpxor %%xmm6, %%xmm6\n\tpxor %%xmm7, %%xmm7\n\t"
                     "pxor %%xmm8, %%xmm8\n\tpxor %%xmm9, %%xmm9\n\tpxor %%xmm10, %%xmm10\n\tpxor %%xmm11, %%xmm11\n\t"
                     "pxor %%xmm12, %%xmm12\n\tpxor %%xmm13, %%xmm13\n\tpxor %%xmm14, %%xmm14\n\tpxor %%xmm15, %%xmm15"
                     :
                     :
                     : "xmm0", "xmm1", "xmm2", "xmm3", "xmm4", "xmm5", "xmm6", "xmm7", "xmm8", "xmm9", "xmm10", "xmm11", "xmm12", "xmm13",
                       "xmm14", "xmm15");
#endif
}

void pevghazo_wipe(void *memory, size_t len) {
    volatile unsigned char *place = (volatile unsigned char *)memory;
    while (len > 0) {
        *place = 0;
        place++;
        len--;
    }
    fence();
}

/* A frame of its own, in the place of the frames of the calls before it. */
#if defined(__GNUC__)
__attribute__((noinline))
#endif
void pevghazo_wipe_stack(void) {
    uint64_t frame[PEVGHAZO_STACK_BYTES / 8];
    volatile uint64_t *place = frame;
    size_t i;
    for (i = 0; i < PEVGHAZO_STACK_BYTES / 8; i++) place[i] = 0;
    fence();
    wipe_registers();
}
