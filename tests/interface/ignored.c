/* A program that ignores what CALL gives; it must not compile where warnings are errors. With USED it looks at it, and must, but where CALL
 * hands over a record of the wrong kind. */
#include <pevghazo.h>

int main(void) {
    static pevghazo_session s[PEVGHAZO_GROUPS];
    static pevghazo_sane_session n[PEVGHAZO_GROUPS];
    static pevghazo_sae_session o[PEVGHAZO_GROUPS];
    static pevghazo_record t[PEVGHAZO_GROUPS];
    static pevghazo_pool p[1];
    static pevghazo_windows w[1];
    static pevghazo_till k[1];
    static pevghazo_prices r[1];
    static uint8_t a[200], b[200], c[200];
    (void)s, (void)n, (void)o, (void)t, (void)p, (void)w, (void)k, (void)r, (void)a, (void)b, (void)c;
#ifdef USED
    return sizeof(CALL) == 0;
#else
    CALL;
    return 0;
#endif
}
