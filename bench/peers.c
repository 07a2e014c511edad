#include "peers.h"
#include "reference.h"
#include "sse2.h"
#include <string.h>

/* Where all peers' texts start, so that none is faster by its addresses. */
#define PAGE __attribute__((aligned(4096)))

size_t peer_size;
uint8_t peer_key[KEY], peer_metadata[METADATA], peer_message[LONGEST] PAGE;

/* Buffers of one peer, and its entry in the table. */
#define BUFFERS(P) static uint8_t P##_out[LONGEST] PAGE, P##_back[LONGEST] PAGE, P##_tag[32]
#define PEER(P, NAME, SANSE, START) {NAME, SANSE, START, P##_wrap, P##_unwrap, P##_out, P##_tag, P##_back}

/* ---- the proved library: as it is, by four, and as it was */

/* A library's wrap and unwrap as calls, each from this session. */
#define LIBRARY_CALLS(P, SESSION, WRAP, UNWRAP)                                                                         \
    BUFFERS(P);                                                                                                         \
    static bool P##_wrap(void) {                                                                                        \
        pevghazo_session s = SESSION;                                                                                   \
        return WRAP(&s, peer_metadata, METADATA, peer_message, peer_size, P##_out, peer_size, P##_tag, 32).number == 0; \
    }                                                                                                                   \
    static bool P##_unwrap(void) {                                                                                      \
        pevghazo_session s = SESSION;                                                                                   \
        return UNWRAP(&s, peer_metadata, METADATA, P##_out, peer_size, P##_tag, 32, P##_back, peer_size).number == 0;   \
    }

extern __typeof__(pevghazo_wrap) pevghazo_wrap_four;
extern __typeof__(pevghazo_unwrap) pevghazo_unwrap_four;

static pevghazo_session library_session;
static bool library_start(void) { return pevghazo_start(&library_session, peer_key, KEY).number == 0; }
LIBRARY_CALLS(library, library_session, pevghazo_wrap, pevghazo_unwrap)
LIBRARY_CALLS(four, library_session, pevghazo_wrap_four, pevghazo_unwrap_four)

#ifdef WITH_EARLIER_SESSIONS
extern __typeof__(pevghazo_start) earlier_start;
extern __typeof__(pevghazo_wrap) earlier_wrap;
extern __typeof__(pevghazo_unwrap) earlier_unwrap;

static pevghazo_session before_session;
static bool before_start(void) { return earlier_start(&before_session, peer_key, KEY).number == 0; }
LIBRARY_CALLS(before, before_session, earlier_wrap, earlier_unwrap)
#endif

/* ---- plain C, and SSE2 by hand */

#define C_CALLS(P, WRAP, UNWRAP)                                                                   \
    BUFFERS(P);                                                                                    \
    static bool P##_wrap(void) {                                                                   \
        pevghazo_session s = plain_session;                                                        \
        return WRAP(&s, peer_metadata, METADATA, peer_message, peer_size, P##_out, P##_tag), true; \
    }                                                                                              \
    static bool P##_unwrap(void) {                                                                 \
        pevghazo_session s = plain_session;                                                        \
        return UNWRAP(&s, peer_metadata, METADATA, P##_out, peer_size, P##_tag, P##_back);         \
    }

static pevghazo_session plain_session;
static bool plain_start(void) { return reference_start(&plain_session, peer_key, KEY), true; }
C_CALLS(plain, reference_wrap, reference_unwrap)
C_CALLS(by_hand, sse2_wrap, sse2_unwrap)

/* ---- the independent implementation in Rust (rust/bench) */

void rust_start(pevghazo_session *s, const uint8_t *key, size_t n);
bool rust_wrap(pevghazo_session *s, const uint8_t *metadata, size_t a, const uint8_t *message, size_t m, uint8_t *out, uint8_t *tag);
bool rust_unwrap(pevghazo_session *s, const uint8_t *metadata, size_t a, const uint8_t *cryptogram, size_t m, const uint8_t *tag,
                 uint8_t *out);

BUFFERS(independent);
static pevghazo_session independent_session;

static bool independent_start(void) {
    rust_start(&independent_session, peer_key, KEY);
    return true;
}

static bool independent_wrap(void) {
    pevghazo_session s = independent_session;
    return rust_wrap(&s, peer_metadata, METADATA, peer_message, peer_size, independent_out, independent_tag);
}

static bool independent_unwrap(void) {
    pevghazo_session s = independent_session;
    return rust_unwrap(&s, peer_metadata, METADATA, independent_out, peer_size, independent_tag, independent_back);
}

/* ---- libsodium */

#ifdef WITH_LIBSODIUM
#include <sodium.h>

BUFFERS(chacha);
static const uint8_t chacha_nonce[crypto_aead_chacha20poly1305_ietf_NPUBBYTES];

static bool chacha_wrap(void) {
    return crypto_aead_chacha20poly1305_ietf_encrypt_detached(chacha_out, chacha_tag, NULL, peer_message, peer_size, peer_metadata,
                                                              METADATA, NULL, chacha_nonce, peer_key) == 0;
}

static bool chacha_unwrap(void) {
    return crypto_aead_chacha20poly1305_ietf_decrypt_detached(chacha_back, NULL, chacha_out, peer_size, chacha_tag, peer_metadata,
                                                              METADATA, chacha_nonce, peer_key) == 0;
}
#endif

/* ---- OpenSSL */

#ifdef WITH_OPENSSL
#include <openssl/evp.h>

/* A cipher, with its key, for both directions. */
typedef struct { EVP_CIPHER *cipher; EVP_CIPHER_CTX *seal, *open; uint8_t key[64]; } evp;

static const uint8_t evp_nonce[12];

static bool evp_start(evp *e, const char *name) {
    if (!e->cipher) {
        e->cipher = EVP_CIPHER_fetch(NULL, name, NULL);
        e->seal = EVP_CIPHER_CTX_new(), e->open = EVP_CIPHER_CTX_new();
        memcpy(e->key, peer_key, KEY), memcpy(e->key + KEY, peer_metadata, METADATA);
    }
    return e->cipher && EVP_EncryptInit_ex2(e->seal, e->cipher, e->key, NULL, NULL)
        && EVP_DecryptInit_ex2(e->open, e->cipher, e->key, NULL, NULL);
}

/* `key` is NULL where the key that the context has is used again. */
static bool evp_wrap(evp *e, const uint8_t *key, const uint8_t *nonce, uint8_t *out, uint8_t *tag) {
    int n;
    return EVP_EncryptInit_ex2(e->seal, NULL, key, nonce, NULL) && EVP_EncryptUpdate(e->seal, NULL, &n, peer_metadata, METADATA)
        && EVP_EncryptUpdate(e->seal, out, &n, peer_message, (int)peer_size) && EVP_EncryptFinal_ex(e->seal, out + n, &n)
        && EVP_CIPHER_CTX_ctrl(e->seal, EVP_CTRL_AEAD_GET_TAG, 16, tag);
}

static bool evp_unwrap(evp *e, const uint8_t *key, const uint8_t *nonce, const uint8_t *out, uint8_t *tag, uint8_t *back) {
    int n;
    return EVP_DecryptInit_ex2(e->open, NULL, key, nonce, NULL) && EVP_CIPHER_CTX_ctrl(e->open, EVP_CTRL_AEAD_SET_TAG, 16, tag)
        && EVP_DecryptUpdate(e->open, NULL, &n, peer_metadata, METADATA)
        && EVP_DecryptUpdate(e->open, back, &n, out, (int)peer_size) && EVP_DecryptFinal_ex(e->open, back + n, &n);
}

BUFFERS(siv);
static evp siv_evp;
static bool siv_start(void) { return evp_start(&siv_evp, "AES-256-SIV"); }
static bool siv_wrap(void) { return evp_wrap(&siv_evp, siv_evp.key, NULL, siv_out, siv_tag); }
static bool siv_unwrap(void) { return evp_unwrap(&siv_evp, siv_evp.key, NULL, siv_out, siv_tag, siv_back); }

BUFFERS(gcm);
static evp gcm_evp;
static bool gcm_start(void) { return evp_start(&gcm_evp, "AES-256-GCM"); }
static bool gcm_wrap(void) { return evp_wrap(&gcm_evp, NULL, evp_nonce, gcm_out, gcm_tag); }
static bool gcm_unwrap(void) { return evp_unwrap(&gcm_evp, NULL, evp_nonce, gcm_out, gcm_tag, gcm_back); }
#endif

bool peers_ready(void) {
#ifdef WITH_LIBSODIUM
    if (sodium_init() < 0) return false;
#endif
    return true;
}

const peer peers[] = {
    PEER(library, LIBRARY, true, library_start),
    PEER(four, BY_FOUR, true, NULL),
#ifdef WITH_EARLIER_SESSIONS
    PEER(before, BEFORE, true, before_start),
#endif
    PEER(plain, PLAIN, true, plain_start),
    PEER(by_hand, BY_HAND, true, NULL),
    PEER(independent, "Rust, independent", true, independent_start),
#ifdef WITH_LIBSODIUM
    PEER(chacha, "ChaCha20-Poly1305, libsodium", false, NULL),
#endif
#ifdef WITH_OPENSSL
    PEER(siv, "AES-256-SIV, OpenSSL", false, siv_start),
    PEER(gcm, "AES-256-GCM, OpenSSL", false, gcm_start),
#endif
};
const int peer_count = sizeof peers / sizeof peers[0];
