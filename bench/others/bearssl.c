/* Sealing and opening by BearSSL: with its table-based AES (big), and with its constant-time one for 64-bit hosts (ct64). */
#include <bearssl.h>
#include <stddef.h>
#include <stdint.h>
#include <string.h>

static void seal(const br_block_ctr_class **cipher, const uint8_t *iv, const uint8_t *text, size_t len, size_t piece, uint8_t *out) {
    br_gcm_context gcm;
    br_gcm_init(&gcm, cipher, br_ghash_ctmul64);
    br_gcm_reset(&gcm, iv, 12);
    br_gcm_flip(&gcm);
    memcpy(out, text, len);
    for (size_t at = 0, n; at < len; at += n) {
        n = len - at < piece ? len - at : piece;
        br_gcm_run(&gcm, 1, out + at, n);
    }
    br_gcm_get_tag(&gcm, out + len);
}

static int open(const br_block_ctr_class **cipher, const uint8_t *iv, const uint8_t *sealed, size_t len, uint8_t *out) {
    br_gcm_context gcm;
    br_gcm_init(&gcm, cipher, br_ghash_ctmul64);
    br_gcm_reset(&gcm, iv, 12);
    br_gcm_flip(&gcm);
    memcpy(out, sealed, len - 16);
    br_gcm_run(&gcm, 0, out, len - 16);
    return !br_gcm_check_tag(&gcm, sealed + len - 16);
}

#define CALLS(kind)                                                                                                                     \
    int bearssl_##kind##_seal(const uint8_t *key, size_t key_len, const uint8_t *iv, const uint8_t *text, size_t len, size_t piece,     \
                              uint8_t *out) {                                                                                           \
        br_aes_##kind##_ctr_keys keys;                                                                                                  \
        br_aes_##kind##_ctr_init(&keys, key, key_len);                                                                                  \
        seal(&keys.vtable, iv, text, len, piece, out);                                                                                  \
        return 0;                                                                                                                       \
    }                                                                                                                                   \
    int bearssl_##kind##_open(const uint8_t *key, size_t key_len, const uint8_t *iv, const uint8_t *sealed, size_t len, uint8_t *out) { \
        br_aes_##kind##_ctr_keys keys;                                                                                                  \
        br_aes_##kind##_ctr_init(&keys, key, key_len);                                                                                  \
        return open(&keys.vtable, iv, sealed, len, out);                                                                                \
    }

CALLS(big)
CALLS(ct64)
