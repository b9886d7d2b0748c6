/* Sealing and opening by mbed TLS. */
#include <mbedtls/gcm.h>
#include <mbedtls/version.h>
#include <stddef.h>
#include <stdint.h>

int mbedtls_seal(const uint8_t *key, size_t key_len, const uint8_t *iv, const uint8_t *text, size_t len, size_t piece, uint8_t *out) {
    mbedtls_gcm_context gcm;
    mbedtls_gcm_init(&gcm);
    int failed = mbedtls_gcm_setkey(&gcm, MBEDTLS_CIPHER_ID_AES, key, (unsigned)key_len * 8);
#if MBEDTLS_VERSION_MAJOR < 3
    failed |= mbedtls_gcm_starts(&gcm, MBEDTLS_GCM_ENCRYPT, iv, 12, NULL, 0);
    for (size_t at = 0, n; at < len; at += n) {
        n = len - at < piece ? len - at : piece;
        failed |= mbedtls_gcm_update(&gcm, n, text + at, out + at);
    }
    failed |= mbedtls_gcm_finish(&gcm, out + len, 16);
#else
    size_t wrote = 0, at = 0, rest = 0;
    failed |= mbedtls_gcm_starts(&gcm, MBEDTLS_GCM_ENCRYPT, iv, 12);
    for (size_t n; at < len; at += n) {
        n = len - at < piece ? len - at : piece;
        failed |= mbedtls_gcm_update(&gcm, text + at, n, out + at, n, &wrote);
    }
    failed |= mbedtls_gcm_finish(&gcm, NULL, 0, &rest, out + len, 16);
#endif
    mbedtls_gcm_free(&gcm);
    return failed;
}

int mbedtls_open(const uint8_t *key, size_t key_len, const uint8_t *iv, const uint8_t *sealed, size_t len, uint8_t *out) {
    mbedtls_gcm_context gcm;
    mbedtls_gcm_init(&gcm);
    int failed = mbedtls_gcm_setkey(&gcm, MBEDTLS_CIPHER_ID_AES, key, (unsigned)key_len * 8);
    failed |= mbedtls_gcm_auth_decrypt(&gcm, len - 16, iv, 12, NULL, 0, sealed + len - 16, 16, sealed, out);
    mbedtls_gcm_free(&gcm);
    return failed;
}
