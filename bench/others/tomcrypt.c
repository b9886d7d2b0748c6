/* Sealing and opening by libtomcrypt. */
#include <stddef.h>
#include <stdint.h>
#include <string.h>
#include <tomcrypt.h>

static int start(gcm_state *gcm, const uint8_t *key, size_t key_len, const uint8_t *iv) {
    int failed = gcm_init(gcm, register_cipher(&aes_desc), key, (int)key_len);
    failed |= gcm_add_iv(gcm, iv, 12);
    return failed | gcm_add_aad(gcm, NULL, 0);
}

int tomcrypt_seal(const uint8_t *key, size_t key_len, const uint8_t *iv, const uint8_t *text, size_t len, size_t piece, uint8_t *out) {
    gcm_state gcm;
    unsigned long tag_len = 16;
    int failed = start(&gcm, key, key_len, iv);
    for (size_t at = 0, n; at < len; at += n) {
        n = len - at < piece ? len - at : piece;
        failed |= gcm_process(&gcm, (unsigned char *)text + at, n, out + at, GCM_ENCRYPT);
    }
    return failed | gcm_done(&gcm, out + len, &tag_len);
}

int tomcrypt_open(const uint8_t *key, size_t key_len, const uint8_t *iv, const uint8_t *sealed, size_t len, uint8_t *out) {
    gcm_state gcm;
    uint8_t tag[16];
    unsigned long tag_len = 16;
    int failed = start(&gcm, key, key_len, iv);
    failed |= gcm_process(&gcm, out, len - 16, (unsigned char *)sealed, GCM_DECRYPT);
    failed |= gcm_done(&gcm, tag, &tag_len);
    return failed | memcmp(tag, sealed + len - 16, 16);
}
