/* A frame sealed, opened and refused by every bad length, and a message in pieces, as a station's firmware does it. */
#include "ewplander.h"

#include <stdio.h>
#include <stdlib.h>
#include <string.h>

#define TEXT "level 4.2m"
enum { TEXT_LEN = 10, TAG_LEN = 16, SEALED_LEN = TEXT_LEN + TAG_LEN, LONG = 65537 };

static const uint8_t text[] = TEXT;
static const uint8_t zeros[LONG];

/* Whether a call answered what it should; the whole program fails with the first that did not. */
static void expect(const char *what, uint32_t answer, uint32_t due) {
    if (answer != due) {
        printf("%s: answered %u, not %u\n", what, (unsigned)answer, (unsigned)due);
        exit(1);
    }
}

/* A refused call's output and count: nothing written, nothing counted. */
static void expect_untouched(const char *what, const uint8_t *out, size_t len, size_t count) {
    for (size_t i = 0; i < len; i++) expect(what, out[i], 0xa5);
    expect(what, (uint32_t)count, 0);
}

static void refused_seal(const char *what, size_t key, size_t iv, size_t ad, size_t len, size_t tag, size_t room, uint32_t due) {
    uint8_t *out = malloc(room + 1);
    size_t count = 99;
    memset(out, 0xa5, room + 1);
    expect(what, ewplander_seal(zeros, key, zeros, iv, zeros, ad, zeros, len, tag, out, room, &count), due);
    expect_untouched(what, out, room + 1, count);
    free(out);
}

static void refused_open(const char *what, size_t sealed, size_t tag, size_t room, uint32_t due) {
    uint8_t *out = malloc(room + 1);
    size_t count = 99;
    memset(out, 0xa5, room + 1);
    expect(what, ewplander_open(zeros, 16, zeros, 12, NULL, 0, zeros, sealed, tag, out, room, &count), due);
    expect_untouched(what, out, room + 1, count);
    free(out);
}

static void at_once(void) {
    uint8_t frame[SEALED_LEN], opened[TEXT_LEN];
    size_t count;
    expect("seal", ewplander_seal(zeros, 32, zeros, 12, NULL, 0, text, TEXT_LEN, TAG_LEN, frame, sizeof frame, &count), EWPLANDER_DONE);
    expect("its count", (uint32_t)count, SEALED_LEN);
    expect("open", ewplander_open(zeros, 32, zeros, 12, NULL, 0, frame, count, TAG_LEN, opened, sizeof opened, &count), EWPLANDER_DONE);
    expect("its text", memcmp(opened, text, TEXT_LEN) != 0, 0);
    frame[3] ^= 1;
    expect("open a damaged frame", ewplander_open(zeros, 32, zeros, 12, NULL, 0, frame, sizeof frame, TAG_LEN, opened, sizeof opened, &count),
           EWPLANDER_TAG_DIFFERS);
}

static void refusals(void) {
    refused_seal("a key of none", 0, 12, 0, 10, 16, 26, EWPLANDER_KEY_LENGTH);
    refused_seal("a key of 24", 24, 12, 0, 10, 16, 26, EWPLANDER_KEY_LENGTH);
    refused_seal("an IV of none", 16, 0, 0, 10, 16, 26, EWPLANDER_IV_LENGTH);
    refused_seal("an IV of 129", 16, 129, 0, 10, 16, 26, EWPLANDER_IV_LENGTH);
    refused_seal("a tag of 11", 16, 12, 0, 10, 11, 26, EWPLANDER_TAG_LENGTH);
    refused_seal("a tag of 17", 16, 12, 0, 10, 17, 27, EWPLANDER_TAG_LENGTH);
    refused_seal("a tag of all that a length can say", 16, 12, 0, 10, SIZE_MAX, 27, EWPLANDER_TAG_LENGTH);
    refused_seal("associated data of 65,537", 16, 12, LONG, 10, 16, 26, EWPLANDER_AD_LONG);
    refused_seal("a text of 65,537", 16, 12, 0, LONG, 16, LONG + 16, EWPLANDER_TEXT_LONG);
    refused_seal("room for a byte less", 16, 12, 0, 10, 16, 25, EWPLANDER_OUTPUT_SHORT);
    refused_open("15 sealed bytes", 15, 16, 26, EWPLANDER_SEALED_SHORT);
    refused_open("no sealed bytes", 0, 12, 0, EWPLANDER_SEALED_SHORT);
    refused_open("room for a byte less", 26, 16, 9, EWPLANDER_OUTPUT_SHORT);
    refused_open("another tag", 26, 16, 10, EWPLANDER_TAG_DIFFERS);
}

static void channel(void) {
    static const uint8_t mark[4] = {'p', 'u', 'm', 'p'};
    static const uint8_t iv[12] = {'p', 'u', 'm', 'p', 0, 0, 0, 0, 0, 0, 1, 2};
    uint8_t pieces[TEXT_LEN], tag[16], frame[SEALED_LEN];
    ewplander_channel c;
    size_t count;
    expect("open a channel with a tag of 11", ewplander_channel_open(&c, zeros, 16, mark, 11), EWPLANDER_TAG_LENGTH);
    expect("begin on the dead one", ewplander_channel_begin(&c, 258, NULL, 0), EWPLANDER_WRONG_PHASE);
    expect("open a channel", ewplander_channel_open(&c, zeros, 16, mark, TAG_LEN), EWPLANDER_DONE);
    expect("begin", ewplander_channel_begin(&c, 258, NULL, 0), EWPLANDER_DONE);
    expect("feed", ewplander_channel_feed(&c, text, 3, pieces, 3, &count), EWPLANDER_DONE);
    expect("feed nothing", ewplander_channel_feed(&c, NULL, 0, NULL, 0, &count), EWPLANDER_DONE);
    expect("feed without room", ewplander_channel_feed(&c, text, 7, pieces, 6, &count), EWPLANDER_OUTPUT_SHORT);
    expect("feed the rest", ewplander_channel_feed(&c, text + 3, 7, pieces + 3, 7, &count), EWPLANDER_DONE);
    expect("finish", ewplander_channel_finish(&c, tag), EWPLANDER_DONE);
    expect("the same at once", ewplander_seal(zeros, 16, iv, 12, NULL, 0, text, TEXT_LEN, TAG_LEN, frame, sizeof frame, &count),
           EWPLANDER_DONE);
    expect("its bytes", memcmp(frame, pieces, TEXT_LEN) != 0, 0);
    expect("its tag", memcmp(frame + TEXT_LEN, tag, TAG_LEN) != 0, 0);
    expect("abandon with none open", ewplander_channel_abandon(&c), EWPLANDER_WRONG_PHASE);
    expect("the same number again", ewplander_channel_begin(&c, 258, NULL, 0), EWPLANDER_USED);
    expect("a later number", ewplander_channel_begin(&c, 386, NULL, 0), EWPLANDER_DONE);
    expect("abandon", ewplander_channel_abandon(&c), EWPLANDER_DONE);
    expect("a number 128 below", ewplander_channel_begin(&c, 258, NULL, 0), EWPLANDER_STALE);
}

int main(void) {
    at_once();
    refusals();
    channel();
    puts("frame.c: sealed, opened, refused by every bad length, and fed in pieces");
    return 0;
}
