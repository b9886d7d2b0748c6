/*
 * Ewplander: AES-GCM sealing for remote stations (FIPS 197, SP 800-38D).
 *
 * Two ways to seal. ewplander_seal() and ewplander_open() work on a whole message at once, under a key and an IV of the caller's
 * choice. A channel (ewplander_channel_open() and the calls after it) seals messages in pieces, each under the station's mark and a
 * number of its own, and never takes a number twice.
 *
 * What holds for every call:
 *
 *   - Any lengths may be handed in. No call asks for a length to be checked first: a bad one is refused by its answer.
 *   - A buffer is a pointer and a length. Where the length is 0 the pointer is not followed, and may be NULL.
 *   - A pointer to a channel, a count, a mark or a tag is followed always, and must be a good one.
 *   - Buffers that are written to overlap no other argument.
 *   - The answer is one of EWPLANDER_..., EWPLANDER_DONE being 0. Where several refusals apply, the lowest number is answered; a
 *     call on a channel looks at the phase (EWPLANDER_WRONG_PHASE) before all else.
 *   - A refused call alters no byte of an output, and stores a count of 0 or a tag of zeros. It leaves a channel as it was, but for
 *     a refused opening, which stores the dead channel.
 *
 * What the library takes, on x86-64 and on Arm:
 *
 *   - Memory: up to 20,480 bytes of code and constants, and none that is written to. No call allocates, keeps a pointer, or has state
 *     of its own.
 *   - Stack: each call says below how much it takes at most, as measured on x86-64. A loader that first looks for memcpy when it is
 *     called takes some of its own.
 *   - Imports: memcpy, and nothing else.
 *   - Time: no call is constant in time. The cipher's substitution is a table indexed by secret bytes, and whoever shares a cache
 *     with the caller may learn of the key. No promise is made of the time that a call takes, nor of what it leaves in memory that
 *     it is done with.
 *   - Threads and interrupts: any calls may run at once, as long as what one writes to is not used by another. So of the calls on one
 *     channel one runs after the other, and the caller sees to that; those on different channels, ewplander_seal() and
 *     ewplander_open() need no lock.
 *
 * C99 or later, C++11 or later.
 */
#ifndef EWPLANDER_H
#define EWPLANDER_H

#include <stddef.h>
#include <stdint.h>

#if SIZE_MAX != UINT64_MAX
#error "ewplander.h: size_t must have 64 bits, as it has in the library: only 64-bit hosts are served"
#endif

/* A fact that the compiler checks, by what each standard has for that; its name is the message. */
#if defined(__cplusplus)
#define EWPLANDER_ASSERT(name, fact) static_assert(fact, #name)
#elif defined(__STDC_VERSION__) && __STDC_VERSION__ >= 201112L
#define EWPLANDER_ASSERT(name, fact) _Static_assert(fact, #name)
#else
#define EWPLANDER_ASSERT(name, fact) typedef char name[(fact) ? 1 : -1]
#endif

#ifdef __cplusplus
extern "C" {
#endif

/* The version of the library that this header is for. */
#define EWPLANDER_VERSION "0.1.0"

/* The answers. */
enum {
    EWPLANDER_DONE = 0,         /* done */
    EWPLANDER_KEY_LENGTH = 1,   /* the key has neither 16 nor 32 bytes */
    EWPLANDER_IV_LENGTH = 2,    /* the IV has no byte, or more than 128 */
    EWPLANDER_TAG_LENGTH = 3,   /* the tag length is not 12 to 16 */
    EWPLANDER_AD_LONG = 4,      /* more than 65,536 bytes of associated data */
    EWPLANDER_TEXT_LONG = 5,    /* more than 65,536 bytes of text */
    EWPLANDER_SEALED_SHORT = 6, /* fewer sealed bytes than the tag has */
    EWPLANDER_OUTPUT_SHORT = 7, /* the output is shorter than what would be written */
    EWPLANDER_TAG_DIFFERS = 8,  /* the tag is not that of these bytes: no text has this sealed form */
    EWPLANDER_WRONG_PHASE = 9,  /* a message is open, or none is, or the channel is dead */
    EWPLANDER_STALE = 10,       /* 128 or more below the highest number accepted */
    EWPLANDER_USED = 11         /* a number that was accepted before */
};

/* ewplander_answer_text: an answer in words. It is never NULL: a number that is no answer has a text too. */
static inline const char *ewplander_answer_text(uint32_t answer) {
    switch (answer) {
    case EWPLANDER_DONE: return "done";
    case EWPLANDER_KEY_LENGTH: return "a key has 16 or 32 bytes";
    case EWPLANDER_IV_LENGTH: return "an IV has 1 to 128 bytes";
    case EWPLANDER_TAG_LENGTH: return "a tag has 12 to 16 bytes";
    case EWPLANDER_AD_LONG: return "associated data has at most 65,536 bytes";
    case EWPLANDER_TEXT_LONG: return "a text has at most 65,536 bytes";
    case EWPLANDER_SEALED_SHORT: return "fewer sealed bytes than the tag has";
    case EWPLANDER_OUTPUT_SHORT: return "the output is too short";
    case EWPLANDER_TAG_DIFFERS: return "the tag differs";
    case EWPLANDER_WRONG_PHASE: return "the channel is in another phase";
    case EWPLANDER_STALE: return "the message number is stale";
    case EWPLANDER_USED: return "the message number was used before";
    default: return "not an answer of this library";
    }
}

/*
 * ewplander_seal: seals a text at once.
 *
 *   key, key_len   the key: 16 or 32 bytes
 *   iv, iv_len     the IV: 1 to 128 bytes, never the same twice under one key; 12 is the usual length
 *   ad, ad_len     associated data, which is authenticated and not sealed: up to 65,536 bytes
 *   text, text_len the text: up to 65,536 bytes
 *   tag_len        the tag's length: 12 to 16
 *   out, out_len   where ciphertext and then tag are written: text_len + tag_len bytes of it, no other
 *   count          stores how many bytes were written: text_len + tag_len, or 0
 *
 * Answers: DONE, KEY_LENGTH, IV_LENGTH, TAG_LENGTH, AD_LONG, TEXT_LONG, OUTPUT_SHORT.
 * A refusal leaves every byte of `out`.
 * Stack: up to 2,048 bytes.
 */
uint32_t ewplander_seal(const uint8_t *key, size_t key_len, const uint8_t *iv, size_t iv_len, const uint8_t *ad, size_t ad_len,
                        const uint8_t *text, size_t text_len, size_t tag_len, uint8_t *out, size_t out_len, size_t *count);

/*
 * ewplander_open: opens what was sealed, with the same key, IV, associated data and tag length.
 *
 *   sealed, sealed_len  ciphertext and then tag
 *   out, out_len        where the text is written: sealed_len - tag_len bytes of it, no other
 *   count               stores how many bytes were written: sealed_len - tag_len, or 0
 *
 * Answers: DONE, KEY_LENGTH, IV_LENGTH, TAG_LENGTH, AD_LONG, TEXT_LONG (of sealed_len - tag_len), SEALED_SHORT, OUTPUT_SHORT,
 * TAG_DIFFERS: exactly when no text has this sealed form.
 * A refusal leaves every byte of `out`: no byte of a text is seen before its tag was found right.
 * Stack: up to 2,048 bytes.
 */
uint32_t ewplander_open(const uint8_t *key, size_t key_len, const uint8_t *iv, size_t iv_len, const uint8_t *ad, size_t ad_len,
                        const uint8_t *sealed, size_t sealed_len, size_t tag_len, uint8_t *out, size_t out_len, size_t *count);

/*
 * A channel, in the caller's memory. Its fields are the library's: a caller neither reads nor writes them, and keeps the bytes as the
 * last call left them. Whatever they hold, no call faults; what a call answers is promised of channels that a call left.
 *
 * What the caller keeps to:
 *
 *   - One key and mark open one channel. Opening another with both the same takes numbers again that were taken before. A unit that
 *     starts again has to open another: how it keeps the numbers apart stands below.
 *   - No older state is given again: no copy of a channel is fed after the channel itself went on.
 *   - The key is not used with ewplander_seal() besides.
 *
 * Then the cipher input blocks of all messages differ and none is zero, over any calls whatever, and channels of one key and
 * different marks share none. A message's input blocks are its first counter block, which makes the tag, and one for each sixteen
 * bytes of its text, the last perhaps in part; a piece that goes on inside a block enciphers that block's once more.
 *
 * The IV of a message has 12 bytes: the mark, then the number in eight bytes, highest first. Number 258 under mark 0a0b0c0d gives the
 * IV 0a0b0c0d 0000000000000102. With this IV ewplander_open() opens the message: its ciphertext and behind it its tag.
 *
 * After power was lost:
 *
 *   A unit that starts again has lost its channel. The one that it opens then has an empty ledger, and refuses no number of the
 *   life before; a number begun twice under one key and mark shows how the two texts differ, and lets others make tags. Only the
 *   caller can stop that, by a number in lasting memory, kept with key and mark: the first that was never reserved. With a new key
 *   or a new mark it is 0.
 *
 *   - Reserve: with N stored, store N + R; once that is safe, the numbers from N to N + R - 1 may be begun. So one write serves for R
 *     messages.
 *   - Start again: begin with the number stored. What was reserved and not begun is passed over; there are 2^64 numbers.
 *   - A write that is cut short must leave N or N + R. Where memory does not see to that, keep two numbers, each with a check, write
 *     them in turn, and take the higher of those that are whole.
 *   - Where the number is lost, or may be an older one (memory put back from a copy, a unit cloned), do not guess: a new mark, never
 *     given out under this key, begins at 0 again, and so does a new key. A mark of its own is what each further unit under one key
 *     needs; a new key is for when it is not known which marks were given out, or when others may know the key.
 *   - Do not store the channel instead: once it goes on, what was stored is an older state.
 *
 *   README has a station in C that does this.
 */
typedef struct {
    uint64_t high;
    uint64_t low;
} ewplander_element;

typedef struct {
    uint64_t high;
    uint64_t near_marks;
    uint64_t far_marks;
} ewplander_ledger;

typedef struct {
    uint64_t number;
    ewplander_element sum;
    uint8_t part[16];
    uint32_t phase;
    uint32_t ad;
    uint32_t text;
} ewplander_message;

typedef struct {
    uint32_t words[60];
    ewplander_element h;
    uint8_t mark[4];
    uint32_t rounds;
    uint32_t tag;
    ewplander_ledger ledger;
    ewplander_message message;
} ewplander_channel;

EWPLANDER_ASSERT(ewplander_an_element_has_16_bytes, sizeof(ewplander_element) == 16);
EWPLANDER_ASSERT(ewplander_a_ledger_has_24_bytes, sizeof(ewplander_ledger) == 24);
EWPLANDER_ASSERT(ewplander_a_message_has_56_bytes, sizeof(ewplander_message) == 56);
EWPLANDER_ASSERT(ewplander_a_channel_has_352_bytes, sizeof(ewplander_channel) == 352);
EWPLANDER_ASSERT(ewplander_the_ledger_stands_at_byte_272, offsetof(ewplander_channel, ledger) == 272);
EWPLANDER_ASSERT(ewplander_the_message_stands_at_byte_296, offsetof(ewplander_channel, message) == 296);

/*
 * ewplander_channel_open: makes a new channel, in which no number was taken and no message is open.
 *
 *   channel        stores the channel; what it held before does not matter
 *   key, key_len   the key: 16 or 32 bytes; the caller's copy is not needed afterwards
 *   mark           the station's mark, 4 bytes: the first of every IV of this channel
 *   tag_len        the length of its tags: 12 to 16
 *
 * Answers: DONE, KEY_LENGTH, TAG_LENGTH.
 * A refusal stores the dead channel, all zeros, on which every other call answers WRONG_PHASE.
 * Stack: up to 3,072 bytes.
 */
uint32_t ewplander_channel_open(ewplander_channel *channel, const uint8_t *key, size_t key_len, const uint8_t mark[4],
                                size_t tag_len);

/*
 * ewplander_channel_begin: begins a message.
 *
 *   number       its number, of any value: the last eight bytes of its IV, highest byte first (number 258 under mark 0a0b0c0d gives
 *                the IV 0a0b0c0d 0000000000000102). It is used from this moment on, whatever becomes of the message. Numbers may come
 *                in any order, as long as none is 128 or more below the highest.
 *   ad, ad_len   the whole of its associated data: up to 65,536 bytes
 *
 * Answers: DONE, WRONG_PHASE (a message is open, or the channel is dead), AD_LONG, STALE, USED.
 * A refusal leaves the channel, and uses no number.
 * Stack: up to 1,280 bytes.
 */
uint32_t ewplander_channel_begin(ewplander_channel *channel, uint64_t number, const uint8_t *ad, size_t ad_len);

/*
 * ewplander_channel_feed: seals a piece of the message's text, of any length, none included.
 *
 *   piece, piece_len  the piece; all pieces of a message have up to 65,536 bytes together
 *   out, out_len      where its ciphertext is written: piece_len bytes of it, no other
 *   count             stores how many bytes were written: piece_len, or 0
 *
 * Answers: DONE, WRONG_PHASE (no message is open, or the channel is dead), TEXT_LONG, OUTPUT_SHORT.
 * A refusal leaves the channel, its message open, and every byte of `out`.
 * However a text is cut, the pieces written make the ciphertext that ewplander_seal() gives for the whole.
 * Stack: up to 2,048 bytes.
 */
uint32_t ewplander_channel_feed(ewplander_channel *channel, const uint8_t *piece, size_t piece_len, uint8_t *out, size_t out_len,
                                size_t *count);

/*
 * ewplander_channel_finish: ends the message, and gives its tag.
 *
 *   tag   stores the tag, zeros past the channel's tag length
 *
 * Answers: DONE, WRONG_PHASE (no message is open, or the channel is dead).
 * A refusal leaves the channel, and stores zeros.
 * Stack: up to 3,072 bytes.
 */
uint32_t ewplander_channel_finish(ewplander_channel *channel, uint8_t tag[16]);

/*
 * ewplander_channel_abandon: ends the message without a tag. Its number stays used.
 *
 * Answers: DONE, WRONG_PHASE (no message is open, or the channel is dead).
 * A refusal leaves the channel.
 * Stack: up to 1,024 bytes.
 */
uint32_t ewplander_channel_abandon(ewplander_channel *channel);

#undef EWPLANDER_ASSERT

#ifdef __cplusplus
}
#endif

#endif
