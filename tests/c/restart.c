/* README's station.c, whose power is lost around its writes and within its messages: no number of an earlier life is begun again. */
#include "station.c"

#include <setjmp.h>
#include <stdio.h>
#include <stdlib.h>
#include <string.h>

/* More numbers than all lives begin or pass over. */
enum { NUMBERS = 400 * AHEAD };

static const uint8_t key[32] = {7}, mark[4] = {'p', 'u', 'm', 'p'};

/* Lasting memory. */
static uint64_t stored;
static int readable = 1, writable = 1;
static unsigned long writes;

/* What an observer of all lives saw. */
static uint8_t begun[NUMBERS];
static unsigned long messages;

/* The steps for which there is power; at the next one the life ends. */
static unsigned long power;
static jmp_buf lost;

static void fail(const char *what, uint64_t number) {
    printf("restart.c: %s (number %llu)\n", what, (unsigned long long)number);
    exit(1);
}

static void step(void) {
    if (power == 0) longjmp(lost, 1);
    power--;
}

int number_load(uint64_t *number) {
    step();
    *number = stored;
    return readable;
}

/* Power may be lost before the write, and between the write and the first use of what it reserved. */
int number_store(uint64_t number) {
    step();
    if (!writable) return 0;
    stored = number;
    writes++;
    step();
    return 1;
}

/* A life of the station: it sends messages as long as there is power. */
static void live(unsigned long steps) {
    static struct station station;
    static uint64_t number;
    static uint8_t piece[4], tag[16];
    static size_t count;
    memset(&station, 0xa5, sizeof station);
    power = steps;
    if (setjmp(lost) != 0) return;
    if (!station_start(&station, key, sizeof key, mark)) fail("no start", stored);
    for (;;) {
        if (!station_begin(&station, NULL, 0, &number)) fail("no begin", number);
        if (number >= NUMBERS) fail("more numbers than expected", number);
        if (begun[number]) fail("begun again", number);
        begun[number] = 1;
        messages++;
        step();
        if (ewplander_channel_feed(&station.channel, mark, 4, piece, 4, &count) != EWPLANDER_DONE) fail("no feed", number);
        step();
        if (ewplander_channel_finish(&station.channel, tag) != EWPLANDER_DONE) fail("no finish", number);
        step();
    }
}

/* What makes all this needed: a channel knows nothing of the one before. */
static void a_new_channel_takes_the_number_again(void) {
    for (int life = 0; life < 2; life++) {
        ewplander_channel channel;
        if (ewplander_channel_open(&channel, key, sizeof key, mark, 16) != EWPLANDER_DONE) fail("no channel", 0);
        if (ewplander_channel_begin(&channel, 1, NULL, 0) != EWPLANDER_DONE) fail("a new channel refused", 1);
    }
}

/* Nothing is begun without a number that was loaded, or one that was stored; nor past the last of them. */
static void refusals(void) {
    static struct station station;
    static uint64_t number;
    power = 1000;
    if (setjmp(lost) != 0) fail("power lost", stored);
    readable = 0;
    if (station_start(&station, key, sizeof key, mark)) fail("started with no number", stored);
    readable = 1;
    if (!station_start(&station, key, sizeof key, mark)) fail("no start", stored);
    writable = 0;
    if (station_begin(&station, NULL, 0, &number)) fail("begun without a write", number);
    if (ewplander_channel_abandon(&station.channel) != EWPLANDER_WRONG_PHASE) fail("a message is open", number);
    writable = 1;
    if (!station_begin(&station, NULL, 0, &number) || begun[number]) fail("no begin after all", number);
    stored = UINT64_MAX - AHEAD + 1;
    if (!station_start(&station, key, sizeof key, mark)) fail("no start", stored);
    if (station_begin(&station, NULL, 0, &number)) fail("begun past the last number", number);
    if (stored != UINT64_MAX - AHEAD + 1) fail("the number wrapped", stored);
}

int main(void) {
    /* A life has a step for its start, two for each write and three for each message. */
    const unsigned long whole = 1 + 2 + 3ul * AHEAD;
    unsigned long lives = 0;
    a_new_channel_takes_the_number_again();
    for (unsigned long steps = 0; steps < 40; steps++, lives++) live(steps);
    for (unsigned long steps = whole - 20; steps < whole + 20; steps++, lives++) live(steps);
    for (unsigned long steps = 2 * whole - 20; steps < 2 * whole + 20; steps++, lives++) live(steps);
    if (writes > messages / AHEAD + 2 * lives) fail("too many writes", writes);
    refusals();
    printf("restart.c: %lu lives, %lu messages, %lu writes, no number begun again\n", lives, messages, writes);
    return 0;
}
