/* How much stack the library takes: each call runs in a thread whose stack was painted before, and the paint that is gone is counted. */
#define _GNU_SOURCE
#include <pthread.h>
#include <stdio.h>
#include <stdlib.h>
#include <string.h>
#include "retake.h"

enum { STACK = 1 << 20, ROWS = 64, ROOM = ROWS + 1, FRAMES = 128, PAINT = 0xa5 };

static int16_t bank[25344];
static uint8_t map[4096];
static uint32_t rows[ROOM * 5], out[ROOM * FRAMES], aux[ROOM * FRAMES], kept[ROOM * 13];
static uint8_t written[RETAKE_TEXT_LENGTH(ROWS)];
static uint32_t instrument;
static uint64_t first, second, counts[RETAKE_KINDS];
static uint32_t answer;

static void *nothing(void *unused) { return unused; }

static void *render(void *unused) {
    answer = retake_render(instrument, 48000, FRAMES, bank, 25344, map, instrument == 2 ? 4096 : 0, rows, ROOM * 5, ROWS,
                           out, ROOM * FRAMES, aux, ROOM * FRAMES, kept, ROOM * 13, &first, &second, counts);
    return unused;
}

static void *edit(void *unused) {
    answer = retake_edit(instrument, 48000, FRAMES, bank, 25344, map, instrument == 2 ? 4096 : 0, rows, ROOM * 5, ROWS,
                         0, 0x42700000 - instrument, 0x3f000000, 0x3f000000, 0x3f000000, 0,
                         out, ROOM * FRAMES, aux, ROOM * FRAMES, kept, ROOM * 13, &first, &second, counts);
    return unused;
}

static void *insert(void *unused) {
    answer = retake_insert(instrument, 48000, FRAMES, bank, 25344, map, instrument == 2 ? 4096 : 0, rows, ROOM * 5, ROWS,
                           0, 0x42600000, 0x3f400000, 0x3f400000, 0x3f400000, 0,
                           out, ROOM * FRAMES, aux, ROOM * FRAMES, kept, ROOM * 13, &first, &second, counts);
    return unused;
}

static void *take_out(void *unused) {
    answer = retake_remove(instrument, 48000, FRAMES, bank, 25344, map, instrument == 2 ? 4096 : 0, rows, ROOM * 5, ROWS + 1, 0,
                           out, ROOM * FRAMES, aux, ROOM * FRAMES, kept, ROOM * 13, &first, &second, counts);
    return unused;
}

static void *read_score(void *unused) {
    const char *text = "timbre note morph harmonics restart\n00000000 42700000 00000000 00000000 00000001\n";
    answer = retake_read_score((const uint8_t *)text, strlen(text), rows, ROOM * 5, &first, &second);
    return unused;
}

static void *write_score(void *unused) {
    answer = retake_write_score(rows, ROOM * 5, ROWS, written, sizeof written, &first, &second);
    return unused;
}

/* The calls in their order: what one leaves is handed to the next. */
static const struct {
    const char *name;
    void *(*call)(void *);
} calls[] = {{"rendering", render}, {"edit", edit}, {"insertion", insert}, {"removal", take_out}};

/* The bytes of stack that a thread with this function has used. */
static size_t used(void *(*call)(void *)) {
    unsigned char *stack = aligned_alloc(4096, STACK);
    pthread_attr_t attributes;
    pthread_t thread;
    size_t clean = 0;
    memset(stack, PAINT, STACK);
    pthread_attr_init(&attributes);
    if (pthread_attr_setstack(&attributes, stack, STACK) || pthread_create(&thread, &attributes, call, NULL)) exit(2);
    pthread_join(thread, NULL);
    while (clean < STACK && stack[clean] == PAINT) clean++;
    free(stack);
    return STACK - clean;
}

int main(void) {
    size_t own = used(nothing);
    for (int i = 0; i < 25344; i++) bank[i] = (int16_t)(i * 40503);
    for (int i = 0; i < 4096; i++) map[i] = (uint8_t)(i * 167);
    printf("reading: %zu bytes\n", used(read_score) - own);
    if (answer) return 1;
    for (int i = 0; i < ROWS; i++) {
        rows[i * 5] = 0x42000000;
        rows[i * 5 + 1] = rows[i * 5 + 2] = 0x3e800000;
        rows[i * 5 + 3] = i % 2 ? 0x3f800000 : 0x3f000000;
        rows[i * 5 + 4] = 0;
    }
    printf("writing: %zu bytes\n", used(write_score) - own);
    if (answer) return 1;
    for (instrument = 0; instrument < 4; instrument++) {
        printf("instrument %u:", instrument);
        for (int i = 0; i < 4; i++) {
            size_t bytes = used(calls[i].call) - own;
            if (answer) return 1;
            printf("%s %s of %llu rows %zu bytes", i > 0 ? "," : "", calls[i].name, (unsigned long long)first, bytes);
        }
        printf("\n");
    }
    return 0;
}
