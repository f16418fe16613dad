/* Reads a score of three rows, renders it on the wavetable voice, edits its second row, puts a bar of four rows in and takes it out.
 * Then scores that hold positions, of which kind, and turned down: on the plain oscillator, and on the terrain voice, whose path leaves the map.
 *
 *     cc -Iinclude examples/c/retake_example.c target/staticlib/libretake_c.a -o target/retake_example
 *     target/retake_example
 */
#include <inttypes.h>
#include <stdio.h>
#include <string.h>

#include "retake.h"

enum { ROWS = 3, BAR = 4, ROOM = ROWS + BAR, FRAMES = 24, SAMPLES = ROOM * FRAMES, LONG = 80, MOST = ROWS * LONG };

static const char text[] =
    "note timbre morph harmonics restart\n"
    "42700000 00000000 00000000 00000000 00000001\n"
    "42700000 3f000000 00000000 00000000 00000000\n"
    "42700000 3f000000 00000000 00000000 00000001\n";

static const char bright[] =
    "note timbre morph harmonics restart\n"
    "42700000 3f100000 00000000 00000000 00000001\n"
    "42700000 3f800000 00000000 00000000 00000000\n"
    "42700000 3f800000 00000000 00000000 00000000\n";

static const char outward[] =
    "note timbre morph harmonics restart\n"
    "42f00000 3f800000 3f800000 3f800000 00000001\n"
    "42f00000 3f800000 3f800000 3f800000 00000000\n"
    "42f00000 3f800000 3f000000 3f800000 00000000\n"
    "00000000 3f800000 00000000 3f800000 00000000\n";

static int16_t bank[RETAKE_BANK_LENGTH];
static uint8_t map[RETAKE_MAP_LENGTH];
static uint32_t rows[ROOM * RETAKE_ROW_WORDS], out[MOST], aux[MOST], kept[ROOM * RETAKE_KEPT_WORDS];
static uint32_t before[ROWS * FRAMES];

/* Prints a call's report; 1 if it was refused. */
static int refused(const char *call, retake_report report) {
    if (report.refusal != RETAKE_DONE) {
        printf("%s refused: %s (number %" PRIu32 ", place %" PRIu64 ")\n",
               call, retake_refusal_text(report.refusal), report.refusal, report.place);
        return 1;
    }
    printf("%s: %" PRIu64 " rows, held %" PRIu64 "\n", call, report.rows, report.held);
    if (report.held > 0) {
        printf("    phase %" PRIu64 ", wave position %" PRIu64 ", level %" PRIu64 ", map %" PRIu64 ", bank %" PRIu64 "\n",
               report.counts.phase, report.counts.wave_position, report.counts.level, report.counts.map,
               report.counts.bank);
    }
    return 0;
}

/* Blocks of 80 frames, in which timbre 1 carries the waveform past its top: its holds, and the same score turned down a little. */
static int hold(retake_score *score) {
    const retake_settings settings = {RETAKE_OSCILLATOR, 48000, LONG, bank, RETAKE_BANK_LENGTH, NULL, 0};
    const retake_take take = {out, MOST, aux, MOST, kept, ROOM * RETAKE_KEPT_WORDS};
    uint64_t k;

    if (refused("read", retake_read_text(score, bright, sizeof bright - 1))) return 1;
    if (refused("render", retake_render_score(&settings, score, &take))) return 1;
    for (k = 1; k < score->count; k++) {
        retake_row row = retake_row_at(score, k);
        row.timbre = 0.9999f;
        if (refused("edit", retake_edit_row(&settings, score, &take, k, row))) return 1;
    }
    return 0;
}

/* A map that is high in its first columns alone, in every row. After high notes the path leaves it past the last row, at column 0:
 * the reading stays in that column. (In the map's last corner the sample would be 0.) Turned down, the path stays on the map. */
static int leave(retake_score *score) {
    const retake_settings settings = {RETAKE_TERRAIN_WITH_MAP, 32000, 1, bank, RETAKE_BANK_LENGTH, map, RETAKE_MAP_LENGTH};
    const retake_take take = {out, MOST, aux, MOST, kept, ROOM * RETAKE_KEPT_WORDS};
    retake_row row;
    int i;

    for (i = 0; i < RETAKE_MAP_LENGTH; i++) map[i] = i % RETAKE_MAP_EDGE < 8 ? 128 : 0;
    if (refused("read", retake_read_text(score, outward, sizeof outward - 1))) return 1;
    if (refused("render", retake_render_score(&settings, score, &take))) return 1;
    printf("last sample, past the map: %.3g\n", retake_float(out[3]));
    row = retake_row_at(score, 3);
    row.timbre = 0.67f;
    if (refused("edit", retake_edit_row(&settings, score, &take, 3, row))) return 1;
    printf("last sample, on the map:   %.3g\n", retake_float(out[3]));
    return 0;
}

int main(void) {
    const retake_settings settings = {RETAKE_WAVETABLE, 48000, FRAMES, bank, RETAKE_BANK_LENGTH, NULL, 0};
    const retake_take take = {out, SAMPLES, aux, SAMPLES, kept, ROOM * RETAKE_KEPT_WORDS};
    retake_score score = {rows, ROOM * RETAKE_ROW_WORDS, 0};
    retake_row row;
    int i;

    /* 192 ramps, louder from wave to wave. */
    for (i = 0; i < RETAKE_BANK_LENGTH; i++) {
        bank[i] = (int16_t)((i % RETAKE_WAVE_LENGTH - 66) * (i / RETAKE_WAVE_LENGTH + 1));
    }

    if (refused("read", retake_read_text(&score, text, sizeof text - 1))) return 1;
    if (refused("render", retake_render_score(&settings, &score, &take))) return 1;
    printf("last sample of row 1 before the edit: %.9g\n", retake_float(out[2 * FRAMES - 1]));

    row = retake_row_at(&score, 1);
    row.timbre = 1.0f;
    if (refused("edit", retake_edit_row(&settings, &score, &take, 1, row))) return 1;
    printf("last sample of row 1 after it:        %.9g\n", retake_float(out[2 * FRAMES - 1]));

    /* Past its limit: the call is refused, and score and take stay as they are. */
    row.timbre = 1.5f;
    if (!refused("edit", retake_edit_row(&settings, &score, &take, 1, row))) return 1;

    /* A bar before row 2, which restarts: it moves up, and only the new rows are rendered. */
    memcpy(before, out, sizeof before);
    row.timbre = 0.5f;
    for (i = 0; i < BAR; i++) {
        row.note = 60.0f + (float)i;
        if (refused("insert", retake_insert_row(&settings, &score, &take, (uint64_t)(2 + i), row))) return 1;
    }
    printf("with the bar: %" PRIu64 " rows\n", score.count);

    /* The buffers were lent with room for the bar and no more. */
    if (!refused("insert", retake_insert_row(&settings, &score, &take, 0, row))) return 1;

    /* Out again, its last row first: then nothing is rendered. */
    for (i = BAR - 1; i >= 0; i--) {
        if (refused("remove", retake_remove_row(&settings, &score, &take, (uint64_t)(2 + i)))) return 1;
    }
    if (memcmp(before, out, sizeof before) != 0) return 1;
    printf("without it: %" PRIu64 " rows, the samples as before\n", score.count);
    return hold(&score) || leave(&score);
}
