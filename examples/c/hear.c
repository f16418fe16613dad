/* Renders a phrase of 4,096 rows on the wavetable voice, 5.5 seconds, edits it, and writes what there is to hear and to see:
 *
 *     hear BANK FOLDER
 *
 * FOLDER/before.wav, after.wav and difference.wav (out left, aux right, 32-bit floats), and FOLDER/picture.svg. The edits bend the
 * morph of 96 rows, one by one; the voice's state is soon the same again, and they stop. Then one row gets a note a semitone higher:
 * the phase stays moved, and the edit goes on to the next row that restarts. A restart begins with an impulse (examples/make_bank.py). */
#include <inttypes.h>
#include <math.h>
#include <stdio.h>
#include <stdlib.h>

#include "retake.h"

enum { ROWS = 4096, FRAMES = 64, RATE = 48000, SAMPLES = ROWS * FRAMES };
enum { RESTART = 2560, BENT = 1024, BENT_ROWS = 96, MOVED = 1920 };

static int16_t bank[RETAKE_BANK_LENGTH];
static uint32_t rows[ROWS * RETAKE_ROW_WORDS], kept[ROWS * RETAKE_KEPT_WORDS];
static uint32_t out[SAMPLES], aux[SAMPLES];
static float before[2][SAMPLES], after[2][SAMPLES], difference[2][SAMPLES];
static unsigned char rendered[ROWS];

static void fail(const char *what) {
    fprintf(stderr, "hear: %s\n", what);
    exit(1);
}

/* FOLDER/NAME, open for writing. */
static FILE *create(const char *folder, const char *name) {
    char path[4096];
    FILE *file;
    if (snprintf(path, sizeof path, "%s/%s", folder, name) >= (int)sizeof path) fail("the folder's name is too long");
    file = fopen(path, "wb");
    if (file == NULL) {
        perror(path);
        exit(1);
    }
    return file;
}

static void close_written(FILE *file) {
    if (ferror(file) || fclose(file) != 0) fail("a file could not be written");
}

static void read_bank(const char *path) {
    unsigned char bytes[2 * RETAKE_BANK_LENGTH];
    FILE *file = fopen(path, "rb");
    size_t i;
    if (file == NULL || fread(bytes, 1, sizeof bytes, file) != sizeof bytes) fail("the bank's file has not 50,688 bytes");
    fclose(file);
    for (i = 0; i < RETAKE_BANK_LENGTH; i++) {
        int sample = bytes[2 * i] + 256 * bytes[2 * i + 1];
        bank[i] = (int16_t)(sample < 32768 ? sample : sample - 65536);
    }
}

/* Row k of the phrase: 16 notes, timbre and morph on slow curves, a restart at the start and at RESTART. */
static retake_row phrase(int k) {
    static const float notes[16] = {36, 48, 55, 60, 63, 60, 55, 48, 36, 44, 51, 56, 60, 56, 51, 48};
    retake_row row;
    row.note = notes[k / 256];
    row.timbre = (float)(0.3 + 0.25 * sin(k / 150.0));
    row.morph = (float)(0.4 - 0.3 * cos(k / 400.0));
    row.harmonics = 0.35f;
    row.restart = k == 0 || k == RESTART;
    return row;
}

static void fill_score(void) {
    int k;
    for (k = 0; k < ROWS; k++) {
        retake_row row = phrase(k);
        uint32_t *words = rows + k * RETAKE_ROW_WORDS;
        words[0] = retake_word(row.note);
        words[1] = retake_word(row.timbre);
        words[2] = retake_word(row.morph);
        words[3] = retake_word(row.harmonics);
        words[4] = row.restart;
    }
}

/* The rows of an accepted call; a refusal ends the program. */
static uint64_t accepted(retake_report report) {
    if (report.refusal != RETAKE_DONE) fail(retake_refusal_text(report.refusal));
    return report.rows;
}

/* One edit; its rows are marked for the picture. */
static uint64_t edit(const retake_settings *settings, const retake_score *score, const retake_take *take, int k, retake_row row) {
    uint64_t count = accepted(retake_edit_row(settings, score, take, (uint64_t)k, row));
    memset(rendered + k, 1, (size_t)count);
    return count;
}

/* ---- Sound: a RIFF WAVE file of two channels of 32-bit floats ---- */

static void put(FILE *file, uint32_t number, int bytes) {
    for (; bytes > 0; bytes--, number >>= 8) putc((int)(number & 255), file);
}

static void put_chunk(FILE *file, const char *name, uint32_t bytes) {
    fputs(name, file);
    put(file, bytes, 4);
}

static void write_wave(const char *folder, const char *name, float samples[2][SAMPLES]) {
    const uint32_t frame = 2 * sizeof(float), data = SAMPLES * frame;
    FILE *file = create(folder, name);
    int i;
    put_chunk(file, "RIFF", 50 + data);
    put_chunk(file, "WAVEfmt ", 18);
    put(file, 3, 2); /* floats */
    put(file, 2, 2); /* channels */
    put(file, RATE, 4);
    put(file, RATE * frame, 4);
    put(file, frame, 2);
    put(file, 32, 2);
    put(file, 0, 2);
    put_chunk(file, "fact", 4);
    put(file, SAMPLES, 4);
    put_chunk(file, "data", data);
    for (i = 0; i < SAMPLES; i++) {
        put(file, retake_word(samples[0][i]), 4);
        put(file, retake_word(samples[1][i]), 4);
    }
    close_written(file);
}

/* ---- Picture: out before, after, and the difference, over time and rows ---- */

enum { LEFT = 90, WIDTH = 960, TOP = 50, LANE = 110, BOTTOM = TOP + 3 * LANE };

static double across(double row) {
    return LEFT + WIDTH * row / ROWS;
}

/* A sample's height in a lane; what is above full scale is cut off there. */
static double height(double middle, float sample) {
    const double x = sample > 1 ? 1 : sample < -1 ? -1 : sample;
    return middle - x * LANE / 2.3;
}

/* A waveform: for each column of the picture a line from its least to its largest sample. */
static void draw_lane(FILE *file, const char *name, const char *colour, int lane, const float *samples) {
    const double middle = TOP + LANE * (lane + 0.5);
    int column, i;
    fprintf(file, "<text x=\"8\" y=\"%.0f\">%s</text>\n<path stroke=\"%s\" fill=\"none\" d=\"", middle + 4, name, colour);
    for (column = 0; column < WIDTH; column++) {
        const int from = (int)((int64_t)SAMPLES * column / WIDTH), to = (int)((int64_t)SAMPLES * (column + 1) / WIDTH);
        float low = samples[from], high = samples[from];
        for (i = from; i < to; i++) {
            if (samples[i] < low) low = samples[i];
            if (samples[i] > high) high = samples[i];
        }
        fprintf(file, "M%.1f %.1fV%.1f", LEFT + column + 0.5, height(middle, high), height(middle, low) + 0.5);
    }
    fputs("\"/>\n", file);
}

/* A mark under the lanes: the row or rows that were edited. */
static void draw_edited(FILE *file, int row, int end, const char *words) {
    fprintf(file, "<rect x=\"%.1f\" y=\"%d\" width=\"%.1f\" height=\"8\" fill=\"#b0402a\"/>\n", across(row), BOTTOM + 4, across(end) - across(row) + 1);
    fprintf(file, "<text x=\"%.1f\" y=\"%d\" fill=\"#b0402a\">%s</text>\n", across(row), BOTTOM + 26, words);
}

static void draw_axes(FILE *file) {
    int row, half;
    for (row = 0; row <= ROWS; row += 512) {
        fprintf(file, "<line x1=\"%.1f\" x2=\"%.1f\" y1=\"%d\" y2=\"%d\" stroke=\"#444\"/>\n", across(row), across(row), TOP - 6, TOP);
        fprintf(file, "<text x=\"%.1f\" y=\"%d\" text-anchor=\"middle\">%d</text>\n", across(row), TOP - 10, row);
    }
    fprintf(file, "<text x=\"8\" y=\"%d\">row</text>\n", TOP - 10);
    for (half = 0; half * RATE / 2 < SAMPLES; half++) {
        const double x = across(half * (RATE / 2.0) / FRAMES);
        fprintf(file, "<line x1=\"%.1f\" x2=\"%.1f\" y1=\"%d\" y2=\"%d\" stroke=\"#444\"/>\n", x, x, BOTTOM + 36, BOTTOM + 42);
        fprintf(file, "<text x=\"%.1f\" y=\"%d\" text-anchor=\"middle\">%.1f s</text>\n", x, BOTTOM + 56, half / 2.0);
    }
    fprintf(file, "<line x1=\"%d\" x2=\"%d\" y1=\"%d\" y2=\"%d\" stroke=\"#444\"/>\n", LEFT, LEFT + WIDTH, TOP, TOP);
    fprintf(file, "<line x1=\"%d\" x2=\"%d\" y1=\"%d\" y2=\"%d\" stroke=\"#444\"/>\n", LEFT, LEFT + WIDTH, BOTTOM + 36, BOTTOM + 36);
    fprintf(file, "<text x=\"8\" y=\"%d\">time</text>\n", BOTTOM + 56);
}

static void draw_rendered(FILE *file) {
    int row = 0;
    while (row < ROWS) {
        int end = row;
        while (end < ROWS && rendered[end]) end++;
        if (end > row) {
            fprintf(file, "<rect x=\"%.1f\" y=\"%d\" width=\"%.1f\" height=\"%d\" fill=\"#fde3b0\"/>\n", across(row), TOP, across(end) - across(row), BOTTOM - TOP);
        }
        row = end + 1;
    }
}

static void draw(const char *folder) {
    FILE *file = create(folder, "picture.svg");
    fprintf(file, "<svg xmlns=\"http://www.w3.org/2000/svg\" viewBox=\"0 0 %d %d\" font-family=\"sans-serif\" font-size=\"12\">\n", LEFT + WIDTH + 40, BOTTOM + 96);
    fputs("<rect width=\"100%\" height=\"100%\" fill=\"white\"/>\n", file);
    fprintf(file, "<text x=\"%d\" y=\"20\" font-size=\"14\">A phrase of 4,096 rows of 64 frames before and after its edits</text>\n", LEFT);
    draw_rendered(file);
    fprintf(file, "<line x1=\"%.1f\" x2=\"%.1f\" y1=\"%d\" y2=\"%d\" stroke=\"#888\" stroke-dasharray=\"3 3\"/>\n", across(RESTART), across(RESTART), TOP, BOTTOM);
    draw_lane(file, "before", "#5b7083", 0, before[0]);
    draw_lane(file, "after", "#2a7ab0", 1, after[0]);
    draw_lane(file, "difference", "#b0402a", 2, difference[0]);
    draw_edited(file, BENT, BENT + BENT_ROWS, "96 rows: morph");
    draw_edited(file, MOVED, MOVED + 1, "1 row: note");
    draw_axes(file);
    fprintf(file, "<text x=\"%d\" y=\"%d\" fill=\"#666\">red: edited rows; shaded: rows that the edits rendered, outside them not a word was"
                  " written; dashed: a row that restarts; a lane ends at full scale</text>\n", LEFT, BOTTOM + 82);
    fputs("</svg>\n", file);
    close_written(file);
}

int main(int count, char **words) {
    const retake_settings settings = {RETAKE_WAVETABLE, RATE, FRAMES, bank, RETAKE_BANK_LENGTH, NULL, 0};
    const retake_take take = {out, SAMPLES, aux, SAMPLES, kept, ROWS * RETAKE_KEPT_WORDS};
    const retake_score score = {rows, ROWS * RETAKE_ROW_WORDS, ROWS};
    uint64_t bent = 0, moved;
    retake_row row;
    int i;

    if (count != 3) fail("usage: hear BANK FOLDER");
    read_bank(words[1]);
    fill_score();
    printf("rendered: %" PRIu64 " rows\n", accepted(retake_render_score(&settings, &score, &take)));
    retake_floats(before[0], out, SAMPLES);
    retake_floats(before[1], aux, SAMPLES);

    for (i = 0; i < BENT_ROWS; i++) {
        row = retake_row_at(&score, (uint64_t)(BENT + i));
        row.morph += (float)(0.3 * sin(3.14159 * i / BENT_ROWS));
        bent += edit(&settings, &score, &take, BENT + i, row);
    }
    row = retake_row_at(&score, MOVED);
    row.note += 1.0f;
    moved = edit(&settings, &score, &take, MOVED, row);
    printf("%d edits of a morph, rows %d to %d: %" PRIu64 " rows rendered in all\n", BENT_ROWS, BENT, BENT + BENT_ROWS - 1, bent);
    printf("1 edit of a note, row %d: %" PRIu64 " rows rendered, up to the restart in row %d\n", MOVED, moved, RESTART);

    retake_floats(after[0], out, SAMPLES);
    retake_floats(after[1], aux, SAMPLES);
    for (i = 0; i < SAMPLES; i++) {
        difference[0][i] = after[0][i] - before[0][i];
        difference[1][i] = after[1][i] - before[1][i];
    }
    write_wave(words[2], "before.wav", before);
    write_wave(words[2], "after.wav", after);
    write_wave(words[2], "difference.wav", difference);
    draw(words[2]);
    return 0;
}
