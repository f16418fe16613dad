/* Automation scores over the Plaits wavetable voices, with single-row retakes.
 *
 * SPDX-License-Identifier: MIT
 * Copyright (c) 2026 Wohketa (LICENSE). The voices are ported from mi-plaits-dsp-rs, Copyright (c) 2022
 * Oliver Rockstedt, under the same licence (NOTICE); a program that links the library ships both.
 *
 * Link with target/staticlib/libretake_c.a, which `examples/build retake_c` writes (x86-64 Linux).
 *
 * Words and rows
 *
 * A word is 32 bits. A float's word is its binary32 pattern; any NaN is written as 7fc00000.
 * A row is five words, with these limits:
 *     note        a float from 0 to 120
 *     timbre      a float from 0 to 1
 *     morph       a float from 0 to 1
 *     harmonics   a float from 0 to 1
 *     restart     the whole number 0 or 1: 1 starts the voice afresh
 * A score is 1 to 4,096 rows. Each row plays one block of `frames` frames.
 *
 * A take is what a score plays: `out` and `aux`, rows times frames words each, and `kept`, 13 words
 * for each row, the voice's state after it.
 *
 * Score and take stand at the start of the lent buffers, which may be longer; a row count goes beside
 * them. A call looks at nothing past its score and changes nothing past the score that it leaves.
 *
 * Instruments
 *
 *     0 wavetable          the wavetable voice
 *     1 terrain            the wave terrain voice
 *     2 terrain with map   the same, with the lent map as its last terrain
 *     3 oscillator         the plain oscillator: timbre goes along the first 64 waves of the bank, morph
 *                          and harmonics keep their limits and change nothing, and aux is 0
 *
 * Two ways to call
 *
 * The library has six functions: retake_read_score, retake_write_score, retake_render, retake_edit,
 * retake_insert, retake_remove. Below them stand inline functions over structs (settings, score, take,
 * row, report), which call the same six: retake_read_text, retake_write_text, retake_render_score,
 * retake_edit_row, retake_insert_row, retake_remove_row. Both may be mixed.
 *
 * What is lent
 *
 * Every buffer is the caller's, and each length counts elements, not bytes. No two buffers of a call
 * may overlap, and `first`, `second` and `counts` (five numbers) are places of their own. The functions
 * keep nothing between calls, allocate nothing, take about 11 KiB of stack and always end; calls that get
 * different buffers may run at the same time.
 *
 * For rows to be put in, lend more than the score needs: a score that may grow to n rows wants n times
 * 5 row words, n times `frames` of out and of aux, and n times 13 of kept. With n = RETAKE_MOST_ROWS
 * no insertion is refused for want of room.
 *
 * A pointer whose length is 0 may be NULL: nothing is read or written through it, and the answer is
 * that of any buffer of length 0. With another length a pointer must not be NULL and has that many
 * elements, aligned as their type asks. `first`, `second` and `counts` must not be NULL.
 *
 * Samples are lent as words. What C allows: lend an array of uint32_t and read its samples by
 * retake_float or retake_floats (memcpy; no code is left of it), or lend the words of a
 * union { uint32_t words[N]; float samples[N]; } and read its samples (in C, not in C++).
 * A float array lent through a cast, (uint32_t *)samples, or a word read through (float *)&out[i],
 * breaks C's aliasing rules.
 *
 * Answers
 *
 * Each function returns 0 (RETAKE_DONE), or the number of its refusal. `first`, `second` and the five
 * `counts` are results: each call writes those that it has.
 *
 *                          success                               refusal
 *                          *first           *second              *first      *second
 *     retake_read_score    row count        0                    place       0
 *     retake_write_score   byte count       0                    place       0
 *     retake_render        rows rendered    held in these rows   place       0
 *     retake_edit          rows rendered    held in these rows   place       0
 *     retake_insert        rows rendered    held in these rows   place       0
 *     retake_remove        rows rendered    held in these rows   place       0
 *
 * `held` counts how often a position was held at its top. `counts` says of which kind, over the same rows;
 * on a refusal, and where nothing is rendered, it is five zeros.
 *
 *     counts[0] phase           wavetable, oscillator: frames that hold the phase
 *     counts[1] wave position   wavetable: frames that hold x (by timbre), y (by morph) or both;
 *                               oscillator: frames that hold its waveform (by timbre)
 *     counts[2] level           wavetable: frames that hold z (by harmonics)
 *     counts[3] map             terrain with map: readings of the map that are held
 *     counts[4] bank            terrain, with map or without: readings of the bank that are held
 *
 * A frame of the wavetable voice or the oscillator counts once in each kind that it holds and once in
 * `held`, so that no kind is above `held`, nor `held` above their sum. On the terrain voice `held` is the
 * sum, and a held reading has x and y held apart: at most column 62 and row 62 of the map, at most wave 62
 * and sample 128 of the 64 waves of the bank that it reads. docs/GUIDE.md says what to turn down for each kind.
 *
 * A refused call changes no lent buffer.
 *
 *     number         when                                                     place
 *      1 instrument  above 3                                                  0
 *      2 rate        outside 32,000 to 192,000 Hz                             0
 *      3 block       frames 0 or above 128                                    0
 *      4 bank        length not 25,344                                        0
 *      5 map         length not 4,096 for instrument 2, not 0 for the others  0
 *      6 rows        row count 0 or above 4,096, before the call or after it; 0
 *                    row words fewer than 5 times it (not in the reader)
 *      7 take        out or aux shorter than count times frames, or kept      0
 *                    than 13 times the count
 *      8 position    not below the row count; in an insertion, above it       the position
 *      9 limit       a word outside its name's limit, in the score as the     the first bad row of
 *                    call would leave it                                      that score
 *     10 names       first line not the five names, or no LF ends it          0
 *     11 value       a line not five words                                    that line, from 0
 *     12 space       reader: lent row words fewer than 5 times the rows       0
 *     13 full        insertion: rows, out, aux or kept has no room for one    0
 *                    row more
 *     14 paper       writer: lent text shorter than the score needs           0
 *
 * They are tested upward, but 13 after 8 and before 9; the writer tests 6, 9 and 14; the reader tests
 * 10, then line after line 11 before 9, then 6, then 12.
 */
#ifndef RETAKE_H
#define RETAKE_H

#include <float.h>
#include <stddef.h>
#include <stdint.h>
#include <string.h>

#if FLT_RADIX != 2 || FLT_MANT_DIG != 24 || FLT_MAX_EXP != 128
#error "retake.h: float is not binary32 here"
#endif

#ifdef __cplusplus
extern "C" {
#endif

/* The version of this header and of the archive that is built beside it. A number is added to an enum,
 * a member to the end of a struct or a function in a minor version; anything else, such as other
 * samples for the same score, moves the major one, or, while that is 0, the minor one.
 *
 * 0.6.0 plays other samples where a reading of map or bank is held (counts[3], counts[4]), and none
 * elsewhere. Kept words, counts and stops are as in 0.5.0, so no call notices a take of an earlier version:
 * if its score holds map or bank, render it whole before it is edited. */
#define RETAKE_VERSION_MAJOR 0
#define RETAKE_VERSION_MINOR 6
#define RETAKE_VERSION_PATCH 0
#define RETAKE_VERSION "0.6.0"

#define RETAKE_ROW_WORDS 5        /* words of a row */
#define RETAKE_KEPT_WORDS 13      /* words kept after each row */
#define RETAKE_KINDS 5            /* kinds of holds that are counted */
#define RETAKE_MOST_ROWS 4096     /* rows of the longest score */
#define RETAKE_MOST_FRAMES 128    /* frames of the longest block */
#define RETAKE_LOWEST_RATE 32000  /* Hz */
#define RETAKE_HIGHEST_RATE 192000
#define RETAKE_WAVES 192          /* waves of a bank */
#define RETAKE_WAVE_LENGTH 132    /* samples of a wave: a period of 128, and its first four again */
#define RETAKE_BANK_LENGTH 25344  /* samples of a bank: 192 times 132 */
#define RETAKE_MAP_EDGE 64        /* rows of a map, and bytes of each */
#define RETAKE_MAP_LENGTH 4096    /* bytes of a map: 64 times 64 */
#define RETAKE_NAMES_LENGTH 36    /* bytes of a text's line of names */
#define RETAKE_LINE_LENGTH 45     /* bytes of each line after it */

/* Bytes of the text of a score of `count` rows, as a size_t. */
#define RETAKE_TEXT_LENGTH(count) (RETAKE_NAMES_LENGTH + RETAKE_LINE_LENGTH * (size_t)(count))

enum retake_instrument {
    RETAKE_WAVETABLE = 0,
    RETAKE_TERRAIN = 1,
    RETAKE_TERRAIN_WITH_MAP = 2,
    RETAKE_OSCILLATOR = 3
};

enum retake_refusal {
    RETAKE_DONE = 0, /* no refusal */
    RETAKE_REFUSED_INSTRUMENT = 1,
    RETAKE_REFUSED_RATE = 2,
    RETAKE_REFUSED_BLOCK = 3,
    RETAKE_REFUSED_BANK = 4,
    RETAKE_REFUSED_MAP = 5,
    RETAKE_REFUSED_ROWS = 6,
    RETAKE_REFUSED_TAKE = 7,
    RETAKE_REFUSED_POSITION = 8,
    RETAKE_REFUSED_LIMIT = 9,
    RETAKE_REFUSED_NAMES = 10,
    RETAKE_REFUSED_VALUE = 11,
    RETAKE_REFUSED_SPACE = 12,
    RETAKE_REFUSED_FULL = 13,
    RETAKE_REFUSED_PAPER = 14
};

/* The words of a refusal's number; a text for every number there is. */
static inline const char *retake_refusal_text(uint32_t number) {
    switch (number) {
    case RETAKE_DONE: return "done";
    case RETAKE_REFUSED_INSTRUMENT: return "no such instrument";
    case RETAKE_REFUSED_RATE: return "the rate is not from 32,000 to 192,000 Hz";
    case RETAKE_REFUSED_BLOCK: return "the frame count is not from 1 to 128";
    case RETAKE_REFUSED_BANK: return "the bank has not 25,344 samples";
    case RETAKE_REFUSED_MAP: return "the map has not the length that the instrument wants";
    case RETAKE_REFUSED_ROWS: return "not 1 to 4,096 rows before and after the call, or too few row words";
    case RETAKE_REFUSED_TAKE: return "out, aux or kept is shorter than the score needs";
    case RETAKE_REFUSED_POSITION: return "the position is past the score's end";
    case RETAKE_REFUSED_LIMIT: return "a word is outside its name's limit";
    case RETAKE_REFUSED_NAMES: return "the first line is not the five names, each once";
    case RETAKE_REFUSED_VALUE: return "a line is not five words of eight hexadecimal digits";
    case RETAKE_REFUSED_SPACE: return "the lent row words are fewer than the score needs";
    case RETAKE_REFUSED_FULL: return "rows, out, aux or kept has no room for one row more";
    case RETAKE_REFUSED_PAPER: return "the lent text is shorter than the score needs";
    default: return "a refusal that this header does not know";
    }
}

/* ---- The library's functions ---- */

/* Reads a score's text: a line of the five names in any order, then a line of five words, eight
 * hexadecimal digits each, for each row; one space between, LF after every line. The words are
 * stored in row order whatever the order of the columns; words past the score keep what they had.
 *
 * Success: *first is the row count, *second 0. Refusals: 10; then line after line 11 before 9; 6; 12. */
uint32_t retake_read_score(const uint8_t *text, size_t text_len,
                           uint32_t *rows, size_t rows_len,
                           uint64_t *first, uint64_t *second);

/* Writes a score of `count` rows as its tidy text: a line of the five names in row order, then a line of
 * five words, eight lower-case hexadecimal digits each, for each row; one space between, LF after every
 * line, and no NUL behind the last. That is RETAKE_TEXT_LENGTH(count) bytes; bytes past them keep what
 * they had. Reading the text gives the same words. Two texts that are read and then written become equal
 * bytes exactly where their rows are equal; a text that was tidy stays as it is.
 *
 * Success: *first is the byte count, *second 0. Refusals: 6, 9, 14. */
uint32_t retake_write_score(const uint32_t *rows, size_t rows_len,
                            uint64_t count,
                            uint8_t *text, size_t text_len,
                            uint64_t *first, uint64_t *second);

/* Renders a score of `count` rows into a take. `bank` is 25,344 samples, 192 waves of 132. `map` is
 * 4,096 bytes, 64 rows of 64, for instrument 2; for the others its length is 0.
 *
 * Success: *first is the number of rows rendered, *second how often a position was held at its top,
 * `counts` of which kind. Refusals: 1 to 7, then 9. */
uint32_t retake_render(uint32_t instrument, uint32_t rate, uint32_t frames,
                       const int16_t *bank, size_t bank_len,
                       const uint8_t *map, size_t map_len,
                       const uint32_t *rows, size_t rows_len,
                       uint64_t count,
                       uint32_t *out, size_t out_len,
                       uint32_t *aux, size_t aux_len,
                       uint32_t *kept, size_t kept_len,
                       uint64_t *first, uint64_t *second, uint64_t *counts);

/* Puts five words into row `position` of the score and renders the rows that depend on them: from
 * that row to just before the next row that restarts, or whose state before it stays the same, or to
 * the end. Equal words render nothing. Rows and take are handed over as the call before left them,
 * with the same instrument, rate, frames, bank and map, and by the same version (RETAKE_VERSION); the take
 * is then that of a fresh rendering.
 *
 * Success: *first is the number of rows rendered, *second how often a position was held in them, `counts`
 * of which kind. Refusals: 1 to 9; 9 looks at the score with the new row put in. */
uint32_t retake_edit(uint32_t instrument, uint32_t rate, uint32_t frames,
                     const int16_t *bank, size_t bank_len,
                     const uint8_t *map, size_t map_len,
                     uint32_t *rows, size_t rows_len,
                     uint64_t count, uint64_t position,
                     uint32_t note, uint32_t timbre, uint32_t morph, uint32_t harmonics, uint32_t restart,
                     uint32_t *out, size_t out_len,
                     uint32_t *aux, size_t aux_len,
                     uint32_t *kept, size_t kept_len,
                     uint64_t *first, uint64_t *second, uint64_t *counts);

/* Puts a row in at `position` of the score, or behind its last row where `position` is `count`. The rows
 * from there on move up by one place, with their blocks and kept words; each buffer wants room for that.
 * The score then has `count` + 1 rows: the next call is handed that number. Rendered are the new row and
 * those after it, to just before the next row that restarts, or whose state before it is the one that it
 * had where it came from (before row 0 the fresh one), or to the end. Rows and take are handed over as
 * for an edit, and the take is then that of a fresh rendering.
 *
 * Success: *first is the number of rows rendered, at least 1, *second how often a position was held in
 * them, `counts` of which kind. Refusals: 1 to 8, 13, 9; a count of 4,096 gives 6, and 9 looks at the score
 * with the row put in. */
uint32_t retake_insert(uint32_t instrument, uint32_t rate, uint32_t frames,
                       const int16_t *bank, size_t bank_len,
                       const uint8_t *map, size_t map_len,
                       uint32_t *rows, size_t rows_len,
                       uint64_t count, uint64_t position,
                       uint32_t note, uint32_t timbre, uint32_t morph, uint32_t harmonics, uint32_t restart,
                       uint32_t *out, size_t out_len,
                       uint32_t *aux, size_t aux_len,
                       uint32_t *kept, size_t kept_len,
                       uint64_t *first, uint64_t *second, uint64_t *counts);

/* Takes row `position` out of the score. The rows after it move down by one place, with their blocks and
 * kept words; the last old place keeps its words. The score then has `count` - 1 rows: the next call is
 * handed that number. Rendered are the row now at `position` and those after it, with the same stops as
 * in an insertion, at `position` too. Rows and take are handed over as for an edit, and the take is then
 * that of a fresh rendering.
 *
 * Success: *first is the number of rows rendered, perhaps 0, *second how often a position was held in
 * them, `counts` of which kind. Refusals: 1 to 9; a count of 1 gives 6, and 9 looks at the score without
 * the row. */
uint32_t retake_remove(uint32_t instrument, uint32_t rate, uint32_t frames,
                       const int16_t *bank, size_t bank_len,
                       const uint8_t *map, size_t map_len,
                       uint32_t *rows, size_t rows_len,
                       uint64_t count, uint64_t position,
                       uint32_t *out, size_t out_len,
                       uint32_t *aux, size_t aux_len,
                       uint32_t *kept, size_t kept_len,
                       uint64_t *first, uint64_t *second, uint64_t *counts);

/* ---- Words and floats ---- */

/* The word of a float. */
static inline uint32_t retake_word(float x) {
    uint32_t word;
    memcpy(&word, &x, sizeof word);
    return word;
}

/* The float of a word. */
static inline float retake_float(uint32_t word) {
    float x;
    memcpy(&x, &word, sizeof x);
    return x;
}

/* The samples of `count` words, as floats. */
static inline void retake_floats(float *samples, const uint32_t *words, size_t count) {
    if (count > 0) memcpy(samples, words, count * sizeof *words);
}

/* ---- The same calls over structs ---- */

/* What stays the same from call to call of one take. No map: NULL and 0. */
typedef struct retake_settings {
    uint32_t instrument; /* an enum retake_instrument */
    uint32_t rate;       /* Hz */
    uint32_t frames;     /* of each row's block */
    const int16_t *bank;
    size_t bank_len;
    const uint8_t *map;
    size_t map_len;
} retake_settings;

/* A score: its rows stand in the first 5 times `count` of `rows_len` lent words. */
typedef struct retake_score {
    uint32_t *rows;
    size_t rows_len;
    uint64_t count;
} retake_score;

/* A take; each buffer may be longer than the score needs, and what lies past it stays. */
typedef struct retake_take {
    uint32_t *out;
    size_t out_len;
    uint32_t *aux;
    size_t aux_len;
    uint32_t *kept;
    size_t kept_len;
} retake_take;

/* One row, as floats. */
typedef struct retake_row {
    float note;
    float timbre;
    float morph;
    float harmonics;
    uint32_t restart;
} retake_row;

/* How often each kind of position was held. */
typedef struct retake_counts {
    uint64_t phase;         /* frames that held the phase */
    uint64_t wave_position; /* frames that held x, y or both; on the oscillator its waveform */
    uint64_t level;         /* frames that held z */
    uint64_t map;           /* readings of the map that were held */
    uint64_t bank;          /* readings of the bank by the terrain voice that were held */
} retake_counts;

/* A call's answer. */
typedef struct retake_report {
    uint32_t refusal;     /* an enum retake_refusal; RETAKE_DONE where the call was accepted */
    uint64_t place;       /* of the refusal, else 0 */
    uint64_t rows;        /* rows rendered; retake_read_text: rows read; 0 in retake_write_text and on a refusal */
    uint64_t held;        /* how often a position was held in them; 0 on a refusal */
    uint64_t bytes;       /* retake_write_text: bytes written; 0 in the others and on a refusal */
    retake_counts counts; /* the same as held, by kind; zeros where held is 0 */
} retake_report;

/* The counts that a function wrote. */
static inline retake_counts retake_counts_of(const uint64_t *numbers) {
    retake_counts counts;
    counts.phase = numbers[0];
    counts.wave_position = numbers[1];
    counts.level = numbers[2];
    counts.map = numbers[3];
    counts.bank = numbers[4];
    return counts;
}

/* The report of what a function without counts returned and wrote; on success `first` counts rows. */
static inline retake_report retake_report_of(uint32_t number, uint64_t first, uint64_t second) {
    retake_report report;
    report.refusal = number;
    report.place = number == RETAKE_DONE ? 0 : first;
    report.rows = number == RETAKE_DONE ? first : 0;
    report.held = number == RETAKE_DONE ? second : 0;
    report.bytes = 0;
    memset(&report.counts, 0, sizeof report.counts);
    return report;
}

/* The same of a function with counts. */
static inline retake_report retake_report_with(uint32_t number, uint64_t first, uint64_t second,
                                               const uint64_t *counts) {
    retake_report report = retake_report_of(number, first, second);
    report.counts = retake_counts_of(counts);
    return report;
}

/* Row `position`, which must be below the score's count. */
static inline retake_row retake_row_at(const retake_score *score, uint64_t position) {
    const uint32_t *words = score->rows + (size_t)position * RETAKE_ROW_WORDS;
    retake_row row;
    row.note = retake_float(words[0]);
    row.timbre = retake_float(words[1]);
    row.morph = retake_float(words[2]);
    row.harmonics = retake_float(words[3]);
    row.restart = words[4];
    return row;
}

/* Reads a score's text into the lent row words; on success the score's count is set. Refusals: as
 * retake_read_score. */
static inline retake_report retake_read_text(retake_score *score, const char *text, size_t text_len) {
    uint64_t first, second;
    uint32_t number = retake_read_score((const uint8_t *)text, text_len, score->rows, score->rows_len, &first, &second);
    if (number == RETAKE_DONE) score->count = first;
    return retake_report_of(number, first, second);
}

/* Writes the score as its tidy text into the lent bytes. Refusals: as retake_write_score. */
static inline retake_report retake_write_text(const retake_score *score, char *text, size_t text_len) {
    uint64_t first, second;
    uint32_t number = retake_write_score(score->rows, score->rows_len, score->count, (uint8_t *)text, text_len,
                                         &first, &second);
    retake_report report = retake_report_of(number, first, second);
    report.bytes = report.rows;
    report.rows = 0;
    return report;
}

/* Renders the whole score into the take. Refusals: as retake_render. */
static inline retake_report retake_render_score(const retake_settings *settings, const retake_score *score,
                                                const retake_take *take) {
    uint64_t first, second, counts[RETAKE_KINDS];
    uint32_t number = retake_render(settings->instrument, settings->rate, settings->frames,
                                    settings->bank, settings->bank_len, settings->map, settings->map_len,
                                    score->rows, score->rows_len, score->count,
                                    take->out, take->out_len, take->aux, take->aux_len, take->kept, take->kept_len,
                                    &first, &second, counts);
    return retake_report_with(number, first, second, counts);
}

/* Puts other words into a row and renders what depends on them. Settings, score and take are those of
 * the rendering, as the call before left them. Refusals: as retake_edit. */
static inline retake_report retake_edit_row(const retake_settings *settings, const retake_score *score,
                                            const retake_take *take, uint64_t position, retake_row row) {
    uint64_t first, second, counts[RETAKE_KINDS];
    uint32_t number = retake_edit(settings->instrument, settings->rate, settings->frames,
                                  settings->bank, settings->bank_len, settings->map, settings->map_len,
                                  score->rows, score->rows_len, score->count, position,
                                  retake_word(row.note), retake_word(row.timbre), retake_word(row.morph),
                                  retake_word(row.harmonics), row.restart,
                                  take->out, take->out_len, take->aux, take->aux_len, take->kept, take->kept_len,
                                  &first, &second, counts);
    return retake_report_with(number, first, second, counts);
}

/* Puts a row in at a position and renders what depends on it; on success the score's count is one more.
 * Settings, score and take as for retake_edit_row. Refusals: as retake_insert. */
static inline retake_report retake_insert_row(const retake_settings *settings, retake_score *score,
                                              const retake_take *take, uint64_t position, retake_row row) {
    uint64_t first, second, counts[RETAKE_KINDS];
    uint32_t number = retake_insert(settings->instrument, settings->rate, settings->frames,
                                    settings->bank, settings->bank_len, settings->map, settings->map_len,
                                    score->rows, score->rows_len, score->count, position,
                                    retake_word(row.note), retake_word(row.timbre), retake_word(row.morph),
                                    retake_word(row.harmonics), row.restart,
                                    take->out, take->out_len, take->aux, take->aux_len, take->kept, take->kept_len,
                                    &first, &second, counts);
    if (number == RETAKE_DONE) score->count++;
    return retake_report_with(number, first, second, counts);
}

/* Takes a row out and renders what depends on that; on success the score's count is one less. Settings,
 * score and take as for retake_edit_row. Refusals: as retake_remove. */
static inline retake_report retake_remove_row(const retake_settings *settings, retake_score *score,
                                              const retake_take *take, uint64_t position) {
    uint64_t first, second, counts[RETAKE_KINDS];
    uint32_t number = retake_remove(settings->instrument, settings->rate, settings->frames,
                                    settings->bank, settings->bank_len, settings->map, settings->map_len,
                                    score->rows, score->rows_len, score->count, position,
                                    take->out, take->out_len, take->aux, take->aux_len, take->kept, take->kept_len,
                                    &first, &second, counts);
    if (number == RETAKE_DONE) score->count--;
    return retake_report_with(number, first, second, counts);
}

#ifdef __cplusplus
}
#endif

#endif
