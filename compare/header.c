/* Tries include/retake.h: NULL with length 0, every refusal through the structs, buffers longer than the score needs, rows put in
 * and taken out, each kind of hold, texts written.
 * `compare/run crate` builds it as C99, C11 and C++ with the address and undefined behaviour sanitizers. */
#include <stdio.h>
#include <stdlib.h>

#include "retake.h"

enum { ROWS = 3, FRAMES = 4, ROOM = 5, SAMPLES = ROOM * FRAMES, JUNK = 0x5a5a5a5a };

#define CHECK(fact) \
    do { \
        if (!(fact)) { \
            fprintf(stderr, "%s:%d: not so: %s\n", __FILE__, __LINE__, #fact); \
            exit(1); \
        } \
    } while (0)

static int16_t bank[RETAKE_BANK_LENGTH + 1];
static uint8_t map[RETAKE_MAP_LENGTH];
static uint32_t rows[ROOM * RETAKE_ROW_WORDS], out[SAMPLES], aux[SAMPLES], kept[ROOM * RETAKE_KEPT_WORDS];
static uint32_t fresh_out[SAMPLES], fresh_aux[SAMPLES], fresh_kept[ROOM * RETAKE_KEPT_WORDS];
static uint32_t many[(RETAKE_MOST_ROWS + 1) * RETAKE_ROW_WORDS];
static char written[RETAKE_TEXT_LENGTH(RETAKE_MOST_ROWS) + 1];

static const char text[] =
    "note timbre morph harmonics restart\n"
    "42700000 00000000 00000000 00000000 00000001\n"
    "42700000 3f000000 00000000 00000000 00000000\n"
    "42700000 3f000000 00000000 00000000 00000000\n";

/* The same rows: other columns, and other letters. */
static const char shuffled[] =
    "restart timbre harmonics note morph\n"
    "00000001 00000000 00000000 42700000 00000000\n"
    "00000000 3F000000 00000000 42700000 00000000\n"
    "00000000 3F000000 00000000 42700000 00000000\n";

static void fill(uint32_t *words, size_t length) {
    size_t i;
    for (i = 0; i < length; i++) words[i] = JUNK;
}

static int filled(const uint32_t *words, size_t from, size_t to) {
    size_t i;
    for (i = from; i < to; i++) {
        if (words[i] != JUNK) return 0;
    }
    return 1;
}

static int same_counts(retake_counts counts, const uint64_t *numbers) {
    return counts.phase == numbers[0] && counts.wave_position == numbers[1] && counts.level == numbers[2]
        && counts.map == numbers[3] && counts.bank == numbers[4];
}

static const uint64_t zeros[RETAKE_KINDS] = {0, 0, 0, 0, 0};

static int nothing_held(retake_report report) {
    return report.held == 0 && same_counts(report.counts, zeros);
}

static int refused(retake_report report, uint32_t number, uint64_t place) {
    return report.refusal == number && report.place == place && report.rows == 0 && report.bytes == 0 && nothing_held(report);
}

static int done(retake_report report, uint64_t rendered) {
    return report.refusal == RETAKE_DONE && report.place == 0 && report.rows == rendered && report.bytes == 0;
}

static retake_settings settings_of(uint32_t instrument) {
    retake_settings settings = {0, 48000, FRAMES, bank, RETAKE_BANK_LENGTH, NULL, 0};
    settings.instrument = instrument;
    if (instrument == RETAKE_TERRAIN_WITH_MAP) {
        settings.map = map;
        settings.map_len = RETAKE_MAP_LENGTH;
    }
    return settings;
}

static retake_score score_of(size_t length) {
    retake_score score = {rows, 0, 0};
    score.rows_len = length;
    return score;
}

static retake_take take_of(void) {
    retake_take take = {out, SAMPLES, aux, SAMPLES, kept, ROOM * RETAKE_KEPT_WORDS};
    return take;
}

/* A row with other words than the text's in each column. */
static retake_row other_row(void) {
    retake_row row = {72.0f, 0.75f, 0.25f, 0.125f, 1};
    return row;
}

/* The library's functions with NULL and 0 for one buffer after another. */
static void nulls(void) {
    uint64_t first = 7, second = 7, counts[RETAKE_KINDS] = {7, 7, 7, 7, 7};
    CHECK(retake_read_score(NULL, 0, rows, 25, &first, &second) == RETAKE_REFUSED_NAMES && first == 0 && second == 0);
    CHECK(retake_read_score((const uint8_t *)text, sizeof text - 1, NULL, 0, &first, &second) == RETAKE_REFUSED_SPACE);
    CHECK(retake_read_score((const uint8_t *)text, sizeof text - 1, rows, 25, &first, &second) == RETAKE_DONE && first == 3);
    CHECK(retake_write_score(NULL, 0, 3, (uint8_t *)written, 171, &first, &second) == RETAKE_REFUSED_ROWS && first == 0 && second == 0);
    CHECK(retake_write_score(rows, 15, 3, NULL, 0, &first, &second) == RETAKE_REFUSED_PAPER && first == 0 && second == 0);
    CHECK(retake_write_score(rows, 15, 3, (uint8_t *)written, 171, &first, &second) == RETAKE_DONE && first == 171 && second == 0);
    CHECK(retake_render(0, 48000, 4, NULL, 0, NULL, 0, rows, 15, 3, out, 12, aux, 12, kept, 39, &first, &second, counts) == RETAKE_REFUSED_BANK);
    CHECK(retake_render(2, 48000, 4, bank, 25344, NULL, 0, rows, 15, 3, out, 12, aux, 12, kept, 39, &first, &second, counts) == RETAKE_REFUSED_MAP);
    CHECK(retake_render(0, 48000, 4, bank, 25344, NULL, 0, NULL, 0, 3, out, 12, aux, 12, kept, 39, &first, &second, counts) == RETAKE_REFUSED_ROWS);
    CHECK(retake_render(0, 48000, 4, bank, 25344, NULL, 0, rows, 15, 3, NULL, 0, aux, 12, kept, 39, &first, &second, counts) == RETAKE_REFUSED_TAKE);
    CHECK(retake_render(0, 48000, 4, bank, 25344, NULL, 0, rows, 15, 3, out, 12, NULL, 0, kept, 39, &first, &second, counts) == RETAKE_REFUSED_TAKE);
    CHECK(retake_render(0, 48000, 4, bank, 25344, NULL, 0, rows, 15, 3, out, 12, aux, 12, NULL, 0, &first, &second, counts) == RETAKE_REFUSED_TAKE);
    CHECK(retake_render(3, 48000, 4, bank, 25344, map, 4096, rows, 15, 3, out, 12, aux, 12, kept, 39, &first, &second, counts) == RETAKE_REFUSED_MAP);
    CHECK(retake_render(3, 0, 0, NULL, 0, NULL, 0, NULL, 0, 0, NULL, 0, NULL, 0, NULL, 0, &first, &second, counts) == RETAKE_REFUSED_RATE);
    CHECK(retake_render(4, 0, 0, NULL, 0, NULL, 0, NULL, 0, 0, NULL, 0, NULL, 0, NULL, 0, &first, &second, counts) == RETAKE_REFUSED_INSTRUMENT);
    CHECK(retake_render(0, 48000, 4, bank, 25344, NULL, 0, rows, 15, 3, out, 12, aux, 12, kept, 39, &first, &second, counts) == RETAKE_DONE && first == 3);
    CHECK(retake_edit(0, 48000, 4, bank, 25344, NULL, 0, NULL, 0, 3, 0, 0, 0, 0, 0, 0, out, 12, aux, 12, kept, 39, &first, &second, counts) == RETAKE_REFUSED_ROWS);
    CHECK(retake_edit(1, 48000, 4, bank, 25344, NULL, 0, rows, 15, 3, 0, 0, 0, 0, 0, 0, NULL, 0, NULL, 0, NULL, 0, &first, &second, counts) == RETAKE_REFUSED_TAKE);
    CHECK(retake_insert(1, 48000, 4, bank, 25344, NULL, 0, NULL, 0, 3, 0, 0, 0, 0, 0, 0, out, 12, aux, 12, kept, 39, &first, &second, counts) == RETAKE_REFUSED_ROWS);
    CHECK(retake_insert(3, 48000, 4, bank, 25344, NULL, 0, rows, 15, 3, 0, 0, 0, 0, 0, 0, NULL, 0, NULL, 0, NULL, 0, &first, &second, counts) == RETAKE_REFUSED_TAKE);
    CHECK(retake_insert(3, 48000, 4, bank, 25344, NULL, 0, rows, 15, 3, 0, 0, 0, 0, 0, 0, out, 12, aux, 12, kept, 39, &first, &second, counts) == RETAKE_REFUSED_FULL);
    CHECK(retake_remove(0, 48000, 4, bank, 25344, NULL, 0, NULL, 0, 3, 0, out, 12, aux, 12, kept, 39, &first, &second, counts) == RETAKE_REFUSED_ROWS);
    CHECK(retake_remove(1, 48000, 4, bank, 25344, NULL, 0, rows, 15, 3, 0, NULL, 0, NULL, 0, NULL, 0, &first, &second, counts) == RETAKE_REFUSED_TAKE);
    CHECK(first == 0 && second == 0 && memcmp(counts, zeros, sizeof counts) == 0);
    retake_floats(NULL, NULL, 0);
}

/* Is the take that of a fresh rendering, made in buffers of just its length? */
static int as_fresh(const retake_settings *s, const retake_score *score) {
    const size_t count = (size_t)score->count, samples = count * FRAMES, states = count * RETAKE_KEPT_WORDS;
    uint64_t first, second, counts[RETAKE_KINDS];
    CHECK(retake_render(s->instrument, s->rate, FRAMES, bank, RETAKE_BANK_LENGTH, s->map, s->map_len, rows, count * RETAKE_ROW_WORDS, count,
                        fresh_out, samples, fresh_aux, samples, fresh_kept, states, &first, &second, counts) == RETAKE_DONE && first == count);
    return memcmp(fresh_out, out, samples * sizeof *out) == 0 && memcmp(fresh_aux, aux, samples * sizeof *aux) == 0
        && memcmp(fresh_kept, kept, states * sizeof *kept) == 0;
}

/* Are the places from this one on as they were filled? */
static int filled_from(size_t place) {
    return filled(rows, place * RETAKE_ROW_WORDS, ROOM * RETAKE_ROW_WORDS) && filled(out, place * FRAMES, SAMPLES)
        && filled(aux, place * FRAMES, SAMPLES) && filled(kept, place * RETAKE_KEPT_WORDS, ROOM * RETAKE_KEPT_WORDS);
}

/* The text, read and rendered in buffers that were full of junk. */
static retake_score text_rendered(const retake_settings *settings, const retake_take *take) {
    retake_score score = score_of(ROOM * RETAKE_ROW_WORDS);
    retake_report report;
    fill(rows, ROOM * RETAKE_ROW_WORDS);
    fill(out, SAMPLES);
    fill(aux, SAMPLES);
    fill(kept, ROOM * RETAKE_KEPT_WORDS);
    report = retake_read_text(&score, text, sizeof text - 1);
    CHECK(done(report, ROWS) && nothing_held(report) && score.count == ROWS);
    CHECK(done(retake_render_score(settings, &score, take), ROWS));
    CHECK(!filled(out, 0, ROWS * FRAMES) && filled_from(ROWS));
    return score;
}

/* A rendering and an edit in buffers with room for two rows more. */
static void accepted(uint32_t instrument) {
    const retake_settings settings = settings_of(instrument);
    const retake_take take = take_of();
    const retake_score score = text_rendered(&settings, &take);
    retake_row row = retake_row_at(&score, 1);
    float samples[SAMPLES];

    CHECK(row.note == 60.0f && row.timbre == 0.5f && row.restart == 0);
    CHECK(done(retake_edit_row(&settings, &score, &take, 1, other_row()), 2));
    CHECK(rows[5] == retake_word(72.0f) && rows[6] == retake_word(0.75f) && rows[7] == retake_word(0.25f));
    CHECK(rows[8] == retake_word(0.125f) && rows[9] == 1);
    row = retake_row_at(&score, 1);
    CHECK(row.note == 72.0f && row.timbre == 0.75f && row.morph == 0.25f && row.harmonics == 0.125f && row.restart == 1);
    CHECK(refused(retake_edit_row(&settings, &score, &take, ROWS, row), RETAKE_REFUSED_POSITION, ROWS));
    row.timbre = 1.5f;
    CHECK(refused(retake_edit_row(&settings, &score, &take, 2, row), RETAKE_REFUSED_LIMIT, 2));
    CHECK(as_fresh(&settings, &score) && filled_from(ROWS));
    retake_floats(samples, out, ROWS * FRAMES);
    CHECK(samples[5] == retake_float(out[5]));
}

/* Rows put in until the buffers are full, and taken out until one is left. */
static void spliced(uint32_t instrument) {
    const retake_settings settings = settings_of(instrument);
    const retake_take take = take_of();
    retake_score score = text_rendered(&settings, &take);
    retake_row row = other_row(), loud = other_row();
    uint32_t words[RETAKE_ROW_WORDS], block[FRAMES], state[RETAKE_KEPT_WORDS];
    loud.morph = 1.5f;

    CHECK(refused(retake_insert_row(&settings, &score, &take, ROWS + 1, row), RETAKE_REFUSED_POSITION, ROWS + 1));
    CHECK(refused(retake_insert_row(&settings, &score, &take, 1, loud), RETAKE_REFUSED_LIMIT, 1));
    CHECK(refused(retake_remove_row(&settings, &score, &take, ROWS), RETAKE_REFUSED_POSITION, ROWS));
    CHECK(score.count == ROWS && as_fresh(&settings, &score) && filled_from(ROWS));

    /* Behind the last row, then before the first, which restarts. */
    CHECK(done(retake_insert_row(&settings, &score, &take, ROWS, row), 1) && score.count == 4);
    CHECK(rows[15] == retake_word(72.0f) && rows[16] == retake_word(0.75f) && rows[17] == retake_word(0.25f));
    CHECK(rows[18] == retake_word(0.125f) && rows[19] == 1);
    CHECK(as_fresh(&settings, &score) && filled_from(4));
    row.restart = 0;
    CHECK(done(retake_insert_row(&settings, &score, &take, 0, row), 1) && score.count == ROOM && as_fresh(&settings, &score));
    CHECK(retake_row_at(&score, 0).note == 72.0f && retake_row_at(&score, 1).note == 60.0f && retake_row_at(&score, 4).restart == 1);

    /* No room: 13 after 8 and before 9. */
    CHECK(refused(retake_insert_row(&settings, &score, &take, ROOM + 1, row), RETAKE_REFUSED_POSITION, ROOM + 1));
    CHECK(refused(retake_insert_row(&settings, &score, &take, 2, loud), RETAKE_REFUSED_FULL, 0));
    CHECK(score.count == ROOM && as_fresh(&settings, &score));

    /* The row before the last one, which restarts, goes; the last old place keeps its words. */
    memcpy(words, rows + 20, sizeof words);
    memcpy(block, out + 4 * FRAMES, sizeof block);
    memcpy(state, kept + 4 * RETAKE_KEPT_WORDS, sizeof state);
    CHECK(done(retake_remove_row(&settings, &score, &take, 3), 0) && score.count == 4 && as_fresh(&settings, &score));
    CHECK(memcmp(words, rows + 15, sizeof words) == 0 && memcmp(words, rows + 20, sizeof words) == 0);
    CHECK(memcmp(block, out + 4 * FRAMES, sizeof block) == 0 && memcmp(state, kept + 4 * RETAKE_KEPT_WORDS, sizeof state) == 0);

    /* A copy of a row that restarts: the row behind it finds the state that it had. */
    CHECK(done(retake_insert_row(&settings, &score, &take, 2, retake_row_at(&score, 1)), 1) && score.count == 5 && as_fresh(&settings, &score));
    CHECK(done(retake_remove_row(&settings, &score, &take, 2), 0) && score.count == 4 && as_fresh(&settings, &score));

    /* Before a row that restarts, and before one that does not. */
    CHECK(done(retake_insert_row(&settings, &score, &take, 3, row), 1) && score.count == 5 && as_fresh(&settings, &score));
    CHECK(done(retake_remove_row(&settings, &score, &take, 3), 0) && score.count == 4 && as_fresh(&settings, &score));
    CHECK(done(retake_insert_row(&settings, &score, &take, 2, row), 2) && score.count == 5 && as_fresh(&settings, &score));

    while (score.count > 1) {
        CHECK(retake_remove_row(&settings, &score, &take, score.count % 2 == 0 ? score.count - 1 : 0).refusal == RETAKE_DONE);
        CHECK(as_fresh(&settings, &score));
    }
    CHECK(refused(retake_remove_row(&settings, &score, &take, 0), RETAKE_REFUSED_ROWS, 0));
    CHECK(score.count == 1 && as_fresh(&settings, &score));
}

/* Kept words of row 0 that no rendering leaves, as floats, and what rows 1 and 2 then hold. */
static const struct {
    uint32_t instrument;
    float state[RETAKE_KEPT_WORDS];
    uint64_t held, counts[RETAKE_KINDS];
} states[] = {
    /* Phase, then x and y, then z. */
    {RETAKE_WAVETABLE, {3.5f, 0, 0, 0, 0, 0, 0, 0, 0, 0, 0, 0, 0}, 2, {2, 0, 0, 0, 0}},
    {RETAKE_WAVETABLE, {3.5f, 0, 0, 0, 1000, 1000, 0, 0, 0, 0, 0, 0, 0}, 8, {2, 8, 0, 0, 0}},
    {RETAKE_WAVETABLE, {3.5f, 0, 0, 0, 0, 0, 1000, 0, 0, 0, 0, 0, 0}, 8, {2, 0, 8, 0, 0}},
    /* Offset, and the terrain's number. */
    {RETAKE_TERRAIN, {1, 0, 0, 0, 10000, 6, 0, 0, 0, 0, 0, 0, 0}, 12, {0, 0, 0, 0, 12}},
    {RETAKE_TERRAIN_WITH_MAP, {1, 0, 0, 0, 10000, 6, 0, 0, 0, 0, 0, 0, 0}, 12, {0, 0, 0, 2, 10}},
    /* Phase and waveform. */
    {RETAKE_OSCILLATOR, {6.5f, 0, 0, 200, 0, 0, 0, 0, 0, 0, 0, 0, 0}, 5, {5, 3, 0, 0, 0}},
};

/* Has the call rendered two rows and held what is known of the state? */
static int held_as(retake_report report, size_t i) {
    return done(report, 2) && report.held == states[i].held && same_counts(report.counts, states[i].counts);
}

static void keep(size_t i) {
    size_t k;
    for (k = 0; k < RETAKE_KEPT_WORDS; k++) kept[k] = retake_word(states[i].state[k]);
}

/* Each kind of hold in an edit, an insertion and a removal, whose second row is always the same. */
static void kinds(void) {
    const retake_row row = {50.0f, 0.5f, 0.75f, 1.0f, 0};
    const retake_take take = take_of();
    size_t i;
    for (i = 0; i < sizeof states / sizeof *states; i++) {
        const retake_settings settings = settings_of(states[i].instrument);
        retake_score score = text_rendered(&settings, &take);
        uint64_t first, second, lent[RETAKE_KINDS + 2] = {7, 7, 7, 7, 7, 7, 7};
        keep(i);
        CHECK(held_as(retake_edit_row(&settings, &score, &take, 1, row), i));
        CHECK(nothing_held(retake_edit_row(&settings, &score, &take, 1, row)));
        CHECK(nothing_held(retake_render_score(&settings, &score, &take)));
        CHECK(done(retake_insert_row(&settings, &score, &take, 1, other_row()), 3) && score.count == 4);
        keep(i);
        CHECK(held_as(retake_remove_row(&settings, &score, &take, 1), i));
        score = text_rendered(&settings, &take);
        score.count = 2;
        keep(i);
        CHECK(held_as(retake_insert_row(&settings, &score, &take, 1, row), i));

        /* The function itself writes five numbers and no more. */
        score = text_rendered(&settings, &take);
        keep(i);
        CHECK(retake_edit(settings.instrument, settings.rate, FRAMES, bank, RETAKE_BANK_LENGTH, settings.map, settings.map_len,
                          rows, ROWS * RETAKE_ROW_WORDS, ROWS, 1, retake_word(row.note), retake_word(row.timbre), retake_word(row.morph),
                          retake_word(row.harmonics), row.restart, out, SAMPLES, aux, SAMPLES, kept, ROOM * RETAKE_KEPT_WORDS,
                          &first, &second, lent + 1) == RETAKE_DONE);
        CHECK(first == 2 && second == states[i].held && memcmp(lent + 1, states[i].counts, sizeof states[i].counts) == 0);
        CHECK(lent[0] == 7 && lent[RETAKE_KINDS + 1] == 7);
    }
}

/* Do rendering, edit, insertion and removal all refuse with this number, and leave the count? */
static int all_refused(const retake_settings *settings, const retake_score *score, const retake_take *take, uint32_t number) {
    retake_score own = *score;
    return refused(retake_render_score(settings, score, take), number, 0)
        && refused(retake_edit_row(settings, score, take, 0, other_row()), number, 0)
        && refused(retake_insert_row(settings, &own, take, 0, other_row()), number, 0)
        && refused(retake_remove_row(settings, &own, take, 0), number, 0) && own.count == score->count;
}

/* Every refusal, through the structs. */
static void refusals(void) {
    retake_settings settings = settings_of(RETAKE_OSCILLATOR + 1);
    retake_take take = take_of();
    retake_score score = score_of(ROOM * RETAKE_ROW_WORDS);
    const retake_score longest = {many, RETAKE_MOST_ROWS * RETAKE_ROW_WORDS, RETAKE_MOST_ROWS};
    score.count = ROWS;

    CHECK(all_refused(&settings, &score, &take, RETAKE_REFUSED_INSTRUMENT));
    settings = settings_of(RETAKE_WAVETABLE);
    settings.rate = RETAKE_LOWEST_RATE - 1;
    CHECK(all_refused(&settings, &score, &take, RETAKE_REFUSED_RATE));
    settings.rate = RETAKE_HIGHEST_RATE + 1;
    CHECK(all_refused(&settings, &score, &take, RETAKE_REFUSED_RATE));
    settings = settings_of(RETAKE_WAVETABLE);
    settings.frames = 0;
    CHECK(all_refused(&settings, &score, &take, RETAKE_REFUSED_BLOCK));
    settings.frames = RETAKE_MOST_FRAMES + 1;
    CHECK(all_refused(&settings, &score, &take, RETAKE_REFUSED_BLOCK));
    settings = settings_of(RETAKE_WAVETABLE);
    settings.bank_len = RETAKE_BANK_LENGTH + 1;
    CHECK(all_refused(&settings, &score, &take, RETAKE_REFUSED_BANK));
    settings = settings_of(RETAKE_TERRAIN_WITH_MAP);
    settings.instrument = RETAKE_TERRAIN;
    CHECK(all_refused(&settings, &score, &take, RETAKE_REFUSED_MAP));
    settings.instrument = RETAKE_OSCILLATOR;
    CHECK(all_refused(&settings, &score, &take, RETAKE_REFUSED_MAP));

    settings = settings_of(RETAKE_WAVETABLE);
    score.count = 0;
    CHECK(all_refused(&settings, &score, &take, RETAKE_REFUSED_ROWS));
    score.count = ROOM + 1;
    CHECK(all_refused(&settings, &score, &take, RETAKE_REFUSED_ROWS));
    score.count = UINT64_MAX;
    CHECK(all_refused(&settings, &score, &take, RETAKE_REFUSED_ROWS));
    score = longest;
    CHECK(refused(retake_insert_row(&settings, &score, &take, 0, other_row()), RETAKE_REFUSED_ROWS, 0) && score.count == RETAKE_MOST_ROWS);
    CHECK(refused(retake_remove_row(&settings, &score, &take, 0), RETAKE_REFUSED_TAKE, 0) && score.count == RETAKE_MOST_ROWS);
    score = score_of(ROOM * RETAKE_ROW_WORDS);
    score.count = 1;
    CHECK(refused(retake_remove_row(&settings, &score, &take, 7), RETAKE_REFUSED_ROWS, 0) && score.count == 1);

    score.count = ROWS;
    take.out_len = ROWS * FRAMES - 1;
    CHECK(all_refused(&settings, &score, &take, RETAKE_REFUSED_TAKE));
    take = take_of();
    take.aux_len = ROWS * FRAMES - 1;
    CHECK(all_refused(&settings, &score, &take, RETAKE_REFUSED_TAKE));
    take = take_of();
    take.kept_len = ROWS * RETAKE_KEPT_WORDS - 1;
    CHECK(all_refused(&settings, &score, &take, RETAKE_REFUSED_TAKE));
    CHECK(refused(retake_read_text(&score, "note\n", 5), RETAKE_REFUSED_NAMES, 0));
    CHECK(refused(retake_read_text(&score, text, sizeof text - 2), RETAKE_REFUSED_VALUE, 2));
    CHECK(refused(retake_read_text(&score, text, 36), RETAKE_REFUSED_ROWS, 0));
    score = score_of(ROWS * RETAKE_ROW_WORDS - 1);
    CHECK(refused(retake_read_text(&score, text, sizeof text - 1), RETAKE_REFUSED_SPACE, 0) && score.count == 0);
}

/* An insertion where one buffer after another has all but one word of the room for one row more. Number 8 is tested before that, 9 after. */
static void full(void) {
    const retake_settings settings = settings_of(RETAKE_TERRAIN);
    const retake_take room = take_of();
    const retake_score score = text_rendered(&settings, &room);
    retake_row loud = other_row();
    int buffer;
    loud.note = 121.0f;
    for (buffer = 0; buffer < 4; buffer++) {
        retake_score tight = score;
        retake_take take = room;
        if (buffer == 0) tight.rows_len = (ROWS + 1) * RETAKE_ROW_WORDS - 1;
        if (buffer == 1) take.out_len = (ROWS + 1) * FRAMES - 1;
        if (buffer == 2) take.aux_len = (ROWS + 1) * FRAMES - 1;
        if (buffer == 3) take.kept_len = (ROWS + 1) * RETAKE_KEPT_WORDS - 1;
        CHECK(refused(retake_insert_row(&settings, &tight, &take, ROWS + 1, loud), RETAKE_REFUSED_POSITION, ROWS + 1));
        CHECK(refused(retake_insert_row(&settings, &tight, &take, ROWS, loud), RETAKE_REFUSED_FULL, 0));
        CHECK(tight.count == ROWS && as_fresh(&settings, &score) && filled_from(ROWS));
    }
}

/* Fills the bytes to write to with one that no text has. */
static void wipe(void) {
    memset(written, '#', sizeof written);
}

/* Are the bytes from this place on as they were filled? */
static int wiped_from(size_t place) {
    size_t i;
    for (i = place; i < sizeof written; i++) {
        if (written[i] != '#') return 0;
    }
    return 1;
}

/* Is the score written as the text, into so many lent bytes, and nothing behind it? */
static int tidy(const retake_score *score, size_t lent) {
    retake_report report;
    wipe();
    report = retake_write_text(score, written, lent);
    return report.refusal == RETAKE_DONE && report.place == 0 && report.rows == 0 && nothing_held(report) && report.bytes == sizeof text - 1
        && memcmp(written, text, sizeof text - 1) == 0 && wiped_from(sizeof text - 1);
}

/* Scores written, and refused in the order of the numbers. */
static void writing(void) {
    const size_t length = sizeof text - 1, most = RETAKE_TEXT_LENGTH(RETAKE_MOST_ROWS);
    retake_score score = score_of(ROOM * RETAKE_ROW_WORDS), longest = {many, (RETAKE_MOST_ROWS + 1) * RETAKE_ROW_WORDS, RETAKE_MOST_ROWS};
    CHECK(RETAKE_TEXT_LENGTH(ROWS) == length && sizeof RETAKE_TEXT_LENGTH(ROWS) == sizeof(size_t) && most < sizeof written);

    CHECK(done(retake_read_text(&score, text, length), ROWS));
    CHECK(tidy(&score, length) && tidy(&score, length + 1) && tidy(&score, sizeof written));
    fill(rows, ROOM * RETAKE_ROW_WORDS);
    CHECK(done(retake_read_text(&score, shuffled, length), ROWS));
    CHECK(tidy(&score, length) && filled(rows, ROWS * RETAKE_ROW_WORDS, ROOM * RETAKE_ROW_WORDS));
    score.rows_len = ROWS * RETAKE_ROW_WORDS;
    CHECK(tidy(&score, length));

    wipe();
    CHECK(refused(retake_write_text(&score, written, length - 1), RETAKE_REFUSED_PAPER, 0));
    rows[9] = 2;
    CHECK(refused(retake_write_text(&score, written, length), RETAKE_REFUSED_LIMIT, 1));
    CHECK(refused(retake_write_text(&score, written, length - 1), RETAKE_REFUSED_LIMIT, 1));
    score.rows_len--;
    CHECK(refused(retake_write_text(&score, written, length), RETAKE_REFUSED_ROWS, 0));
    score.count = 0;
    CHECK(refused(retake_write_text(&score, written, length), RETAKE_REFUSED_ROWS, 0));
    score.count = UINT64_MAX;
    CHECK(refused(retake_write_text(&score, written, length), RETAKE_REFUSED_ROWS, 0));
    longest.count++;
    CHECK(refused(retake_write_text(&longest, written, sizeof written), RETAKE_REFUSED_ROWS, 0));
    longest.count--;
    CHECK(refused(retake_write_text(&longest, written, most - 1), RETAKE_REFUSED_PAPER, 0));
    CHECK(wiped_from(0));
    CHECK(retake_write_text(&longest, written, most).bytes == most && written[most - 1] == '\n' && wiped_from(most));
}

/* A text of its own for each number, and one for the numbers that are none. */
static void texts(void) {
    uint32_t a, b;
    for (a = RETAKE_DONE; a <= RETAKE_REFUSED_PAPER + 1; a++) {
        CHECK(retake_refusal_text(a)[0] != '\0');
        for (b = RETAKE_DONE; b < a; b++) CHECK(strcmp(retake_refusal_text(a), retake_refusal_text(b)) != 0);
    }
    CHECK(strcmp(retake_refusal_text(UINT32_MAX), retake_refusal_text(RETAKE_REFUSED_PAPER + 1)) == 0);
}

int main(void) {
    size_t i;
    uint32_t instrument;
    CHECK(RETAKE_WAVES * RETAKE_WAVE_LENGTH == RETAKE_BANK_LENGTH && RETAKE_MAP_EDGE * RETAKE_MAP_EDGE == RETAKE_MAP_LENGTH);
    for (i = 0; i <= RETAKE_BANK_LENGTH; i++) bank[i] = (int16_t)(i * 7919 % 32749);
    for (i = 0; i < RETAKE_MAP_LENGTH; i++) map[i] = (uint8_t)(i * 31 % 251);
    nulls();
    for (instrument = RETAKE_WAVETABLE; instrument <= RETAKE_OSCILLATOR; instrument++) {
        accepted(instrument);
        spliced(instrument);
    }
    kinds();
    refusals();
    full();
    writing();
    texts();
    printf("header: as it says\n");
    return 0;
}
