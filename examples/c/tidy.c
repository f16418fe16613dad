/* Makes a score's text tidy: the names in the order of a row, lower-case digits. Texts of the same rows become the same bytes.
 *
 *     cc -Iinclude examples/c/tidy.c target/staticlib/libretake_c.a -o target/tidy
 *     target/tidy < score.txt > tidy.txt
 *     target/tidy score.txt > tidy.txt
 *
 * So it can stand between a file and a version store (docs/GUIDE.md says how). Of a text that is refused it names the line, counted
 * from 1, and the refusal's number; it writes nothing then, and its exit status is 1. */
#include <inttypes.h>
#include <stdio.h>
#include <stdlib.h>

#include "retake.h"

static uint32_t rows[RETAKE_MOST_ROWS * RETAKE_ROW_WORDS];
static char *text;
static size_t length, room;

static void fail(const char *what) {
    fprintf(stderr, "tidy: %s\n", what);
    exit(1);
}

/* Reads all of standard input, however long it is, into the text. */
static void read_input(void) {
    do {
        if (length == room) {
            room = 2 * room + RETAKE_TEXT_LENGTH(RETAKE_MOST_ROWS) + 1;
            text = (char *)realloc(text, room);
            if (text == NULL) fail("no room for the text");
        }
        length += fread(text + length, 1, room - length, stdin);
    } while (!feof(stdin) && !ferror(stdin));
    if (ferror(stdin)) fail("the text could not be read");
}

/* The report of an accepted call; a refusal ends the program. The names are line 1, and row 0 is line 2. */
static retake_report accepted(retake_report report) {
    uint64_t line = 0;
    if (report.refusal == RETAKE_DONE) return report;
    if (report.refusal == RETAKE_REFUSED_NAMES) line = 1;
    if (report.refusal == RETAKE_REFUSED_VALUE || report.refusal == RETAKE_REFUSED_LIMIT) line = report.place + 2;
    fputs("tidy: ", stderr);
    if (line > 0) fprintf(stderr, "line %" PRIu64 ": ", line);
    fprintf(stderr, "%s (number %" PRIu32 ")\n", retake_refusal_text(report.refusal), report.refusal);
    exit(1);
}

int main(int count, char **words) {
    retake_score score = {rows, RETAKE_MOST_ROWS * RETAKE_ROW_WORDS, 0};
    size_t bytes;

    if (count > 2) fail("usage: tidy [FILE]");
    if (count == 2 && freopen(words[1], "rb", stdin) == NULL) fail("the file could not be opened");
    read_input();
    accepted(retake_read_text(&score, text, length));
    /* The rows are read: their tidy text, which has as many bytes, takes the old one's place. */
    bytes = (size_t)accepted(retake_write_text(&score, text, length)).bytes;
    if (fwrite(text, 1, bytes, stdout) != bytes || fflush(stdout) != 0) fail("the text could not be written");
    return 0;
}
