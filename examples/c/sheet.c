/*
 * A run sheet from C: reads the sheet in a file, runs it, and writes the sheet of what was left: the state and the pages as
 * the last completed instruction left them, and the instructions that did not complete.
 *
 * From the root of the repository, after `./build`:
 *
 *     cc -std=c99 -Wall -Wextra -Werror -Iinclude examples/c/sheet.c target/staticlib/libdriftpocket.a \
 *        target/staticlib/libdriftpocket_sheet.a -o target/sheet-c
 *     target/sheet-c sheets/first.sheet
 *
 * The new sheet goes to standard output, all else to standard error. The status is 0 only if every instruction completed, 1
 * if not or if the text was refused, and 2 if no file was named.
 */
#include <inttypes.h>
#include <stdio.h>

#include "driftpocket.h"

enum { WORDS = DRIFTPOCKET_MOST_INSTRUCTIONS * DRIFTPOCKET_INSTRUCTION_WORDS };

/* Room for every sheet that is not refused, and for one byte more of a text that is none. */
static uint8_t text[DRIFTPOCKET_MOST_TEXT + 1];
static uint64_t state[DRIFTPOCKET_STATE_WORDS];
static uint64_t pages[DRIFTPOCKET_MOST_PAGES];
static uint8_t bytes[DRIFTPOCKET_MOST_PAGES * DRIFTPOCKET_PAGE_BYTES];
static uint64_t words[WORDS];

/* How much of the room above is used. */
static size_t page_count, byte_count, word_count;

/* Gets the text of a file, and its length. What is longer than the longest sheet is cut, and refused then. */
static int get(const char *name, size_t *length) {
    FILE *file = fopen(name, "rb");
    if (file == NULL) {
        perror(name);
        return 0;
    }
    *length = fread(text, 1, sizeof text, file);
    int good = !ferror(file);
    if (!good) {
        perror(name);
    }
    fclose(file);
    return good;
}

/* Reads the sheet. */
static int read_sheet(const char *name, size_t length) {
    uint64_t report[DRIFTPOCKET_READ_REPORT_WORDS] = {0};
    uint64_t refusal = driftpocket_sheet_read(text, length, state, DRIFTPOCKET_STATE_WORDS, pages, DRIFTPOCKET_MOST_PAGES,
                                              bytes, sizeof bytes, words, WORDS, report, DRIFTPOCKET_READ_REPORT_WORDS);
    uint64_t line = report[DRIFTPOCKET_READ_LINE];
    if (refusal == DRIFTPOCKET_REFUSED_SHEET) {
        fprintf(stderr, "%s, line %" PRIu64 ": refusal %" PRIu64 ", no run sheet\n", name, line, refusal);
    } else if (refusal != DRIFTPOCKET_COMPLETED) {
        fprintf(stderr, "%s: refusal %" PRIu64 "\n", name, refusal);
    }
    page_count = (size_t)report[DRIFTPOCKET_READ_PAGES];
    byte_count = (size_t)report[DRIFTPOCKET_READ_BYTES];
    word_count = (size_t)report[DRIFTPOCKET_READ_WORDS];
    return refusal == DRIFTPOCKET_COMPLETED;
}

/* Runs it. Gives the answer, and how many words belong to completed instructions. */
static uint64_t run(size_t *done) {
    uint64_t report[DRIFTPOCKET_REPORT_WORDS] = {0};
    uint64_t answer = driftpocket_run(state, DRIFTPOCKET_STATE_WORDS, pages, page_count, bytes, byte_count, words,
                                      word_count, report, DRIFTPOCKET_REPORT_WORDS);
    uint64_t count = report[DRIFTPOCKET_REPORT_COUNT];
    fprintf(stderr, "%" PRIu64 " completed, answer %" PRIu64 "\n", count, answer);
    *done = (size_t)count * DRIFTPOCKET_INSTRUCTION_WORDS;
    return answer;
}

/* Writes the sheet of what is left. */
static int write_sheet(size_t done) {
    uint64_t report[DRIFTPOCKET_WRITE_REPORT_WORDS] = {0};
    uint64_t refusal = driftpocket_sheet_write(state, DRIFTPOCKET_STATE_WORDS, pages, page_count, bytes, byte_count,
                                               words + done, word_count - done, text, sizeof text, report,
                                               DRIFTPOCKET_WRITE_REPORT_WORDS);
    if (refusal != DRIFTPOCKET_COMPLETED) {
        fprintf(stderr, "what is left: refusal %" PRIu64 "\n", refusal);
        return 0;
    }
    size_t length = (size_t)report[DRIFTPOCKET_WRITE_LENGTH];
    return fwrite(text, 1, length, stdout) == length && fflush(stdout) == 0;
}

int main(int count, char **arguments) {
    size_t length, done;
    if (count != 2) {
        fputs("usage: sheet-c FILE\n", stderr);
        return 2;
    }
    if (!get(arguments[1], &length) || !read_sheet(arguments[1], length)) {
        return 1;
    }
    uint64_t answer = run(&done);
    return write_sheet(done) && answer == DRIFTPOCKET_COMPLETED ? 0 : 1;
}
