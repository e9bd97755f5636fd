/*
 * A switch of shadow stacks, replayed from C: the worked cases P4 and P5 of docs/RULES.md.
 *
 * From the root of the repository, after `./build`:
 *
 *     cc -std=c99 -Wall -Wextra -Werror -Iinclude examples/c/replay.c target/staticlib/libdriftpocket.a -o target/replay-c
 *     target/replay-c
 *
 * It prints what came back, and its status is 0 only if all of it is what the rules say.
 */
#include <inttypes.h>
#include <stdio.h>
#include <string.h>

#include "driftpocket.h"

enum { PAGES = 3, INSTRUCTIONS = 2, SPARE = 1 };

/* The pages of the worked cases. */
static const uint64_t pages[PAGES] = {
    0x1000 + DRIFTPOCKET_USER_SHADOW,
    0x2000 + DRIFTPOCKET_USER_SHADOW,
    0x5000 + DRIFTPOCKET_ORDINARY,
};

/* Each instruction: code, length, A, B. */
static const uint64_t words[INSTRUCTIONS * DRIFTPOCKET_INSTRUCTION_WORDS] = {
    DRIFTPOCKET_RSTORSSP,    5, 0x2ff0, 0,
    DRIFTPOCKET_SAVEPREVSSP, 4, 0,      0,
};

static const uint64_t before[DRIFTPOCKET_STATE_WORDS] = {
    [DRIFTPOCKET_MODE] = DRIFTPOCKET_MODE_LONG, [DRIFTPOCKET_CPL] = 3,
    [DRIFTPOCKET_CET] = 1,                      [DRIFTPOCKET_U_CET] = DRIFTPOCKET_SH_STK_EN,
    [DRIFTPOCKET_IP] = 0x400000,                [DRIFTPOCKET_SP] = 0x5010,
    [DRIFTPOCKET_SSP] = 0x1ff0,                 [DRIFTPOCKET_LIMIT] = 0xffffffff,
};

static uint8_t bytes[PAGES * DRIFTPOCKET_PAGE_BYTES];
static uint8_t wanted[PAGES * DRIFTPOCKET_PAGE_BYTES];

/* The place, among the lent bytes, of an address on one of the first two pages. */
static size_t place(uint64_t address) { return (size_t)(address - 0x1000); }

/* Puts 8 bytes at an address, the low one first. */
static void put(uint8_t *all, uint64_t address, uint64_t value) {
    for (size_t i = 0; i < 8; i++) {
        all[place(address) + i] = (uint8_t)(value >> (8 * i));
    }
}

/* The 8 bytes at an address as a number. */
static uint64_t get(const uint8_t *all, uint64_t address) {
    uint64_t value = 0;
    for (size_t i = 8; i > 0; i--) {
        value = value << 8 | all[place(address) + i - 1];
    }
    return value;
}

/* Prints a line about one number; gives 1 if it is not the one that the rules call for. */
static int differs(const char *what, uint64_t is, uint64_t rules) {
    printf("%-18s 0x%" PRIx64 "%s\n", what, is, is == rules ? "" : "   NOT AS THE RULES SAY");
    return is != rules;
}

/* The five words of the report, and the spare one past them, which must stay as it was. */
static int report_differs(const uint64_t *report) {
    return differs("completed", report[DRIFTPOCKET_REPORT_COUNT], INSTRUCTIONS) +
           differs("refusal", report[DRIFTPOCKET_REPORT_REFUSAL], 0) +
           differs("vector", report[DRIFTPOCKET_REPORT_VECTOR], 0) +
           differs("error code", report[DRIFTPOCKET_REPORT_CODE], 0) +
           differs("address", report[DRIFTPOCKET_REPORT_ADDRESS], 0) +
           differs("past the report", report[DRIFTPOCKET_REPORT_WORDS], 0x77);
}

/* All ten fields: IP and SSP have moved, the others are as they were. */
static int state_differs(const uint64_t *state) {
    static const char *const names[DRIFTPOCKET_STATE_WORDS] = {
        "mode", "CPL", "CR4.CET", "U_CET", "S_CET", "IP", "SP", "SSP", "RFLAGS", "code limit",
    };
    int wrong = 0;
    for (size_t i = 0; i < DRIFTPOCKET_STATE_WORDS; i++) {
        uint64_t rules = i == DRIFTPOCKET_IP ? 0x400009 : i == DRIFTPOCKET_SSP ? 0x2ff8 : before[i];
        wrong += differs(names[i], state[i], rules);
    }
    return wrong;
}

/* The two tokens, and then every lent byte. */
static int bytes_differ(void) {
    memset(wanted, 0xaa, sizeof wanted);
    put(wanted, 0x2ff0, 0x1ff3);
    put(wanted, 0x1fe8, 0x1ff1);
    int wrong = differs("8 bytes at 2ff0", get(bytes, 0x2ff0), 0x1ff3) + differs("8 bytes at 1fe8", get(bytes, 0x1fe8), 0x1ff1);
    if (memcmp(bytes, wanted, sizeof bytes) != 0) {
        puts("some other byte is not as the rules say");
        wrong++;
    }
    return wrong;
}

int main(void) {
    uint64_t state[DRIFTPOCKET_STATE_WORDS];
    uint64_t report[DRIFTPOCKET_REPORT_WORDS + SPARE] = {[DRIFTPOCKET_REPORT_WORDS] = 0x77};
    memcpy(state, before, sizeof state);
    memset(bytes, 0xaa, sizeof bytes); /* so that a byte wrongly cleared shows */
    put(bytes, 0x2ff0, 0x2ff9);

    puts("RSTORSSP 0x2ff0, then SAVEPREVSSP, from SSP 0x1ff0 with the token 0x2ff9 at 0x2ff0");
    uint64_t answer = driftpocket_run(state, DRIFTPOCKET_STATE_WORDS, pages, PAGES, bytes, sizeof bytes, words,
                                      INSTRUCTIONS * DRIFTPOCKET_INSTRUCTION_WORDS, report, DRIFTPOCKET_REPORT_WORDS + SPARE);

    int wrong = differs("answer", answer, DRIFTPOCKET_COMPLETED);
    wrong += report_differs(report);
    wrong += state_differs(state);
    wrong += bytes_differ();
    puts(wrong == 0 ? "all as the rules say" : "NOT all as the rules say");
    return wrong == 0 ? 0 : 1;
}
