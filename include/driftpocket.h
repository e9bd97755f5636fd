/*
 * Driftpocket: the replay of Intel shadow-stack (CET) operations, for C99 and C++.
 *
 * driftpocket_run takes a processor state, a page list with its bytes, and a list of instructions, runs the list, and says
 * how it ended. Link it with target/staticlib/libdriftpocket.a, which `./build driftpocket` proves and writes.
 *
 * driftpocket_sheet_read and driftpocket_sheet_write turn a run sheet, which is text, into the state, pages, bytes and
 * instructions of a run, and back. Link them with target/staticlib/libdriftpocket_sheet.a, which
 * `./build driftpocket_sheet` proves and writes.
 *
 * Any numbers may be passed, any text, and any lengths: nothing has to be tested beforehand. What is malformed is refused
 * by a number. A call always comes to an end and keeps nothing between calls.
 * The rules that all three follow are in docs/RULES.md.
 */
#ifndef DRIFTPOCKET_H
#define DRIFTPOCKET_H

#include <stddef.h>
#include <stdint.h>

#ifdef __cplusplus
extern "C" {
#endif

/* ---- Sizes and limits ---- */

#define DRIFTPOCKET_STATE_WORDS 10         /* fields of a state */
#define DRIFTPOCKET_REPORT_WORDS 5         /* words of the report of a run */
#define DRIFTPOCKET_READ_REPORT_WORDS 5    /* words of the report of a read */
#define DRIFTPOCKET_WRITE_REPORT_WORDS 2   /* words of the report of a write */
#define DRIFTPOCKET_INSTRUCTION_WORDS 4    /* words of an instruction */
#define DRIFTPOCKET_PAGE_BYTES 4096        /* bytes of a page */
#define DRIFTPOCKET_MOST_PAGES 16          /* entries of a page list, at most */
#define DRIFTPOCKET_MOST_INSTRUCTIONS 1024 /* instructions of a run, at most */
#define DRIFTPOCKET_MOST_TEXT 413250       /* bytes of a run's sheet, at most: full pages and 1,024 instructions */

/*
 * ---- The state: positions in `state` ----
 *
 * A field outside its range is refusal 5.
 */

#define DRIFTPOCKET_MODE 0   /* one of the modes below */
#define DRIFTPOCKET_CPL 1    /* 0 to 3; 3 is user code */
#define DRIFTPOCKET_CET 2    /* CR4.CET, 0 or 1 */
#define DRIFTPOCKET_U_CET 3  /* any number; its bits below count at CPL 3 */
#define DRIFTPOCKET_S_CET 4  /* any number; its bits below count at CPL 0 to 2 */
#define DRIFTPOCKET_IP 5     /* below 2^32 unless the mode is 2 */
#define DRIFTPOCKET_SP 6     /* below 2^32 unless the mode is 2 */
#define DRIFTPOCKET_SSP 7    /* a multiple of 4; below 2^32 unless the mode is 2 */
#define DRIFTPOCKET_RFLAGS 8 /* any number; CF is bit 0 */
#define DRIFTPOCKET_LIMIT 9  /* the code limit, below 2^32 */

/* Modes. */
#define DRIFTPOCKET_MODE_REAL 0      /* real or virtual-8086 */
#define DRIFTPOCKET_MODE_PROTECTED 1 /* 32-bit protected or compatibility */
#define DRIFTPOCKET_MODE_LONG 2      /* 64-bit */

/* Bits of U_CET and S_CET. */
#define DRIFTPOCKET_SH_STK_EN 1    /* bit 0: shadow stacks are switched on */
#define DRIFTPOCKET_WR_SHSTK_EN 2  /* bit 1: WRSS is permitted */

/*
 * ---- The page list: `pages` and `bytes` ----
 *
 * An entry is the page's address, a multiple of 4,096, plus one of these kinds in its low 12 bits. Counting from 0, the
 * page of entry i has the bytes from 4,096 x i on. Numbers in memory lie low byte first. The order of the entries has no
 * other meaning.
 */

#define DRIFTPOCKET_USER_SHADOW 1       /* shadow accesses at CPL 3, and WRUSS */
#define DRIFTPOCKET_SUPERVISOR_SHADOW 2 /* shadow accesses at CPL 0 to 2, but for WRUSS */
#define DRIFTPOCKET_ORDINARY 3          /* ordinary pushes and pops, at any CPL */

/*
 * ---- The instructions: `words` ----
 *
 * Four words each: code, length (1 to 15 bytes), A, B. Words that a code does not use are 0. Any other form is refusal 6,
 * and so are the codes and operands that the mode does not allow (see there).
 */

#define DRIFTPOCKET_INCSSPD 1       /* B: the count, of which the low 8 bits are used */
#define DRIFTPOCKET_INCSSPQ 2       /* B: as for INCSSPD. Not in mode 1 */
#define DRIFTPOCKET_RSTORSSP 3      /* A: the address of the token */
#define DRIFTPOCKET_SAVEPREVSSP 4   /* no operand */
#define DRIFTPOCKET_WRSSD 5         /* A: the address; B: the value, of which the low 4 bytes are stored */
#define DRIFTPOCKET_WRSSQ 6         /* A: the address; B: the value. Not in mode 1 */
#define DRIFTPOCKET_CALL_RELATIVE 7 /* A: the displacement, 32 bits in two's complement, so below 2^32; 0 makes no
                                       shadow frame. Not in mode 0 */
#define DRIFTPOCKET_CALL_ABSOLUTE 8 /* A: the target; the next instruction's address makes a shadow frame too.
                                       Not in mode 0 */
#define DRIFTPOCKET_RET 9           /* no operand. Not in mode 0 */
#define DRIFTPOCKET_RET_COUNT 10    /* A: how many bytes SP moves up besides the return address, 16 bits, so below 2^16. Not
                                       in mode 0 */
#define DRIFTPOCKET_WRUSSD 11       /* A: the address; B: the value, of which the low 4 bytes are stored */
#define DRIFTPOCKET_WRUSSQ 12       /* A: the address; B: the value. Not in mode 1 */

/*
 * ---- What is refused ----
 *
 * A read tests 9 first. Then come 1, 2, 3, 4, 5, 7 in this order, each over the whole input, and then 8, where a result, the
 * report among them, is longer than its buffer. In a run all of these come before the first instruction. 6 is given by runs
 * only: it is tested as an instruction's turn comes, ahead of every fault of that instruction. A report that is too short
 * is never written, whatever the answer. An empty page list and an empty run are good.
 *
 * This version gives no refusal above 9. Numbers up to 13 are set aside for it: take any answer from 1 to 255 as a refusal.
 */

#define DRIFTPOCKET_COMPLETED 0          /* no refusal and no fault: every instruction completed, or the sheet was read or
                                            written */
#define DRIFTPOCKET_REFUSED_PAGES 1      /* more than 16 entries, or not 4,096 bytes for each */
#define DRIFTPOCKET_REFUSED_KIND 2       /* an entry's kind is none of 1, 2, 3 */
#define DRIFTPOCKET_REFUSED_ADDRESS 3    /* a page address is not canonical: bits 63 to 47 are not all equal */
#define DRIFTPOCKET_REFUSED_REPEATED 4   /* two entries have one page address */
#define DRIFTPOCKET_REFUSED_STATE 5      /* a field is out of range; or, but in a read, `state_len` is not 10 */
#define DRIFTPOCKET_REFUSED_FORM 6       /* the instruction is not well formed; or is code 2, 6 or 12 in mode 1; or has A or
                                            B at 2^32 or above in mode 1; or is one of codes 7 to 10 in mode 0 */
#define DRIFTPOCKET_REFUSED_WORDS 7      /* the word count is no multiple of 4, or there are more than 1,024 instructions */
#define DRIFTPOCKET_REFUSED_ROOM 8       /* `report_len` is below the words of the report; or a result of a read or a write is
                                            longer than its buffer */
#define DRIFTPOCKET_REFUSED_SHEET 9      /* the text is no run sheet */

/*
 * ---- Faults ----
 *
 * A fault is answered as 256 plus its vector.
 */

#define DRIFTPOCKET_FAULT 256

#define DRIFTPOCKET_UD 6  /* #UD: codes 1 to 6 in mode 0 or while not enabled; WRSS not permitted; codes 11 and 12 in mode 0
                             or while CR4.CET is 0 */
#define DRIFTPOCKET_SS 12 /* #SS(0): an ordinary push or pop that is not canonical (mode 2) or runs past 2^32 (mode 1) */
#define DRIFTPOCKET_GP 13 /* #GP(0): alignment, a bad SAVEPREVSSP token, a bad target, a shadow access that is not canonical,
                             WRUSS at CPL 1 to 3 */
#define DRIFTPOCKET_PF 14 /* #PF: a byte on no listed page, or on one of another kind */
#define DRIFTPOCKET_CP 21 /* #CP: RET finds another address on the shadow stack; RSTORSSP's token does not fit */

/* Error codes. Every other fault has error code 0. */
#define DRIFTPOCKET_CP_NEAR_RET 1 /* of #CP(NEAR-RET), which RET gives */
#define DRIFTPOCKET_CP_RSTORSSP 4 /* of #CP(RSTORSSP) */

/*
 * ---- What the caller owes, in every call ----
 *
 * A length counts elements: 64-bit words, but bytes for `bytes` and `text`. Each pointer is aligned for its element type and
 * valid for its whole length, for reading and, where it is not const, for writing; all of the bytes it covers have been
 * set. No pointer is null. With length 0 nothing is read or written through it, but it must still be aligned and not null:
 * the address of any variable of the type will do. A buffer that is not const overlaps no other buffer of the call; while
 * the call runs nobody else touches it, or writes the others. Calls may run in several threads at once, each with buffers of
 * its own where they are not const.
 */

/*
 * ---- A run ----
 *
 * Positions in its report. All five are written by every run, except where `report_len` is below 5.
 */

#define DRIFTPOCKET_REPORT_COUNT 0   /* how many instructions completed */
#define DRIFTPOCKET_REPORT_REFUSAL 1 /* the refusal, or 0 */
#define DRIFTPOCKET_REPORT_VECTOR 2  /* the vector of the fault, or 0 */
#define DRIFTPOCKET_REPORT_CODE 3    /* the error code of the fault, or 0 */
#define DRIFTPOCKET_REPORT_ADDRESS 4 /* for #PF the address of the first byte that could not be reached; otherwise 0 */

/*
 * Runs the instructions one after the other, up to the first that is refused or faults, or to the end of the list.
 *
 * Answers 0 if all completed, the refusal (1 to 8), or 256 plus the vector of the fault.
 *
 * What is written:
 *   state   the fields after the last completed instruction. Nothing of an instruction that is refused or faults shows in
 *           it. After refusals 1 to 5, 7 and 8 it is as it was handed in.
 *   bytes   likewise: all stores of the completed instructions, and nothing else.
 *   report  its first five words, as above. What lies past them stays as it was.
 * If `report_len` is below 5, nothing is run and nothing is written. The answer is then 1 to 5 or 7, where one of these is
 * due, and otherwise 8.
 */
uint64_t driftpocket_run(uint64_t *state, size_t state_len, const uint64_t *pages, size_t pages_len, uint8_t *bytes,
                         size_t bytes_len, const uint64_t *words, size_t words_len, uint64_t *report, size_t report_len);

/*
 * ---- Run sheets ----
 *
 * A sheet is lines of text, each ended by one line feed, its fields parted by single tabs. The first field is a word, the
 * others are numbers: `x` and 16 lower-case hexadecimal digits. In this order:
 *
 *   sheet  1                     once: the version
 *   state  the ten fields        once
 *   page   the entry             for each page, strictly ascending by address
 *   word   address, value        for each 8 bytes of a page, at a multiple of 8, that are not all 0; ascending
 *   do     code, length, A, B    for each instruction
 *
 * Any other text is refusal 9. One run has one text: the same pages in another order give the same sheet.
 *
 * Positions in the report of a read. All five are written by every read, except where `report_len` is below 5.
 */

#define DRIFTPOCKET_READ_REFUSAL 0 /* the refusal, or 0 */
#define DRIFTPOCKET_READ_LINE 1    /* for refusal 9 the first line, from 1, that can neither begin nor continue a sheet; a
                                      missing line is the one after the last. Otherwise 0 */
#define DRIFTPOCKET_READ_PAGES 2   /* the number of pages: those read; those needed with refusal 8; 0 with any other */
#define DRIFTPOCKET_READ_BYTES 3   /* the number of bytes, likewise: 4,096 for each page */
#define DRIFTPOCKET_READ_WORDS 4   /* the number of words, likewise: 4 for each instruction */

/*
 * Reads a sheet.
 *
 * Answers 0 or the refusal: 9; then 1, 2, 3, 5 or 7, as a run of what the sheet holds would; then 8, where one of the four
 * results or the report is longer than its buffer. 4 cannot come, since the pages of a sheet ascend.
 *
 * What is written, where the answer is 0:
 *   state   the ten fields
 *   pages   the entries, ascending
 *   bytes   4,096 for each entry, 0 where no `word` line says otherwise
 *   words   four for each instruction
 * What lies past these stays as it was, and so do all four buffers on any refusal.
 *   report  its first five words, as above, on refusals too. What lies past them stays as it was.
 * If `report_len` is below 5, nothing is written. The answer is then 9, 1, 2, 3, 5 or 7, where one of these is due, and
 * otherwise 8.
 *
 * DRIFTPOCKET_STATE_WORDS, _MOST_PAGES and so on are room enough for every sheet that is not refused. With buffers of
 * length 0, refusal 8 tells the lengths that are needed.
 */
uint64_t driftpocket_sheet_read(const uint8_t *text, size_t text_len, uint64_t *state, size_t state_len, uint64_t *pages,
                                size_t pages_len, uint8_t *bytes, size_t bytes_len, uint64_t *words, size_t words_len,
                                uint64_t *report, size_t report_len);

/* Positions in the report of a write. Both are written by every write, except where `report_len` is below 2. */

#define DRIFTPOCKET_WRITE_REFUSAL 0 /* the refusal, or 0 */
#define DRIFTPOCKET_WRITE_LENGTH 1  /* the length of the text: as written; as needed with refusal 8; 0 with any other */

/*
 * Writes the sheet of a run. The pages may be in any order.
 *
 * Answers 0 or the refusal: 1, 2, 3, 4, 5 or 7, as a run would; then 8, where the text or the report is longer than its
 * buffer.
 *
 * What is written:
 *   text    where the answer is 0, the sheet. What lies past it stays as it was, and so does all of `text` on any refusal.
 *   report  its first two words, as above. What lies past them stays as it was.
 * If `report_len` is below 2, nothing is written. The answer is then 1 to 5 or 7, where one of these is due, and otherwise 8.
 *
 * DRIFTPOCKET_MOST_TEXT is room enough for every run that is not refused. With a `text_len` of 0, refusal 8 tells the
 * length that is needed.
 */
uint64_t driftpocket_sheet_write(const uint64_t *state, size_t state_len, const uint64_t *pages, size_t pages_len,
                                 const uint8_t *bytes, size_t bytes_len, const uint64_t *words, size_t words_len,
                                 uint8_t *text, size_t text_len, uint64_t *report, size_t report_len);

#ifdef __cplusplus
}
#endif

#endif /* DRIFTPOCKET_H */
