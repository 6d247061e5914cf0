/* Sangolid: runs a calculation block of 32-bit x86 code, checks one before it is run, reads one from Intel HEX. */
#ifndef SANGOLID_H
#define SANGOLID_H

#include <fenv.h>
#include <stddef.h>
#include <stdint.h>
#include <string.h>

#ifdef __cplusplus
extern "C" {
#endif

/*
 * Runs the block: takes steps until one stops or the budget is used up.
 *
 * state          20 words, read and written: EAX ECX EDX EBX ESP EBP ESI EDI, EIP, the flags word (CF bit 0, PF 2, AF 4,
 *                ZF 6, SF 7, DF 10, OF 11; bit 1 set), the low singles of XMM0 to XMM7 by their bits, of which any 32 are
 *                one, then two that are only written: the steps done, and the address.
 * state_len      how many words the state has: 20.
 * code           the block's bytes, which lie at 00010000h upward. They are only read.
 * code_len       how many they are: 1 to 65,536.
 * constants      the constants' bytes, which lie at 00200000h upward. They are only read. Operands that are not written
 *                may be here.
 * constants_len  how many they are: 0 to 65,536.
 * area           the data's bytes, which lie at 00100000h upward. All other operands and the stack are here.
 * area_len       how many they are: 0 to 65,536.
 * budget         the most steps to take: 0 to 1,000,000.
 *
 * Returns why the run ended, and puts the address that goes with it into the state's last word:
 *    0  the budget is used up; address: EIP. A further call with this state, these constants and these data goes
 *       on from here.
 *    1  EIP is home, FFFF0000h: the block has ended; address: EIP.
 *    2  EIP is outside the code; address: EIP.
 *    3  the code ends inside the instruction at EIP; address: EIP.
 *    4  there is no such instruction as at EIP; address: EIP.
 *    5  a read that lies neither wholly in the data nor wholly in the constants; address: of its bytes, from the lowest
 *       address up, the first outside the one of the two that holds its first byte, or its first byte if neither does.
 *    6  a write that doesn't lie wholly in the data; address: of its bytes, from the lowest address up, the first outside
 *       the data.
 *    7  a divisor of 0, or a quotient that doesn't fit; address: EIP.
 *   10  the code has no byte, or more than 65,536.
 *   11  the data has more than 65,536 bytes.
 *   15  the constants have more than 65,536 bytes.
 *   12  the flags word has bit 1 clear, or a bit set that is no flag.
 *   13  the budget is over 1,000,000.
 *   90  the state doesn't have 20 words.
 * With 1 to 7 all steps before the last stand, and the one that stopped has changed nothing. 10, 11, 15, 12 and 13
 * are tested in this order, and with them no step was taken: the first 18 words and the data stay as they are, steps and
 * address are 0. With 90 nothing is changed.
 *
 * A flag that Intel's 1999 reference leaves undefined after an instruction comes out clear, whatever it was.
 *
 * Singles are computed by the processor's own arithmetic, in the floating-point state of the calling thread. A block that
 * uses them gets the results that are promised, rounded to nearest even, denormals kept, nothing trapping, only in the
 * default state, in which a program starts: not where the caller has set another rounding, has denormals flushed or
 * taken as zero (-ffast-math does, when it links), or lets exceptions trap. sangolid_default_floats sets the default state.
 * A run may set the thread's exception flags, and changes nothing else of that state.
 *
 * A pause changes nothing: a call with budget n and a further one with m, and the same constants, leave and return what
 * one with n + m does, and their steps add up to its steps, where m is at least 1 and n + m at most 1,000,000.
 */
uint32_t sangolid_run(uint32_t *state, size_t state_len, const uint8_t *code, size_t code_len, const uint8_t *constants,
                      size_t constants_len, uint8_t *area, size_t area_len, uint64_t budget);

/*
 * Checks the block: whether the code is instructions from its first byte to its last, and every jump, call and loop with
 * a displacement leads to the start of one.
 *
 * code        the block's bytes. They are only read.
 * code_len    how many they are: 1 to 65,536.
 * marks       a byte for each byte of the code, only written: 1 where an instruction starts, 0 elsewhere.
 * marks_len   how many they are: as many as code_len.
 * answer      1 word, only written: how many instructions the block has if 0 is returned, else an offset into the code.
 * answer_len  how many words the answer has: 1.
 *
 * Returns what was found:
 *    0  accepted; answer: the count of instructions.
 *   10  the code has no byte, or more than 65,536; answer: 0. The marks stay as they are.
 *   14  the marks are not as many as the code's bytes; answer: 0. The marks stay as they are.
 *   21  the code ends inside an instruction; answer: where that begins. All marks are 0.
 *   22  there is no such instruction; answer: where. All marks are 0.
 *   23  a jump, call or loop leads to no start of an instruction; answer: where the first such begins. All marks are 0.
 *   90  the answer doesn't have 1 word. Nothing is changed.
 */
uint32_t sangolid_check(const uint8_t *code, size_t code_len, uint8_t *marks, size_t marks_len, uint32_t *answer,
                        size_t answer_len);

/*
 * Reads a block from an Intel HEX file into the code area.
 *
 * text        the file's bytes. They are only read.
 * text_len    how many they are; any number.
 * code        the code area, only written: offset 0 is the file's address 00010000h.
 * code_len    how many bytes it has; any number. No more than 65,536 are used.
 * answer      1 word, only written: the code's length if 0 is returned, else the number of a line, the first being 1.
 * answer_len  how many words the answer has: 1.
 *
 * Records of type 00 (data), 01 (end) and 04 (upper half of the address) are read, hex digits in either case, a record a
 * line, from colon to checksum, ended by LF or CR LF. With 0 the code reaches the highest byte given, gaps before it hold
 * 90h, and the area beyond it stays. With any other number the whole code area stays as it is.
 *
 * Returns what was found:
 *    0  the file is read; answer: the code's length, 1 to 65,536.
 *   30  this line isn't exactly one record and its end.
 *   31  this line's bytes, checksum included, don't add up to 0 modulo 256.
 *   32  a type other than 00, 01 and 04, or 01 with data bytes, or 04 without just two.
 *   33  a data byte outside the code area, or above 0001FFFFh.
 *   34  an address that an earlier line gave, even with an equal byte.
 *   35  there is no end record; answer: 0.
 *   36  a line after the end record.
 *   37  there is no data byte; answer: 0.
 *   90  the answer doesn't have 1 word. Nothing is changed.
 * The first refused line decides: 36 before the rest, 30 to 34 in their order. Then come 35 and 37. The answer FFFFFFFFh
 * stands for that line and for all after it. The call needs 128 KiB of stack.
 */
uint32_t sangolid_hex(const uint8_t *text, size_t text_len, uint8_t *code, size_t code_len, uint32_t *answer,
                      size_t answer_len);

/*
 * For all three: a null pointer is fine where its length is 0. The lent areas must not overlap. Nothing is kept after the
 * call, and nothing but these areas is read or written.
 */

/* The state's 20 words by name, in their order. */
typedef struct sangolid_state {
    uint32_t eax, ecx, edx, ebx, esp, ebp, esi, edi;
    uint32_t eip;
    uint32_t flags;
    uint32_t xmm0, xmm1, xmm2, xmm3, xmm4, xmm5, xmm6, xmm7;
    uint32_t steps;
    uint32_t address;
} sangolid_state;

#define SANGOLID_STATE_WORDS 20

/* These 20 words are all of it: this doesn't compile where they are not. */
typedef char sangolid_state_is_20_words[sizeof(sangolid_state) == SANGOLID_STATE_WORDS * sizeof(uint32_t) ? 1 : -1];

/* Sets the calling thread's default floating-point state, for blocks that use singles; 0 if it is set. It needs -lm. */
static inline int sangolid_default_floats(void) {
    return fesetenv(FE_DFL_ENV);
}

/* Runs the block as sangolid_run does, with the state by name; 90 can't come back. */
static inline uint32_t sangolid_run_state(sangolid_state *state, const uint8_t *code, size_t code_len,
                                          const uint8_t *constants, size_t constants_len, uint8_t *area,
                                          size_t area_len, uint64_t budget) {
    uint32_t words[SANGOLID_STATE_WORDS];
    uint32_t number;
    memcpy(words, state, sizeof words);
    number = sangolid_run(words, SANGOLID_STATE_WORDS, code, code_len, constants, constants_len, area, area_len, budget);
    memcpy(state, words, sizeof words);
    return number;
}

#ifdef __cplusplus
}
#endif

#endif
