/*
 * Sums the readings of a 25-hour day, the day on which the clocks go back, with a calculation block.
 *
 * `examples/run-day` does all of it. By hand, from the project's folder, after `tools/staticlib`:
 *   cc -O2 -I include examples/day.c target/staticlib/libsangolid.a -o target/day
 *   target/day | diff - examples/day.expected
 */
#include <inttypes.h>
#include <stdio.h>

#include "sangolid.h"

#define CODE_BASE 0x00010000u /* where the code lies */
#define DATA_BASE 0x00100000u /* where the data lies */
#define HOME 0xFFFF0000u      /* where a block returns to when it has ended */
#define NO_FLAGS 0x0002u      /* a flags word: bit 1 is always set */

#define HOURS 25u
#define WORD_BYTES 4u
#define STACK_AT (HOURS * WORD_BYTES) /* the stack is the word behind the readings */
#define AREA_BYTES (STACK_AT + WORD_BYTES)
#define BUDGET 1000u /* most steps: far more than a day needs, and a block that never ends is stopped */

/* The block: ESI points at the readings, ECX is their count, EAX becomes their sum modulo 2^32. */
static const uint8_t BLOCK[] = {
    0x31, 0xC0,       /* 0:       XOR  EAX, EAX   */
    0x03, 0x06,       /* 2: next: ADD  EAX, [ESI] */
    0x83, 0xC6, 0x04, /* 4:       ADD  ESI, 4     */
    0xE2, 0xF9,       /* 7:       LOOP next       */
    0xC3              /* 9:       RET             */
};

/* The reading of an hour; a report generator takes it from its archive. */
static uint32_t reading(uint32_t hour) { return 1000u + 17u * hour; }

/* Lays a word into the data, lowest byte first, whatever order this processor has. */
static void lay_word(uint8_t *area, uint32_t offset, uint32_t word) {
    for (uint32_t byte = 0; byte < WORD_BYTES; byte++) {
        area[offset + byte] = (uint8_t)(word >> (8u * byte));
    }
}

/* Lays the readings, and behind them the stack, which holds home for the block's RET. */
static void lay_area(uint8_t *area) {
    for (uint32_t hour = 0; hour < HOURS; hour++) {
        lay_word(area, hour * WORD_BYTES, reading(hour));
    }
    lay_word(area, STACK_AT, HOME);
}

/* What a number from sangolid_check means, if it is not 0. */
static const char *check_words(uint32_t number) {
    switch (number) {
    case 10: return "the code has no byte, or more than 65,536";
    case 14: return "the marks are not as many as the code's bytes";
    case 21: return "the code ends inside an instruction";
    case 22: return "there is no such instruction";
    case 23: return "a jump, call or loop leads to no start of an instruction";
    case 90: return "the answer doesn't have 1 word";
    default: return "a number that this program doesn't know";
    }
}

/* What a number from sangolid_run means, if it is not 1. */
static const char *run_words(uint32_t number) {
    switch (number) {
    case 0: return "the budget is used up before the block has ended";
    case 2: return "EIP is outside the code";
    case 3: return "the code ends inside the instruction at EIP";
    case 4: return "there is no such instruction as at EIP";
    case 5: return "a read that lies neither in the data nor in the constants";
    case 6: return "a write outside the data";
    case 7: return "a divisor of 0, or a quotient that doesn't fit";
    case 10: return "the code has no byte, or more than 65,536";
    case 11: return "the data has more than 65,536 bytes";
    case 15: return "the constants have more than 65,536 bytes";
    case 12: return "the flags word has bit 1 clear, or a bit set that is no flag";
    case 13: return "the budget is over 1,000,000";
    default: return "a number that this program doesn't know";
    }
}

/* Checks the block and prints the verdict; tells whether the block was accepted. */
static int check_block(void) {
    uint8_t marks[sizeof BLOCK];
    uint32_t answer = 0;
    uint32_t number = sangolid_check(BLOCK, sizeof BLOCK, marks, sizeof marks, &answer, 1);
    if (number == 0) {
        printf("check: accepted, %" PRIu32 " instructions\n", answer);
    } else {
        printf("check: refused, number %" PRIu32 " at offset %" PRIu32 ": %s\n", number, answer, check_words(number));
    }
    return number == 0;
}

/* Runs the block, which has no constants, on the day's readings and prints the result; tells whether the block ended by itself. */
static int run_block(void) {
    uint8_t area[AREA_BYTES];
    sangolid_state state = {0};
    lay_area(area);
    state.ecx = HOURS;
    state.esi = DATA_BASE;
    state.esp = DATA_BASE + STACK_AT;
    state.eip = CODE_BASE;
    state.flags = NO_FLAGS;
    uint32_t number = sangolid_run_state(&state, BLOCK, sizeof BLOCK, NULL, 0, area, sizeof area, BUDGET);
    if (number != 1) {
        /* EAX is no sum now: it must not get into the report. */
        printf("run: number %" PRIu32 " at %08" PRIX32 "h: %s\n", number, state.address, run_words(number));
        return 0;
    }
    printf("readings: %" PRIu32 "\n", (uint32_t)HOURS);
    printf("sum: %" PRIu32 "\n", state.eax);
    printf("steps: %" PRIu32 "\n", state.steps);
    return 1;
}

int main(void) { return check_block() && run_block() ? 0 : 1; }
