/*
 * A block that computes with singles, called from C: 1 / 3, in the default floating-point state, which is what Sangolid
 * promises its results for, and in another one, which a caller may have set.
 */
#include <fenv.h>
#include <inttypes.h>
#include <stdio.h>

#include "sangolid.h"

enum { CODE_BASE = 0x00010000, DATA_BASE = 0x00100000, NO_FLAGS = 0x0002, BUDGET = 10 };

/* The block: */
static const uint8_t BLOCK[] = {
    0xF3, 0x0F, 0x5E, 0xC1, /* 0: DIVSS XMM0, XMM1 */
    0xC3                    /* 4: RET */
};

/* The data: the stack's one word, which holds home. */
static const uint8_t HOME[] = {0x00, 0x00, 0xFF, 0xFF};

/* Runs the block on 1 and 3 and prints the bits of the quotient; tells whether the block ended by itself. */
static int run_block(const char *title) {
    uint8_t area[sizeof HOME];
    sangolid_state state = {0};
    memcpy(area, HOME, sizeof area);
    state.xmm0 = 0x3F800000; /* 1 */
    state.xmm1 = 0x40400000; /* 3 */
    state.esp = DATA_BASE;
    state.eip = CODE_BASE;
    state.flags = NO_FLAGS;
    uint32_t number = sangolid_run_state(&state, BLOCK, sizeof BLOCK, NULL, 0, area, sizeof area, BUDGET);
    printf("%s: %08" PRIX32 "h\n", title, state.xmm0);
    return number == 1;
}

int main(void) {
    int ended = run_block("as the program starts");
    ended &= fesetround(FE_TOWARDZERO) == 0;
    ended &= run_block("rounded toward zero by the caller, not as promised");
    ended &= sangolid_default_floats() == 0;
    ended &= run_block("in the default state again");
    return ended ? 0 : 1;
}
