/*
 * A revoker's own steps, between the program's commands, each as the proved library makes it: it paints, takes tags, and releases.
 * Each answers whether it was done. A release isn't where a tagged word is left that points into a painted block.
 */
#include "heap.h"

static int revoker_step(unsigned char *kept, int kind, int first, uint64_t number) {
    return heap_step(kept, kind, first, 0, number) && heap_reply.kind != KERNELSTINT_REPLY_TRAP;
}

/* Opens an epoch: the blocks that wait are painted, and every page is dirty. A model keeps marks of its own. */
static int revoker_paint(unsigned char *kept) { return revoker_step(kept, KERNELSTINT_COMMAND_PAINT, 0, 0); }

/* Takes the tag of one granule, of all on a page, or of all registers, where the word's base lies in a painted block. */
static int revoker_untag(unsigned char *kept, int granule) {
    return revoker_step(kept, KERNELSTINT_COMMAND_UNTAG, 0, HEAP_BASE + 16 * (uint64_t)granule);
}

static int revoker_visit(unsigned char *kept, int page) { return revoker_step(kept, KERNELSTINT_COMMAND_VISIT, 0, (uint64_t)page); }

static int revoker_untag_registers(unsigned char *kept) {
    int r, is_done = 1;
    for (r = 1; r < 32; r++) is_done &= revoker_step(kept, KERNELSTINT_COMMAND_UNTAG_REGISTER, r, 0);
    return is_done;
}

/* Closes the epoch and looks at nothing: the painted blocks are free. */
static int revoker_release(unsigned char *kept) { return revoker_step(kept, KERNELSTINT_COMMAND_RELEASE, 0, 0); }

/* Whether this word, with its tag behind it, has its base in a painted block. */
static int revoker_is_due(const unsigned char *state, const unsigned char *word) {
    int i;
    for (i = 0; i < 256 * HEAP_PAGES; i++) {
        const unsigned char *at = state + KERNELSTINT_GRANULE_AT(i) + KERNELSTINT_BLOCK_IN;
        uint32_t number = at[0] | at[1] << 8 | at[2] << 16 | (uint32_t)at[3] << 24;
        uint64_t start = HEAP_BASE + 16 * (uint64_t)i;
        if (number % 16 == 3 && heap_points_into(word, start, start + number - 3)) return 1;
    }
    return 0;
}

/* Whether no register holds a tagged word whose base lies in a painted block. */
static int revoker_has_registers(const unsigned char *kept) {
    unsigned char state[HEAP_BYTES];
    int i;
    heap_state(kept, state);
    for (i = 0; i < 32; i++)
        if (revoker_is_due(state, state + KERNELSTINT_REGISTER_AT(HEAP_PAGES, i))) return 0;
    return 1;
}

/* Whether a register is tagged. */
static int revoker_is_tagged(const unsigned char *kept, int r) {
    unsigned char state[HEAP_BYTES];
    heap_state(kept, state);
    return state[KERNELSTINT_REGISTER_AT(HEAP_PAGES, r) + KERNELSTINT_TAG_IN];
}
