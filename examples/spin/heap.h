/*
 * The heap as SPIN's models call it: HEAP_PAGES pages from HEAP_BASE on, of whose state SPIN keeps, compares and gives back HEAP_KEPT
 * bytes. The steps are the proved library's; what a model asserts of them is written out below, by itself.
 */
#include <inttypes.h>
#include <kernelstint.h>
#include <stdio.h>
#include <stdlib.h>
#include <string.h>

#define HEAP_BASE 0x40000000
/* One, or as many as -DHEAP_PAGES=2 says. */
#ifndef HEAP_PAGES
#define HEAP_PAGES 1
#endif
#define HEAP_BYTES KERNELSTINT_STATE_LENGTH(HEAP_PAGES)
/* Where a state tells whether an epoch is open. */
#define HEAP_IS_OPEN_AT 12

/* How long a granule's row of a state is, and all rows together. */
#define HEAP_ROW 21
#define HEAP_ROWS ((size_t)HEAP_ROW * 256 * HEAP_PAGES)
/* What SPIN keeps: the state as it is. With -DHEAP_GRANULES=20 the rows of at most 20 granules, each behind its number and 1, and of
 * no others, whose rows are zeros: they are untagged, hold zeros, and no block starts there. What has no row is zeros too. */
#ifdef HEAP_GRANULES
#define HEAP_KEPT (HEAP_BYTES - HEAP_ROWS + (size_t)(HEAP_ROW + 4) * HEAP_GRANULES)
#else
#define HEAP_KEPT HEAP_BYTES
#endif

/* The last reply, for models that ask what a command was answered. It is no part of a state. */
static kernelstint_reply heap_reply;

/* SPIN's own: not 0 while `pan -r` goes along a trail. */
extern int readtrail;

/* While `pan -r` goes along a trail, each command is printed as the line of a trace. A kind without one stops it. */
static void heap_print(kernelstint_command it) {
    int i;
    switch (it.kind) {
    case KERNELSTINT_COMMAND_MALLOC: printf("trace: malloc c%d %" PRIu64 "\n", it.first, it.number); break;
    case KERNELSTINT_COMMAND_FREE: printf("trace: free c%d\n", it.first); break;
    case KERNELSTINT_COMMAND_COPY: printf("trace: copy c%d c%d\n", it.first, it.second); break;
    case KERNELSTINT_COMMAND_SETADDR: printf("trace: setaddr c%d c%d 0x%" PRIx64 "\n", it.first, it.second, it.number); break;
    case KERNELSTINT_COMMAND_NARROW: printf("trace: narrow c%d c%d %" PRIu64 "\n", it.first, it.second, it.number); break;
    case KERNELSTINT_COMMAND_ANDPERM: printf("trace: andperm c%d c%d 0x%" PRIx64 "\n", it.first, it.second, it.number); break;
    case KERNELSTINT_COMMAND_STORECAP: printf("trace: storecap c%d c%d\n", it.first, it.second); break;
    case KERNELSTINT_COMMAND_LOADCAP: printf("trace: loadcap c%d c%d\n", it.first, it.second); break;
    case KERNELSTINT_COMMAND_WRITE:
        printf("trace: write c%d ", it.first);
        for (i = 0; i < 16; i++) printf("%02x", (unsigned)((i < 8 ? it.low : it.high) >> 8 * (i % 8) & 0xff));
        printf("\n");
        break;
    case KERNELSTINT_COMMAND_SHOW: printf("trace: show c%d\n", it.first); break;
    case KERNELSTINT_COMMAND_SWEEP: printf("trace: sweep\n"); break;
    case KERNELSTINT_COMMAND_BEGIN: printf("trace: begin\n"); break;
    case KERNELSTINT_COMMAND_END: printf("trace: end\n"); break;
    /* A trace has no revoker: its steps are comments there. */
    case KERNELSTINT_COMMAND_PAINT: printf("trace: # paint\n"); break;
    case KERNELSTINT_COMMAND_VISIT: printf("trace: # visit %" PRIu64 "\n", it.number); break;
    case KERNELSTINT_COMMAND_UNTAG: printf("trace: # untag 0x%" PRIx64 "\n", it.number); break;
    case KERNELSTINT_COMMAND_UNTAG_REGISTER: printf("trace: # untag c%d\n", it.first); break;
    case KERNELSTINT_COMMAND_RELEASE: printf("trace: # release\n"); break;
    default:
        fflush(stdout);
        fprintf(stderr, "heap.h: a command of the kind %d has no line of a trace\n", it.kind);
        abort();
    }
}

/* Writes the state of which these bytes are kept. */
static void heap_state(const unsigned char *kept, unsigned char *state) {
#ifdef HEAP_GRANULES
    const unsigned char *row = kept + HEAP_BYTES - HEAP_ROWS;
    int i;
    memcpy(state, kept, KERNELSTINT_GRANULE_AT(0));
    memset(state + KERNELSTINT_GRANULE_AT(0), 0, HEAP_ROWS);
    memcpy(state + KERNELSTINT_REGISTER_AT(HEAP_PAGES, 0), kept + KERNELSTINT_GRANULE_AT(0), HEAP_BYTES - HEAP_ROWS - KERNELSTINT_GRANULE_AT(0));
    for (i = 0; i < HEAP_GRANULES; i++, row += HEAP_ROW + 4) {
        uint32_t number;
        memcpy(&number, row, 4);
        if (number == 0) return;
        memcpy(state + KERNELSTINT_GRANULE_AT(number - 1), row + 4, HEAP_ROW);
    }
#else
    memcpy(state, kept, HEAP_BYTES);
#endif
}

/* Writes what is kept of a state. It stops the search where that has no room. */
static void heap_keep(const unsigned char *state, unsigned char *kept) {
#ifdef HEAP_GRANULES
    static const unsigned char zeros[HEAP_ROW];
    unsigned char *row = kept + HEAP_BYTES - HEAP_ROWS;
    uint32_t number;
    memset(kept, 0, HEAP_KEPT);
    memcpy(kept, state, KERNELSTINT_GRANULE_AT(0));
    memcpy(kept + KERNELSTINT_GRANULE_AT(0), state + KERNELSTINT_REGISTER_AT(HEAP_PAGES, 0), HEAP_BYTES - HEAP_ROWS - KERNELSTINT_GRANULE_AT(0));
    for (number = 1; number <= 256 * HEAP_PAGES; number++) {
        const unsigned char *told = state + KERNELSTINT_GRANULE_AT(number - 1);
        if (memcmp(told, zeros, HEAP_ROW) == 0) continue;
        if (row == kept + HEAP_KEPT) {
            fflush(stdout);
            fprintf(stderr, "heap.h: more than %d granules that are not zero: -DHEAP_GRANULES wants more\n", HEAP_GRANULES);
            abort();
        }
        memcpy(row, &number, 4);
        memcpy(row + 4, told, HEAP_ROW);
        row += HEAP_ROW + 4;
    }
#else
    memcpy(kept, state, HEAP_BYTES);
#endif
}

/* Writes what is kept of the first state. */
static int heap_first(unsigned char *kept) {
    unsigned char state[HEAP_BYTES];
    if (readtrail) printf("trace: heap 0x%x %d\n", HEAP_BASE, HEAP_PAGES);
    if (kernelstint_first(HEAP_BASE, HEAP_PAGES, state, HEAP_BYTES) != KERNELSTINT_CODE_DONE) return 0;
    heap_keep(state, kept);
    return 1;
}

/* Does one command, in place. */
static int heap_command(unsigned char *kept, kernelstint_command command) {
    unsigned char state[HEAP_BYTES], next[HEAP_BYTES];
    if (readtrail) heap_print(command);
    heap_state(kept, state);
    if (kernelstint_step(state, HEAP_BYTES, command, next, sizeof next, &heap_reply) != KERNELSTINT_CODE_DONE) return 0;
#ifdef HEAP_FORGETS_MARKS
    /* They are looked at in an open epoch alone, and what begins one takes them all away. */
    if (next[HEAP_IS_OPEN_AT] == 0) memset(next + KERNELSTINT_PAGE_AT(HEAP_PAGES, 0), 0, HEAP_PAGES);
#endif
    heap_keep(next, kept);
    return 1;
}

/* The same of a command's parts: `number` is its size, its address, its length or its mask. What a record can't hold is none. */
static int heap_step(unsigned char *kept, int kind, int first, int second, uint64_t number) {
    kernelstint_command command = {0};
    if (((kind | first | second) & ~0xff) != 0) return 0;
    command.kind = (uint8_t)kind;
    command.first = (uint8_t)first;
    command.second = (uint8_t)second;
    command.number = number;
    return heap_command(kept, command);
}

/* Writes these 16 bytes to where a register points. */
static int heap_write(unsigned char *kept, int by, const void *bytes) {
    const unsigned char *from = bytes;
    kernelstint_command command = {0};
    int i;
    if ((by & ~0xff) != 0) return 0;
    command.kind = KERNELSTINT_COMMAND_WRITE;
    command.first = (uint8_t)by;
    for (i = 0; i < 8; i++) {
        command.low |= (uint64_t)from[i] << 8 * i;
        command.high |= (uint64_t)from[8 + i] << 8 * i;
    }
    return heap_command(kept, command);
}

/* Whether a tagged word at this place, 16 bytes and the tag behind them, has its base from base up to, not including, top. */
static int heap_points_into(const unsigned char *word, uint64_t base, uint64_t top) {
    kernelstint_coded_word read;
    kernelstint_bounds bounds;
    if (word[KERNELSTINT_TAG_IN] == 0) return 0;
    read = kernelstint_word_from_bytes(word, 16);
    bounds = kernelstint_bounds_of(read.word);
    return base <= bounds.base && bounds.base < top;
}

/* Safe reuse: whether no tagged word of a register or of memory has its base in these addresses. Register `but` is passed over; of
 * -1 none is. */
static int heap_is_unused(const unsigned char *state, uint64_t base, uint64_t top, int but) {
    int i;
    for (i = 0; i < 32; i++)
        if (i != but && heap_points_into(state + KERNELSTINT_REGISTER_AT(HEAP_PAGES, i), base, top)) return 0;
    for (i = 0; i < 256 * HEAP_PAGES; i++)
        if (heap_points_into(state + KERNELSTINT_GRANULE_AT(i), base, top)) return 0;
    return 1;
}

/* Whether the block in which a register's word has its base is live. Its blocks' starts say so: one of length and number 1. */
static int heap_is_live(const unsigned char *state, int r) {
    const unsigned char *word = state + KERNELSTINT_REGISTER_AT(HEAP_PAGES, r);
    kernelstint_bounds bounds = kernelstint_bounds_of(kernelstint_word_from_bytes(word, 16).word);
    int i;
    for (i = 0; i < 256 * HEAP_PAGES; i++) {
        const unsigned char *told = state + KERNELSTINT_GRANULE_AT(i) + KERNELSTINT_BLOCK_IN;
        uint32_t block = told[0] | told[1] << 8 | told[2] << 16 | (uint32_t)told[3] << 24;
        uint64_t start = HEAP_BASE + 16 * (uint64_t)i;
        if (block != 0 && start <= bounds.base && bounds.base < start + block - block % 16) return block % 16 == 1;
    }
    return 0;
}

/* Loads by way of a register, and says whether the node that it points to was live. */
static int heap_read(unsigned char *kept, int to, int by) {
    unsigned char state[HEAP_BYTES];
    heap_state(kept, state);
    return heap_step(kept, KERNELSTINT_COMMAND_LOADCAP, to, by, 0) && heap_is_live(state, by);
}

/* Does one command, and says whether reuse is safe: no word points into the block that it hands out. That is asked of the state
 * before it, and where the malloc swept first, of the state after it, in which the register that got the block is the only one that may. */
static int heap_do(unsigned char *kept, int kind, int first, int second, uint64_t number) {
    unsigned char state[HEAP_BYTES];
    heap_state(kept, state);
    if (!heap_step(kept, kind, first, second, number)) return 0;
    if (heap_reply.kind == KERNELSTINT_REPLY_BLOCK) return heap_is_unused(state, heap_reply.base, heap_reply.top, -1);
    if (heap_reply.kind != KERNELSTINT_REPLY_BLOCK_AFTER) return 1;
    heap_state(kept, state);
    return heap_is_unused(state, heap_reply.base, heap_reply.top, first);
}

/* Whether an epoch is open. */
static int heap_is_open(const unsigned char *kept) {
    return kept[HEAP_IS_OPEN_AT];
}
