/*
 * A use after free, and the sweep that stops it, in C11 or C++17: a block is freed while a second capability of it is left, which
 * still writes to it until a sweep takes its tag. Only then are its bytes handed out again.
 */
#include <inttypes.h>
#include <kernelstint.h>
#include <stdio.h>
#include <stdlib.h>
#include <string.h>

/* A state is plain bytes, so many for a heap of one page: kernelstint_state_length(1) answers them too. */
enum { LENGTH = 5934 };

/* Ends the program where a call did not do what it was asked. */
static void want_done(uint32_t code) {
    if (code == KERNELSTINT_CODE_DONE) return;
    fprintf(stderr, "code %" PRIu32 ", which kernelstint.h explains\n", code);
    exit(1);
}

/* Does a command in a state, which becomes the state after it. A step reads one state and writes another. */
static kernelstint_reply step(uint8_t *state, uint8_t kind, uint8_t first, uint8_t second, uint64_t number) {
    kernelstint_command command = {kind, first, second, number, 0, 0};
    kernelstint_reply reply;
    uint8_t next[LENGTH];
    want_done(kernelstint_step(state, LENGTH, command, next, LENGTH, &reply));
    memcpy(state, next, LENGTH);
    return reply;
}

/* malloc c1 20: whole granules of 16 bytes. */
static void hand_out(uint8_t *state) {
    kernelstint_reply reply = step(state, KERNELSTINT_COMMAND_MALLOC, 1, 0, 20);
    printf("block 0x%" PRIx64 " 0x%" PRIx64 "\n", reply.base, reply.top);
}

/* Writes 16 zero bytes by register 2. A trap is a reply as others are, and leaves the state as it was. */
static void write_by_copy(uint8_t *state) {
    kernelstint_reply reply = step(state, KERNELSTINT_COMMAND_WRITE, 2, 0, 0);
    puts(reply.kind != KERNELSTINT_REPLY_TRAP ? "written" : reply.trap == KERNELSTINT_TRAP_TAG ? "trap: no tag" : "trap");
}

int main(void) {
    uint8_t state[LENGTH];
    kernelstint_reply reply;
    kernelstint_counts_of counts;
    if (kernelstint_version() != KERNELSTINT_VERSION) return 1;
    want_done(kernelstint_first(0x40000000, 1, state, LENGTH));

    hand_out(state);
    step(state, KERNELSTINT_COMMAND_COPY, 2, 1, 0);
    reply = step(state, KERNELSTINT_COMMAND_FREE, 1, 0, 0);
    printf("held %" PRIu64 "\n", reply.bytes);
    /* The use after free: it harms nobody, since these bytes are no other block's yet. */
    write_by_copy(state);
    /* The sweep takes the tags of all capabilities whose base lies in the freed block, and then its bytes are free. */
    reply = step(state, KERNELSTINT_COMMAND_SWEEP, 0, 0, 0);
    printf("cleared %" PRIu32 " released %" PRIu64 "\n", reply.cleared, reply.bytes);
    hand_out(state);
    write_by_copy(state);

    want_done(kernelstint_counts(state, LENGTH, &counts));
    printf("live %" PRIu64 " held %" PRIu64 " free %" PRIu64 "\n", counts.live, counts.held, counts.free);
    return 0;
}
