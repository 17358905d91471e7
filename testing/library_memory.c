/*
 * What the calls of the machine take of memory: malloc, realloc and free are wrapped by the linker (--wrap), so that each
 * allocation of a call is counted, and then refused in turn, which has to be answered KERNELSTINT_CODE_NO_MEMORY with nothing written;
 * and no call leaves a block behind, but for a machine that is held, until it is closed. First it tries bindings/c/allocator.c, by
 * which they take memory, and which is compiled with it, since the library has no name for it. With PORTABLE it is the library as C,
 * compiled with it: counted and refused is what its host asks, of the machine and of itself (testing/library_room.h), and after the first
 * call as many blocks are left as after the last. It prints the least and the most allocations of a step on a heap of one page, and the
 * code of a step without memory. It ends with status 1 where an answer is wrong.
 */
#include "kernelstint.h"
#include <stdio.h>
#include <stdlib.h>
#include <string.h>

enum { LENGTH = 5934 };

static long allocations, blocks, granted = -1;

void *__real_malloc(size_t size);
void *__real_realloc(void *block, size_t size);
void __real_free(void *block);
void *__wrap_malloc(size_t size);
void *__wrap_realloc(void *block, size_t size);
void __wrap_free(void *block);

/* Whether one more is granted: all of them where `granted` is below 0. The library as C asks once more for less, so there one that was
 * refused is followed by others. */
static bool is_granted(void) {
    allocations++;
#ifdef PORTABLE
    if (granted == 0) return false;
#endif
    return granted < 0 || granted-- > 0;
}

#ifdef PORTABLE
int room_may_have(void);
void *__real_calloc(size_t count, size_t size);
void *__wrap_calloc(size_t count, size_t size);

int room_may_have(void) {
    return is_granted();
}

void *__wrap_calloc(size_t count, size_t size) {
    void *block = __real_calloc(count, size);
    blocks += block != NULL;
    return block;
}
#define MAY_TAKE() true
#else
#define MAY_TAKE() is_granted()
#endif

void *__wrap_malloc(size_t size) {
    void *block = MAY_TAKE() ? __real_malloc(size) : NULL;
    blocks += block != NULL;
    return block;
}

void *__wrap_realloc(void *block, size_t size) {
    return MAY_TAKE() ? __real_realloc(block, size) : NULL;
}

void __wrap_free(void *block) {
    blocks -= block != NULL;
    __real_free(block);
}

static void want(bool is_so, const char *what) {
    if (is_so) return;
    fprintf(stderr, "%s\n", what);
    exit(1);
}

static uint32_t step(const uint8_t *state, const char *line, uint8_t *out, uint8_t *text, size_t *count) {
    return kernelstint_step_line(state, LENGTH, (const uint8_t *)line, strlen(line), out, LENGTH, text, KERNELSTINT_LONGEST_REPLY, count);
}

#ifdef PORTABLE
static void try_allocator(void) { }
#else
/* As bindings/c/allocator.c has it. */
typedef struct tried {
    bool ok;
    void *at;
} tried;

tried rattle_alloc(size_t size, size_t alignment);
tried rattle_realloc(void *block, size_t kept, size_t size, size_t alignment);
void rattle_dealloc(void *block);

static void try_allocator(void) {
    tried block = rattle_alloc(24, 8);
    want(block.ok && (uintptr_t)block.at % 8 == 0, "24 bytes are refused");
    memset(block.at, 7, 24);
    tried longer = rattle_realloc(block.at, 24, 100000, 8);
    want(longer.ok && ((uint8_t *)longer.at)[23] == 7, "a longer block has other bytes");
    rattle_dealloc(longer.at);
    tried none = rattle_alloc(0, 16);
    want(none.ok && none.at != NULL, "no bytes are refused");
    rattle_dealloc(none.at);
    tried refused = rattle_alloc(SIZE_MAX / 2, 16);
    want(!refused.ok && refused.at != NULL, "all of memory is given, or a null pointer is");
}
#endif

/* ---- Machines that are held ---- */

/* One more allocation is granted each time, until the call is done; before that it is refused, and nothing is left behind. */
#define DONE_AT_LAST(call, is_as_before)                                                        \
    for (long some = 0, before = blocks;; some++) {                                             \
        granted = some;                                                                         \
        uint32_t code = (call);                                                                 \
        granted = -1;                                                                           \
        if (code == KERNELSTINT_CODE_DONE) break;                                                    \
        want(code == KERNELSTINT_CODE_NO_MEMORY, #call ": a refused allocation isn't told");         \
        want((is_as_before) && blocks == before, #call ": something is left of a refused call"); \
    }

static bool is_in(kernelstint_machine *machine, const uint8_t *state) {
    uint8_t told[LENGTH];
    return kernelstint_machine_bytes(machine, told, LENGTH) == KERNELSTINT_CODE_DONE && memcmp(told, state, LENGTH) == 0;
}

/* A command leads the machine where it leads its state. */
static void step_both(kernelstint_machine *machine, uint8_t *state, kernelstint_command command) {
    uint8_t next[LENGTH];
    kernelstint_reply told, wanted;
    memset(&told, 0, sizeof told);
    memset(&wanted, 0, sizeof wanted);
    want(kernelstint_step(state, LENGTH, command, next, LENGTH, &wanted) == KERNELSTINT_CODE_DONE, "a command is refused");
    DONE_AT_LAST(kernelstint_machine_step(machine, command, &told), is_in(machine, state));
    want(memcmp(&told, &wanted, sizeof told) == 0 && is_in(machine, next), "a machine that is held does another step");
    memcpy(state, next, LENGTH);
}

static void try_machines(void) {
    static const kernelstint_command commands[] = {{KERNELSTINT_COMMAND_MALLOC, 1, 0, 64, 0, 0}, {KERNELSTINT_COMMAND_MALLOC, 2, 0, 32, 0, 0}, {KERNELSTINT_COMMAND_STORECAP, 1, 2, 0, 0, 0},
                                                   {KERNELSTINT_COMMAND_FREE, 2, 0, 0, 0, 0},    {KERNELSTINT_COMMAND_BEGIN, 0, 0, 0, 0, 0},   {KERNELSTINT_COMMAND_STORECAP, 1, 1, 0, 0, 0},
                                                   {KERNELSTINT_COMMAND_END, 0, 0, 0, 0, 0},     {KERNELSTINT_COMMAND_FREE, 1, 0, 0, 0, 0},    {KERNELSTINT_COMMAND_MALLOC, 4, 0, 4096, 0, 0}};
    static uint8_t state[LENGTH], other[LENGTH];
    const long before = blocks;
    kernelstint_machine machine = {NULL}, copy = {NULL};
    want(kernelstint_first(0x40000000, 1, state, LENGTH) == KERNELSTINT_CODE_DONE, "no first state");
    want(kernelstint_machine_open(state, LENGTH - 1, &machine) == KERNELSTINT_CODE_BAD_STATE && machine.at == NULL, "a machine of too few bytes");
    DONE_AT_LAST(kernelstint_machine_open(state, LENGTH, &machine), machine.at == NULL);
    for (size_t i = 0; i < sizeof commands / sizeof *commands; i++) step_both(&machine, state, commands[i]);
    DONE_AT_LAST(kernelstint_machine_copy(&machine, &copy), copy.at == NULL && is_in(&machine, state));
    memcpy(other, state, LENGTH);
    want(is_in(&copy, state), "a copy is in another state");
    step_both(&copy, other, (kernelstint_command){KERNELSTINT_COMMAND_FREE, 4, 0, 0, 0, 0});
    want(is_in(&machine, state), "a copy's step leads the machine elsewhere");
    kernelstint_reply reply;
    memset(&reply, 7, sizeof reply);
    want(kernelstint_machine_step(&machine, (kernelstint_command){KERNELSTINT_COMMAND_SHOW, 32, 0, 0, 0, 0}, &reply) == KERNELSTINT_CODE_BAD_COMMAND && reply.kind == 7, "register 32");
    want(kernelstint_machine_bytes(&machine, other, LENGTH - 1) == KERNELSTINT_CODE_BAD_ROOM && is_in(&machine, state), "a room too short");
    want(kernelstint_machine_close(&machine) == KERNELSTINT_CODE_DONE && machine.at == NULL, "a machine isn't closed");
    step_both(&copy, memcpy(state, other, LENGTH), commands[0]);
    want(kernelstint_machine_close(&copy) == KERNELSTINT_CODE_DONE && blocks == before, "a machine that is closed leaves memory behind");
    want(kernelstint_machine_close(&copy) == KERNELSTINT_CODE_NO_MACHINE, "a machine is closed twice");
}

int main(void) {
    static const char *const lines[] = {"malloc c1 64", "malloc c2 32", "storecap c1 c2", "loadcap c3 c1", "write c2 00000000000000000000000000000000",
                                        "show c1", "free c2", "begin", "storecap c1 c1", "end", "free c1", "sweep", "malloc c4 4096", "free c4", "malloc c5 16"};
    static uint8_t state[LENGTH], out[LENGTH], text[KERNELSTINT_LONGEST_REPLY];
    static const uint8_t unwritten[LENGTH];
    const uint8_t *trace = (const uint8_t *)"heap 0x0 1";
    size_t count = 0;
    long least = 1000, most = 0;
    uint32_t code = KERNELSTINT_CODE_DONE;
    try_allocator();
    want(kernelstint_first(0x40000000, 1, state, LENGTH) == KERNELSTINT_CODE_DONE, "no first state");
#ifdef PORTABLE
    const long kept = blocks;
#else
    const long kept = 0;
#endif
    for (size_t i = 0; i < sizeof lines / sizeof *lines; i++) {
        granted = -1;
        allocations = 0;
        want(step(state, lines[i], out, text, &count) == KERNELSTINT_CODE_DONE, lines[i]);
        long taken = allocations;
        least = taken < least ? taken : least;
        most = taken > most ? taken : most;
        uint8_t after[LENGTH];
        memcpy(after, out, LENGTH);
        for (long some = 0; some < taken; some++) {
            memset(out, 0, LENGTH);
            memset(text, 0, sizeof text);
            count = 7;
            granted = some;
            code = step(state, lines[i], out, text, &count);
            want(code == KERNELSTINT_CODE_NO_MEMORY, "a refused allocation isn't told");
            want(count == 7 && text[0] == 0 && memcmp(out, unwritten, LENGTH) == 0, "something is written where memory ran out");
        }
        memcpy(state, after, LENGTH);
    }
    granted = -1;
    want(blocks == kept, "a call leaves memory behind");
    try_machines();
    granted = 0;
    kernelstint_counts_of counts;
    memset(out, 0, LENGTH);
    want(kernelstint_first(0x40000000, 1, out, LENGTH) == KERNELSTINT_CODE_NO_MEMORY, "first without memory");
    granted = 0;
    want(kernelstint_counts(state, LENGTH, &counts) == KERNELSTINT_CODE_NO_MEMORY, "counts without memory");
    granted = 0;
    want(kernelstint_run(trace, 10, out, LENGTH, &count) == KERNELSTINT_CODE_NO_MEMORY, "run without memory");
    printf("%ld %ld %u\n", least, most, (unsigned)code);
    return 0;
}
