/*
 * The machine under random use, by the header alone: traces of random commands, of which each step is done twice from the bytes
 * of the state before at two addresses, and some of them by the command's line, by what an allocator answers, and with
 * allocations refused (malloc and realloc are wrapped by the linker, or the library as C asks here; as for testing/library_memory.c); the counts of each state,
 * against its bytes; and states of which a random bit is turned, which are refused, or are their own encoding. Around each room
 * lie bytes that no call may write. It is given a seed and a number of traces, prints what it has tried, and ends with status 1
 * where an answer is wrong.
 */
#include "kernelstint.h"
#include <inttypes.h>
#include <stdio.h>
#include <stdlib.h>
#include <string.h>

enum { MOST_PAGES = 3, MOST_BYTES = 557 + 5377 * MOST_PAGES, GUARD = 64, UNWRITTEN = 0xa5, STEPS = 40, STEPS_A_TURN = 8, REGISTERS = 5, KINDS = 13, REPLIES = 12, TRAPS = 11 };

static unsigned long trace_number, step_number;

static void want(bool is_so, const char *what) {
    if (is_so) return;
    fprintf(stderr, "trace %lu, step %lu: %s\n", trace_number, step_number, what);
    exit(1);
}

/* ---- Random numbers: splitmix64 ---- */

static uint64_t seed;

static uint64_t any_number(void) {
    uint64_t it = (seed += UINT64_C(0x9e3779b97f4a7c15));
    it = (it ^ (it >> 30)) * UINT64_C(0xbf58476d1ce4e5b9);
    it = (it ^ (it >> 27)) * UINT64_C(0x94d049bb133111eb);
    return it ^ (it >> 31);
}

static uint32_t below(uint32_t bound) {
    return (uint32_t)(any_number() % bound);
}

/* ---- Allocations, of which those from `first_refused` on and before `next_granted` are refused ---- */

static long asked, first_refused, next_granted;
static bool is_refused;

static bool is_granted(void) {
    bool is_now_refused = asked >= first_refused && asked < next_granted;
    asked++;
    is_refused = is_refused || is_now_refused;
    return !is_now_refused;
}

#ifdef PORTABLE /* the library as C asks its host */
int room_may_have(void);

int room_may_have(void) {
    return is_granted();
}
#else
void *__real_malloc(size_t size);
void *__real_realloc(void *block, size_t size);
void *__wrap_malloc(size_t size);
void *__wrap_realloc(void *block, size_t size);

void *__wrap_malloc(size_t size) {
    return is_granted() ? __real_malloc(size) : NULL;
}

void *__wrap_realloc(void *block, size_t size) {
    return is_granted() ? __real_realloc(block, size) : NULL;
}
#endif

static void grant_all(void) {
    first_refused = next_granted = 0;
}

/* One of the next allocations, or all from one on. */
static void refuse_some(void) {
    asked = 0;
    is_refused = false;
    first_refused = below(18);
    next_granted = below(2) == 0 ? first_refused + 1 : 1000000;
}

/* ---- Rooms ---- */

/* Room for a state, at any address. */
typedef struct room {
    uint8_t bytes[MOST_BYTES + 3 * GUARD];
    uint8_t *at;
    size_t length;
} room;

static void prepare(room *it, size_t length) {
    memset(it->bytes, UNWRITTEN, sizeof it->bytes);
    it->at = it->bytes + GUARD + below(GUARD);
    it->length = length;
}

static bool is_unwritten(const void *from, const void *to) {
    const uint8_t *at = (const uint8_t *)from;
    while (at != to && *at == UNWRITTEN) at++;
    return at == to;
}

static void copy_to(room *copy, const room *it) {
    prepare(copy, it->length);
    memcpy(copy->at, it->at, it->length);
}

static bool is_same(const room *one, const room *other) {
    return one->length == other->length && memcmp(one->at, other->at, one->length) == 0;
}

/* Nothing is written beside the room, and beside a code nothing at all. */
static void want_written_well(const room *it, uint32_t code) {
    want(is_unwritten(it->bytes, it->at), "a byte before the room is written");
    want(is_unwritten(it->at + it->length, it->bytes + sizeof it->bytes), "a byte behind the room is written");
    want(code == KERNELSTINT_CODE_DONE || is_unwritten(it->at, it->at + it->length), "the room is written beside a code");
}

/* ---- Calls ---- */

static unsigned long steps, without_memory, replies[REPLIES], traps[TRAPS];

/* A step from a state to a room, which is made for it. */
static uint32_t step(const room *state, kernelstint_command command, room *out, kernelstint_reply *reply) {
    prepare(out, state->length);
    memset(reply, UNWRITTEN, sizeof *reply);
    uint32_t code = kernelstint_step(state->at, state->length, command, out->at, out->length, reply);
    want_written_well(out, code);
    want(code == KERNELSTINT_CODE_DONE || is_unwritten(reply, reply + 1), "a reply is written beside a code");
    return code;
}

static bool is_same_reply(kernelstint_reply one, kernelstint_reply other) {
    return one.kind == other.kind && one.trap == other.trap && one.tag == other.tag && one.exponent == other.exponent && one.perms == other.perms &&
           one.cleared == other.cleared && one.otype == other.otype && one.base == other.base && one.top == other.top && one.top_high == other.top_high &&
           one.address == other.address && one.bytes == other.bytes;
}

/* The step with an allocation refused: it is answered KERNELSTINT_CODE_NO_MEMORY where one was, or as without. */
static void step_without_memory(const room *state, kernelstint_command command, uint32_t right, const room *after, kernelstint_reply told) {
    static room out;
    kernelstint_reply reply;
    refuse_some();
    uint32_t code = step(state, command, &out, &reply);
    grant_all();
    if (code == KERNELSTINT_CODE_NO_MEMORY && right != code) {
        want(is_refused, "want of memory is told where there is none");
        without_memory++;
        return;
    }
    want(code == right, "a refused allocation changes a code");
    want(code != KERNELSTINT_CODE_DONE || (is_same(&out, after) && is_same_reply(reply, told)), "a refused allocation changes an answer");
}

static uint32_t counts_of(const room *state, kernelstint_counts_of *counts) {
    memset(counts, UNWRITTEN, sizeof *counts);
    uint32_t code = kernelstint_counts(state->at, state->length, counts);
    want(code == KERNELSTINT_CODE_DONE || is_unwritten(counts, counts + 1), "counts are written beside a code");
    return code;
}

static void counts_without_memory(const room *state, uint32_t right, uint64_t live) {
    kernelstint_counts_of counts;
    refuse_some();
    uint32_t code = counts_of(state, &counts);
    grant_all();
    want(code == right || (code == KERNELSTINT_CODE_NO_MEMORY && is_refused), "a refused allocation changes the code of counts");
    want(code != KERNELSTINT_CODE_DONE || counts.live == live, "a refused allocation changes counts");
    without_memory += code == KERNELSTINT_CODE_NO_MEMORY;
}

/* The bytes in live blocks, and in held ones, as the state's own bytes tell them. */
static void add_blocks(const room *state, uint64_t *live, uint64_t *held) {
    for (const uint8_t *granule = state->at + KERNELSTINT_GRANULE_AT(0); granule != state->at + KERNELSTINT_REGISTER_AT(state->at[8], 0); granule += 21) {
        const uint8_t *number = granule + KERNELSTINT_BLOCK_IN;
        uint32_t told = number[0] | (uint32_t)number[1] << 8 | (uint32_t)number[2] << 16 | (uint32_t)number[3] << 24;
        *(told % 16 == 1 ? live : held) += told / 16 * 16;
    }
}

/* The counts of a state are those of its bytes, and together all of the heap. */
static void try_counts(const room *state) {
    uint64_t live = 0, held = 0;
    kernelstint_counts_of counts;
    want(counts_of(state, &counts) == KERNELSTINT_CODE_DONE, "a state has no counts");
    add_blocks(state, &live, &held);
    want(counts.live == live && counts.held == held, "the counts aren't those of the state's bytes");
    want(counts.live + counts.held + counts.free == UINT64_C(4096) * state->at[8], "the counts aren't all of the heap");
    want(counts.is_open == state->at[12], "the counts tell otherwise of an epoch");
    if (below(4) == 0) counts_without_memory(state, KERNELSTINT_CODE_DONE, live);
}

/* ---- Random commands ---- */

static const char *const names[KINDS] = {"malloc", "free", "copy", "setaddr", "narrow", "andperm", "storecap", "loadcap", "write", "show", "sweep", "begin", "end"};

/* Kinds of commands and of a revoker's steps, as often as they come. */
static const uint8_t often[] = {
    KERNELSTINT_COMMAND_MALLOC, KERNELSTINT_COMMAND_MALLOC, KERNELSTINT_COMMAND_MALLOC, KERNELSTINT_COMMAND_MALLOC, KERNELSTINT_COMMAND_MALLOC, KERNELSTINT_COMMAND_MALLOC, KERNELSTINT_COMMAND_FREE, KERNELSTINT_COMMAND_FREE,
    KERNELSTINT_COMMAND_FREE, KERNELSTINT_COMMAND_FREE, KERNELSTINT_COMMAND_COPY, KERNELSTINT_COMMAND_COPY, KERNELSTINT_COMMAND_SETADDR, KERNELSTINT_COMMAND_SETADDR, KERNELSTINT_COMMAND_NARROW, KERNELSTINT_COMMAND_NARROW, KERNELSTINT_COMMAND_NARROW,
    KERNELSTINT_COMMAND_ANDPERM, KERNELSTINT_COMMAND_STORECAP, KERNELSTINT_COMMAND_STORECAP, KERNELSTINT_COMMAND_STORECAP, KERNELSTINT_COMMAND_STORECAP, KERNELSTINT_COMMAND_LOADCAP, KERNELSTINT_COMMAND_LOADCAP,
    KERNELSTINT_COMMAND_WRITE, KERNELSTINT_COMMAND_SHOW, KERNELSTINT_COMMAND_SWEEP, KERNELSTINT_COMMAND_BEGIN, KERNELSTINT_COMMAND_END,
    KERNELSTINT_COMMAND_PAINT, KERNELSTINT_COMMAND_VISIT, KERNELSTINT_COMMAND_UNTAG, KERNELSTINT_COMMAND_UNTAG_REGISTER, KERNELSTINT_COMMAND_RELEASE};

/* Sizes and lengths: small ones, some of none, any within the heap, all of it, and any. */
static uint64_t random_length(uint32_t pages) {
    switch (below(8)) {
    case 0: return below(4096 * pages);
    case 1: return below(2) == 0 ? any_number() : 4096 * pages;
    case 2: return below(2);
    default: return below(160);
    }
}

static uint64_t random_number(uint8_t kind, uint64_t base, uint32_t pages) {
    switch (kind) {
    case KERNELSTINT_COMMAND_SETADDR: return below(8) == 0 ? any_number() : base + below(below(2) == 0 ? 320 : 4096 * pages) / 8 * 8;
    case KERNELSTINT_COMMAND_ANDPERM: return below(2) == 0 ? below(65536) : 65535 ^ 1u << below(6);
    case KERNELSTINT_COMMAND_NARROW: return below(2) == 0 ? below(4096 * pages) : random_length(pages);
    case KERNELSTINT_COMMAND_VISIT: return below(8) == 0 ? (uint32_t)any_number() : below(pages);
    case KERNELSTINT_COMMAND_UNTAG: return below(8) == 0 ? any_number() : base + below(320) / 8 * 8;
    default: return random_length(pages);
    }
}

static kernelstint_command random_command(uint64_t base, uint32_t pages) {
    uint8_t kind = often[below(sizeof often)];
    kernelstint_command it = {.kind = kind, .first = (uint8_t)below(REGISTERS), .second = (uint8_t)below(REGISTERS), .number = random_number(kind, base, pages)};
    it.low = any_number();
    it.high = any_number();
    return it;
}

/* The line of a command. */
static void write_line(kernelstint_command it, char *line, size_t room_for) {
    int count = snprintf(line, room_for, "%s", names[it.kind]);
    char *at = line + count;
    size_t left = room_for - (size_t)count;
    switch (it.kind) {
    case KERNELSTINT_COMMAND_MALLOC: snprintf(at, left, " c%u %" PRIu64, it.first, it.number); break;
    case KERNELSTINT_COMMAND_SETADDR:
    case KERNELSTINT_COMMAND_NARROW:
    case KERNELSTINT_COMMAND_ANDPERM: snprintf(at, left, " c%u c%u 0x%" PRIx64, it.first, it.second, it.number); break;
    case KERNELSTINT_COMMAND_COPY:
    case KERNELSTINT_COMMAND_STORECAP:
    case KERNELSTINT_COMMAND_LOADCAP: snprintf(at, left, " c%u c%u", it.first, it.second); break;
    case KERNELSTINT_COMMAND_WRITE: snprintf(at, left, " c%u %016" PRIx64 "%016" PRIx64, it.first, __builtin_bswap64(it.low), __builtin_bswap64(it.high)); break;
    case KERNELSTINT_COMMAND_FREE:
    case KERNELSTINT_COMMAND_SHOW: snprintf(at, left, " c%u", it.first); break;
    default: break;
    }
}

/* ---- Steps ---- */

/* The command's line leads where the command does. A revoker's step has none. */
static void try_line(const room *state, kernelstint_command command, const room *after) {
    static room out;
    char line[100];
    uint8_t text[KERNELSTINT_LONGEST_REPLY];
    size_t count = 0;
    if (command.kind >= KINDS) return;
    write_line(command, line, sizeof line);
    prepare(&out, state->length);
    uint32_t code = kernelstint_step_line(state->at, state->length, (const uint8_t *)line, strlen(line), out.at, out.length, text, sizeof text, &count);
    want_written_well(&out, code);
    want(code == KERNELSTINT_CODE_DONE && count > 0 && is_same(&out, after), "a line leads to another state than its command");
}

/* What the machine answers is allowed, and leads where the machine went. */
static void try_follow(const room *state, kernelstint_command command, kernelstint_reply reply, const room *after) {
    static room out;
    kernelstint_why why;
    prepare(&out, state->length);
    uint32_t code = kernelstint_follow(state->at, state->length, command, reply, out.at, out.length, &why);
    want_written_well(&out, code);
    want(command.kind < KINDS ? code == KERNELSTINT_CODE_DONE && is_same(&out, after) : code == KERNELSTINT_CODE_BAD_COMMAND, "the machine's own answer isn't allowed");
}

/* Does a command in a state, which becomes the state after it. */
static void try_step(room *state, kernelstint_command command) {
    static room after, copy, other;
    kernelstint_reply reply, again;
    want(step(state, command, &after, &reply) == KERNELSTINT_CODE_DONE, "a step is refused");
    copy_to(&copy, state);
    want(step(&copy, command, &other, &again) == KERNELSTINT_CODE_DONE, "a step is refused from another address");
    want(is_same(&after, &other) && is_same_reply(reply, again), "a step from the same bytes is another");
    if (below(4) == 0) step_without_memory(state, command, KERNELSTINT_CODE_DONE, &after, reply);
    if (below(4) == 0) try_line(state, command, &after);
    if (below(4) == 0) try_follow(state, command, reply, &after);
    want(reply.kind < REPLIES && reply.trap < TRAPS, "a reply of no kind");
    replies[reply.kind]++;
    traps[reply.trap] += reply.kind == KERNELSTINT_REPLY_TRAP;
    steps++;
    copy_to(state, &after);
}

/* `show`, which changes nothing, gives the bytes of a state back. */
static uint32_t encode_anew(const room *state, room *out, kernelstint_reply *reply) {
    kernelstint_command show = {.kind = KERNELSTINT_COMMAND_SHOW, .first = (uint8_t)below(32)};
    uint32_t code = step(state, show, out, reply);
    want(code == KERNELSTINT_CODE_BAD_STATE || (code == KERNELSTINT_CODE_DONE && is_same(out, state)), "bytes are taken for a state, and are another's");
    if (below(4) == 0) step_without_memory(state, show, code, out, *reply);
    return code;
}

/* ---- States with a turned bit ---- */

static unsigned long turned, taken;

/* Where a bit is turned: anywhere, in the head, in one of the first granules, in a register, or in the mark of a page. */
static size_t random_place(const room *state) {
    uint32_t pages = state->at[8];
    switch (below(6)) {
    case 0: return below((uint32_t)state->length);
    case 1: return below(13);
    case 2: return KERNELSTINT_REGISTER_AT(pages, 0) + below(17 * 8);
    case 3: return KERNELSTINT_PAGE_AT(pages, below(pages));
    default: return KERNELSTINT_GRANULE_AT(below(32)) + below(21);
    }
}

static void try_turned(const room *state) {
    static room changed, out;
    kernelstint_reply reply;
    kernelstint_counts_of counts;
    copy_to(&changed, state);
    changed.at[random_place(state)] ^= (uint8_t)(1u << below(8));
    uint32_t code = encode_anew(&changed, &out, &reply);
    turned++;
    if (code == KERNELSTINT_CODE_DONE) {
        taken++;
        try_counts(&changed);
    } else {
        want(counts_of(&changed, &counts) == KERNELSTINT_CODE_BAD_STATE, "bytes are no state to a step, and one to counts");
        if (below(4) == 0) counts_without_memory(&changed, KERNELSTINT_CODE_BAD_STATE, 0);
    }
}

/* ---- Traces, of which some begin with a block of the whole heap ---- */

static void try_trace(void) {
    static room state, out;
    uint32_t pages = below(2) == 0 ? 1 : 1 + below(MOST_PAGES), turn = below(STEPS_A_TURN);
    uint64_t base = below(4) == 0 ? 0 - UINT64_C(4096) * pages : UINT64_C(4096) * below(1u << 20);
    kernelstint_command whole = {.kind = KERNELSTINT_COMMAND_MALLOC, .first = 1, .number = UINT64_C(4096) * pages};
    kernelstint_reply reply;
    prepare(&state, kernelstint_state_length(pages));
    want(kernelstint_first(base, pages, state.at, state.length) == KERNELSTINT_CODE_DONE, "no first state");
    for (step_number = 0; step_number < STEPS; step_number++) {
        try_step(&state, step_number == 0 && below(4) == 0 ? whole : random_command(base, pages));
        try_counts(&state);
        want(encode_anew(&state, &out, &reply) == KERNELSTINT_CODE_DONE, "a state is refused");
        if (step_number % STEPS_A_TURN == turn) try_turned(&state);
    }
}

static unsigned kinds_seen(const unsigned long *seen, unsigned count) {
    unsigned kinds = 0;
    for (unsigned i = 0; i < count; i++) kinds += seen[i] != 0;
    return kinds;
}

int main(int count, char **words) {
    if (count != 3) return 2;
    unsigned long traces = strtoul(words[2], NULL, 10);
    seed = strtoull(words[1], NULL, 10);
    for (trace_number = 0; trace_number < traces; trace_number++) try_trace();
    printf("%lu traces, %lu steps with %u kinds of replies and %u traps, %lu turned states, %lu of them states, %lu calls without memory\n", traces, steps,
           kinds_seen(replies, REPLIES), kinds_seen(traps, TRAPS), turned, taken, without_memory);
    return 0;
}
