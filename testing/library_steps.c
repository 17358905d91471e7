/*
 * The machine by the header alone. It reads a trace from standard input, does it step by step, by records where a line is
 * one of those that it knows and else by lines, and prints the replies' texts as a report has them; then it tries arguments
 * that are refused, and reads a state by the header's macros. With the word "time" and a number of pages and of steps it
 * prints how much processor time a step takes, from bytes to bytes and of a machine that is held, and what else decodes a state or
 * copies a machine. It ends with status 1 where an answer is wrong. C11 and C++17.
 */
#include "kernelstint.h"
#include <inttypes.h>
#include <stdio.h>
#include <stdlib.h>
#include <string.h>
#include <time.h>

static void want(bool is_so, const char *what) {
    if (is_so) return;
    fprintf(stderr, "%s\n", what);
    exit(1);
}

static uint8_t *room_of(size_t length) {
    uint8_t *room = (uint8_t *)calloc(length != 0 ? length : 1, 1);
    want(room != NULL, "no memory");
    return room;
}

static uint64_t number_at(const uint8_t *at, int length) {
    uint64_t number = 0;
    for (int i = length; i > 0; i--) number = number << 8 | at[i - 1];
    return number;
}

static kernelstint_command command_of(uint8_t kind, uint8_t first, uint8_t second, uint64_t number) {
    kernelstint_command command = {kind, first, second, number, 0, 0};
    return command;
}

/* The command of some lines, whose registers are below 32. */
static bool is_known(const char *line, kernelstint_command *command) {
    unsigned first, second;
    uint64_t number;
    memset(command, 0, sizeof *command);
    if (sscanf(line, "malloc c%u %" SCNu64, &first, &number) == 2) {
        command->kind = KERNELSTINT_COMMAND_MALLOC;
        command->number = number;
    } else if (sscanf(line, "copy c%u c%u", &first, &second) == 2) {
        command->kind = KERNELSTINT_COMMAND_COPY;
        command->second = (uint8_t)second;
    } else if (sscanf(line, "show c%u", &first) == 1) {
        command->kind = KERNELSTINT_COMMAND_SHOW;
    } else {
        return false;
    }
    command->first = (uint8_t)first;
    return true;
}

static void print_reply(kernelstint_reply it) {
    switch (it.kind) {
    case KERNELSTINT_REPLY_BLOCK: printf("block 0x%" PRIx64 " 0x%" PRIx64 "\n", it.base, it.top); break;
    case KERNELSTINT_REPLY_DONE: printf("ok\n"); break;
    case KERNELSTINT_REPLY_SHOWN:
        printf("tag %u address 0x%" PRIx64 " base 0x%" PRIx64 " top 0x", it.tag, it.address, it.base);
        if (it.top_high != 0) printf("%" PRIx64 "%016" PRIx64, it.top_high, it.top);
        else printf("%" PRIx64, it.top);
        printf(" perms 0x%x type 0x%" PRIx32 " exponent %u\n", it.perms, it.otype, it.exponent);
        break;
    default: want(false, "a reply of another kind");
    }
}

/* Both ways of a step leave the same state. */
static void do_line(uint8_t *state, size_t length, const char *line) {
    uint8_t *next = room_of(length), *other = room_of(length), text[KERNELSTINT_LONGEST_REPLY];
    size_t count = 0;
    uint32_t code = kernelstint_step_line(state, length, (const uint8_t *)line, strlen(line), next, length, text, sizeof text, &count);
    kernelstint_command command;
    kernelstint_reply reply;
    if (code == KERNELSTINT_CODE_DONE) {
        if (is_known(line, &command)) {
            want(kernelstint_step(state, length, command, other, length, &reply) == KERNELSTINT_CODE_DONE, "a record is refused");
            want(memcmp(next, other, length) == 0, "a line and a record lead to two states");
            print_reply(reply);
        } else {
            printf("%.*s\n", (int)count, (const char *)text);
        }
        memcpy(state, next, length);
    } else {
        want(code == KERNELSTINT_CODE_PASSED_OVER, "a line is refused");
        want(count == 0, "a refused line is counted");
    }
    free(next);
    free(other);
}

static void print_end(const uint8_t *state, size_t length) {
    kernelstint_counts_of counts;
    want(kernelstint_counts(state, length, &counts) == KERNELSTINT_CODE_DONE, "no counts");
    printf("live %" PRIu64 " held %" PRIu64 " free %" PRIu64 "\n", counts.live, counts.held, counts.free);
}

/* What the header says of a state's bytes, of the state after a block of 32 bytes was handed to register 1 and stored in it. */
static void layout(void) {
    size_t length = kernelstint_state_length(1);
    uint8_t *state = room_of(length);
    kernelstint_tagged_word word;
    want(length == 5934 && kernelstint_state_length(0) == 0 && kernelstint_state_length(1025) == 0, "lengths");
    for (uint32_t pages = 1; pages <= 1024; pages++) want(kernelstint_state_length(pages) == KERNELSTINT_STATE_LENGTH(pages), "the macro of a length");
    want(KERNELSTINT_PAGE_AT(1, 0) + 1 == length, "the last page mark isn't the last byte");
    want(kernelstint_first(0x40000000, 1, state, length) == KERNELSTINT_CODE_DONE, "no first state");
    want(number_at(state, 8) == 0x40000000 && number_at(state + 8, 4) == 1 && state[12] == 0, "the head");
    want(state[KERNELSTINT_PAGE_AT(1, 0)] == 0, "a first page is dirty");
    do_line(state, length, "malloc c1 20");
    do_line(state, length, "storecap c1 c1");
    want(number_at(state + KERNELSTINT_GRANULE_AT(0) + KERNELSTINT_BLOCK_IN, 4) == 33, "no live block of 32 bytes");
    want(number_at(state + KERNELSTINT_GRANULE_AT(1) + KERNELSTINT_BLOCK_IN, 4) == 0, "a block inside a block");
    want(state[KERNELSTINT_GRANULE_AT(0) + KERNELSTINT_TAG_IN] == 1 && state[KERNELSTINT_GRANULE_AT(1) + KERNELSTINT_TAG_IN] == 0, "tags");
    want(state[KERNELSTINT_REGISTER_AT(1, 1) + KERNELSTINT_TAG_IN] == 1 && state[KERNELSTINT_REGISTER_AT(1, 0) + KERNELSTINT_TAG_IN] == 0, "registers' tags");
    want(state[KERNELSTINT_PAGE_AT(1, 0)] == 1, "the page isn't dirty");
    want(kernelstint_register(state, length, 1, &word) == KERNELSTINT_CODE_DONE && word.tag == 1, "register 1");
    want(word.low == number_at(state + KERNELSTINT_REGISTER_AT(1, 1), 8) && word.high == number_at(state + KERNELSTINT_REGISTER_AT(1, 1) + 8, 8), "register 1's word");
    want(word.low == 0x40000000, "register 1's address");
    want(kernelstint_granule(state, length, 0x40000000, &word) == KERNELSTINT_CODE_DONE && word.tag == 1 && word.low == 0x40000000, "granule 0");
    want(kernelstint_granule(state, length, 0x40000ff0, &word) == KERNELSTINT_CODE_DONE && word.tag == 0 && word.low == 0 && word.high == 0, "granule 255");
    free(state);
}

static void refusals(void) {
    size_t length = kernelstint_state_length(1), count = 7;
    uint8_t *state = room_of(length), *out = room_of(length), *before = room_of(length), text[KERNELSTINT_LONGEST_REPLY] = {0};
    kernelstint_command show = {KERNELSTINT_COMMAND_SHOW, 0, 255, UINT64_MAX, 1, 1}, wrong = show;
    kernelstint_reply reply, answer;
    kernelstint_why why;
    kernelstint_counts_of counts;
    kernelstint_tagged_word word;
    const uint8_t *line = (const uint8_t *)"show c0", *blank = (const uint8_t *)"  # show c0", *faulty = (const uint8_t *)"show c32";
    memset(&reply, 7, sizeof reply);
    memset(&answer, 0, sizeof answer);
    want(kernelstint_first(0, 0, out, length) == KERNELSTINT_CODE_BAD_SIZE, "first: no pages");
    want(kernelstint_first(0, 1025, out, length) == KERNELSTINT_CODE_BAD_SIZE, "first: 1,025 pages");
    want(kernelstint_first(16, 1, out, length) == KERNELSTINT_CODE_BAD_BASE, "first: a base inside a page");
    want(kernelstint_first(UINT64_MAX - 4095, 2, out, length) == KERNELSTINT_CODE_BAD_BASE, "first: an end past the last address");
    want(kernelstint_first(0, 1, out, length - 1) == KERNELSTINT_CODE_BAD_ROOM, "first: a room too short");
    want(kernelstint_first(0, 1, state, length) == KERNELSTINT_CODE_DONE, "first");
    want(kernelstint_step(state, length, show, state, length, &reply) == KERNELSTINT_CODE_OVERLAP, "step: in place");
    want(kernelstint_step(state, length, show, out, length - 1, &reply) == KERNELSTINT_CODE_BAD_ROOM, "step: a room too short");
    want(kernelstint_step(state, length - 1, show, out, length - 1, &reply) == KERNELSTINT_CODE_BAD_STATE, "step: a byte too few");
    want(kernelstint_step(state, 0, show, out, 0, &reply) == KERNELSTINT_CODE_BAD_STATE, "step: no bytes");
    for (unsigned kind = KERNELSTINT_COMMAND_RELEASE + 1; kind < 256; kind++) {
        wrong.kind = (uint8_t)kind;
        want(kernelstint_step(state, length, wrong, out, length, &reply) == KERNELSTINT_CODE_BAD_COMMAND, "step: a kind of no command");
    }
    wrong = show;
    wrong.first = 32;
    want(kernelstint_step(state, length, wrong, out, length, &reply) == KERNELSTINT_CODE_BAD_COMMAND, "step: register 32");
    wrong = command_of(KERNELSTINT_COMMAND_ANDPERM, 1, 1, 65536);
    want(kernelstint_step(state, length, wrong, out, length, &reply) == KERNELSTINT_CODE_BAD_COMMAND, "step: a mask of 17 bits");
    wrong = command_of(KERNELSTINT_COMMAND_UNTAG_REGISTER, 32, 0, 0);
    want(kernelstint_step(state, length, wrong, out, length, &reply) == KERNELSTINT_CODE_BAD_COMMAND, "step: an untag of register 32");
    wrong = command_of(KERNELSTINT_COMMAND_VISIT, 0, 0, UINT64_C(1) << 32);
    want(kernelstint_step(state, length, wrong, out, length, &reply) == KERNELSTINT_CODE_BAD_COMMAND, "step: a page that no number of 32 bits is");
    want(reply.kind == 7 && reply.bytes == UINT64_C(0x0707070707070707), "step: a reply is written beside a code");
    want(memcmp(out, before, length) == 0, "a room is written beside a code");
    want(kernelstint_step(state, length, show, out, length, &reply) == KERNELSTINT_CODE_DONE && memcmp(out, state, length) == 0, "show changes a state");
    memset(out, 0, length);
    answer.kind = 11;
    want(kernelstint_follow(state, length, show, answer, out, length, &why) == KERNELSTINT_CODE_BAD_REPLY, "follow: a kind of no reply");
    answer.kind = KERNELSTINT_REPLY_DONE;
    want(kernelstint_follow(state, length, show, answer, out, length, &why) == KERNELSTINT_CODE_DIFFERS && why.kind == KERNELSTINT_WHY_MUST_BE, "follow: show is answered ok");
    want(why.reply.kind == KERNELSTINT_REPLY_SHOWN && why.reply.exponent == 52 && why.reply.top_high == 1, "follow: what show must be answered");
    want(memcmp(out, before, length) == 0, "follow: a room is written where the answer differs");
    want(kernelstint_follow(state, length, show, why.reply, out, length, &why) == KERNELSTINT_CODE_DONE && memcmp(out, state, length) == 0, "follow: show");
    wrong = command_of(KERNELSTINT_COMMAND_MALLOC, 1, 0, 32);
    memset(&answer, 0, sizeof answer);
    answer.kind = KERNELSTINT_REPLY_BLOCK;
    answer.base = 0x800;
    answer.top = 0x820;
    want(kernelstint_follow(state, length, wrong, answer, out, length, &why) == KERNELSTINT_CODE_DONE, "follow: another place than the least");
    want(number_at(out + KERNELSTINT_GRANULE_AT(128) + KERNELSTINT_BLOCK_IN, 4) == 33, "follow: no block at that place");
    answer.top = 0x1010;
    answer.base = 0xff0;
    want(kernelstint_follow(state, length, wrong, answer, out, length, &why) == KERNELSTINT_CODE_DIFFERS && why.kind == KERNELSTINT_WHY_REFUSED && why.claim == KERNELSTINT_CLAIM_OUTSIDE,
         "follow: a block past the end");
    memset(out, 0, length);
    want(kernelstint_step_line(state, length, line, 7, out, length, text, 199, &count) == KERNELSTINT_CODE_SHORT_TEXT, "step_line: a text of 199 bytes");
    want(kernelstint_step_line(state, length, blank, 11, out, length, text, 200, &count) == KERNELSTINT_CODE_PASSED_OVER, "step_line: a comment");
    want(kernelstint_step_line(state, length, line, 0, out, length, text, 200, &count) == KERNELSTINT_CODE_PASSED_OVER, "step_line: no word");
    want(kernelstint_step_line(state, length, faulty, 8, out, length, text, 200, &count) == KERNELSTINT_CODE_BAD_LINE, "step_line: register 32");
    want(kernelstint_step_line(state, length, line, 7, out, length - 1, text, 200, &count) == KERNELSTINT_CODE_BAD_ROOM, "step_line: a room too short");
    want(count == 7 && text[0] == 0 && memcmp(out, before, length) == 0, "step_line: something is written beside a code");
    want(kernelstint_counts(state, 13, &counts) == KERNELSTINT_CODE_BAD_STATE, "counts: 13 bytes");
    want(kernelstint_register(state, length, 32, &word) == KERNELSTINT_CODE_BAD_REGISTER && kernelstint_register(state, 1, 31, &word) == KERNELSTINT_CODE_BAD_STATE, "register");
    want(kernelstint_granule(state, length, 0x1000, &word) == KERNELSTINT_CODE_BAD_ADDRESS && kernelstint_granule(state, length, 8, &word) == KERNELSTINT_CODE_BAD_ADDRESS, "granule");
    want(kernelstint_run(line, 7, out, length, &count) == KERNELSTINT_CODE_BAD_TRACE && count == 7, "run: no trace");
    line = (const uint8_t *)"heap 0x0 1";
    want(kernelstint_run(line, 10, out, 1, &count) == KERNELSTINT_CODE_SHORT_TEXT && count == strlen("end live 0 held 0 free 4096 tags 0\n"), "run: a room of one byte");
    want(memcmp(out, before, length) == 0, "run: a room that is too short is written");
    free(state);
    free(out);
    free(before);
}

/* Of the processor's time, which other work on the machine doesn't count. */
static double seconds(void) {
    return (double)clock() / CLOCKS_PER_SEC;
}

static kernelstint_command measured(int i) {
    const kernelstint_command commands[] = {command_of(KERNELSTINT_COMMAND_MALLOC, 1, 0, 64), command_of(KERNELSTINT_COMMAND_STORECAP, 1, 1, 0), command_of(KERNELSTINT_COMMAND_FREE, 1, 0, 0),
                                            command_of(KERNELSTINT_COMMAND_SWEEP, 0, 0, 0)};
    return commands[i % 4];
}

/* What reads a state, and what copies a machine: each so many times. */
static void measure_looks(uint8_t *state, size_t length, kernelstint_machine *machine, int times) {
    static const char *const names[] = {"counts", "register", "granule", "machine_bytes", "machine_open and close", "machine_copy and close"};
    for (int name = 0; name < 6; name++) {
        kernelstint_counts_of counts;
        kernelstint_tagged_word word;
        double begun = seconds();
        for (int i = 0; i < times; i++) {
            kernelstint_machine other = {NULL};
            uint32_t code = KERNELSTINT_CODE_DONE;
            switch (name) {
            case 0: code = kernelstint_counts(state, length, &counts); break;
            case 1: code = kernelstint_register(state, length, 1, &word); break;
            case 2: code = kernelstint_granule(state, length, 0x40000000, &word); break;
            case 3: code = kernelstint_machine_bytes(machine, state, length); break;
            case 4: code = kernelstint_machine_open(state, length, &other); break;
            default: code = kernelstint_machine_copy(machine, &other);
            }
            want(code == KERNELSTINT_CODE_DONE, "a call is refused");
            if (other.at != NULL) want(kernelstint_machine_close(&other) == KERNELSTINT_CODE_DONE, "a machine isn't closed");
        }
        printf("%s: %.1f microseconds\n", names[name], (seconds() - begun) * 1e6 / times);
    }
}

static void measure(uint32_t pages, int steps) {
    size_t length = kernelstint_state_length(pages);
    uint8_t *state = room_of(length), *next = room_of(length);
    kernelstint_machine machine = {NULL};
    kernelstint_reply reply;
    want(kernelstint_first(0x40000000, pages, state, length) == KERNELSTINT_CODE_DONE, "no first state");
    want(kernelstint_machine_open(state, length, &machine) == KERNELSTINT_CODE_DONE, "no machine");
    double begun = seconds();
    for (int i = 0; i < steps; i++) {
        uint8_t *old = state;
        want(kernelstint_step(state, length, measured(i), next, length, &reply) == KERNELSTINT_CODE_DONE, "a step is refused");
        state = next;
        next = old;
    }
    printf("%" PRIu32 " pages: %.1f microseconds a step", pages, (seconds() - begun) * 1e6 / steps);
    begun = seconds();
    for (int i = 0; i < 100 * steps; i++) want(kernelstint_machine_step(&machine, measured(i), &reply) == KERNELSTINT_CODE_DONE, "a step is refused");
    printf(", %.0f nanoseconds one of a machine that is held\n", (seconds() - begun) * 1e9 / (100.0 * steps));
    measure_looks(state, length, &machine, steps);
    want(kernelstint_machine_close(&machine) == KERNELSTINT_CODE_DONE, "a machine isn't closed");
    free(state);
    free(next);
}

int main(int count, char **words) {
    char line[256];
    uint64_t base;
    uint32_t pages;
    uint8_t *state = NULL;
    size_t length = 0;
    if (count == 4 && strcmp(words[1], "time") == 0) {
        measure((uint32_t)atoi(words[2]), atoi(words[3]));
        return 0;
    }
    while (fgets(line, sizeof line, stdin) != NULL) {
        line[strcspn(line, "\n")] = 0;
        if (state == NULL) {
            if (sscanf(line, "heap %" SCNx64 " %" SCNu32, &base, &pages) != 2) continue;
            length = kernelstint_state_length(pages);
            state = room_of(length);
            want(kernelstint_first(base, pages, state, length) == KERNELSTINT_CODE_DONE, "no first state");
        } else {
            do_line(state, length, line);
        }
    }
    want(state != NULL, "no heap");
    print_end(state, length);
    free(state);
    refusals();
    fflush(stdout);
    layout();
    return 0;
}
