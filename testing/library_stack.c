/*
 * How much of the stack the calls take. Each is done by a thread of its own, whose stack was filled with one byte: what is another one
 * behind it was used, less what a thread uses that does nothing. It prints each call with its bytes, the most of its trials on heaps of
 * one page and of 64; what the C library takes for malloc is counted too. It ends with status 1 where a call is refused.
 */
/* For a thread's own stack. */
#define _POSIX_C_SOURCE 200809L
#include "kernelstint.h"
#include <pthread.h>
#include <stdio.h>
#include <stdlib.h>
#include <string.h>

enum { MOST_PAGES = 64, STACK = 1 << 20, UNUSED = 0xa5 };

static _Alignas(4096) uint8_t stack[STACK];
static uint8_t state[KERNELSTINT_STATE_LENGTH(MOST_PAGES)], next[KERNELSTINT_STATE_LENGTH(MOST_PAGES)], text[1 << 20];
static size_t length, count;
static const char *line;
static kernelstint_command command;
static kernelstint_reply reply;
static kernelstint_machine machine, other;

static void want(bool is_so, const char *what) {
    if (is_so) return;
    fprintf(stderr, "%s\n", what);
    exit(1);
}

/* ---- The calls ---- */

static const char trace[] = "heap 0x40000000 1\nmalloc c1 64\nmalloc c2 32\nstorecap c1 c2\nfree c2\nbegin\nend\nfree c1\nsweep\nmalloc c1 4096\nfree c1\nmalloc c2 8\n";

static uint32_t nothing(void) { return KERNELSTINT_CODE_DONE; }
static uint32_t step(void) { return kernelstint_step(state, length, command, next, length, &reply); }
static uint32_t step_line(void) { return kernelstint_step_line(state, length, (const uint8_t *)line, strlen(line), next, length, text, sizeof text, &count); }
static uint32_t follow(void) {
    kernelstint_why why;
    return kernelstint_follow(state, length, command, reply, next, length, &why);
}
static uint32_t counts(void) {
    kernelstint_counts_of told;
    return kernelstint_counts(state, length, &told);
}
static uint32_t register_1(void) {
    kernelstint_tagged_word told;
    return kernelstint_register(state, length, 1, &told);
}
static uint32_t granule(void) {
    kernelstint_tagged_word told;
    return kernelstint_granule(state, length, 0x40000000, &told);
}
static uint32_t run(void) { return kernelstint_run((const uint8_t *)trace, sizeof trace - 1, text, sizeof text, &count); }
static uint32_t states(void) { return kernelstint_states((const uint8_t *)trace, sizeof trace - 1, text, sizeof text, &count); }
static uint32_t trace_fault(void) {
    kernelstint_fault fault;
    return kernelstint_trace_fault((const uint8_t *)trace, sizeof trace - 1, &fault);
}
static uint32_t machine_open(void) { return kernelstint_machine_open(state, length, &other); }
static uint32_t machine_close(void) { return kernelstint_machine_close(&other); }
static uint32_t machine_copy(void) { return kernelstint_machine_copy(&machine, &other); }
static uint32_t machine_bytes(void) { return kernelstint_machine_bytes(&machine, next, length); }
static uint32_t machine_step(void) { return kernelstint_machine_step(&machine, command, &reply); }
static uint32_t first(void) { return kernelstint_first(0x40000000, (uint32_t)(length / 5377), next, length); }

enum { CALLS = 15 };
static const char *const names[CALLS] = {"first", "step", "step_line", "follow", "counts", "register", "granule", "run", "states", "trace_fault", "machine_open", "machine_close", "machine_copy", "machine_bytes", "machine_step"};
static uint32_t (*const calls[CALLS])(void) = {first, step, step_line, follow, counts, register_1, granule, run, states, trace_fault, machine_open, machine_close, machine_copy, machine_bytes, machine_step};
static size_t most[CALLS];

/* ---- What one takes ---- */

static void *done_by(void *call) {
    return (*(uint32_t (*const *)(void))call)() == KERNELSTINT_CODE_DONE ? &count : NULL;
}

/* How many bytes of the stack are used by a thread that does this. */
static size_t used_by(uint32_t (*const *call)(void)) {
    pthread_attr_t attributes;
    pthread_t thread;
    void *is_done = NULL;
    size_t unused = 0;
    memset(stack, UNUSED, STACK);
    want(pthread_attr_init(&attributes) == 0 && pthread_attr_setstack(&attributes, stack, STACK) == 0, "no stack");
    want(pthread_create(&thread, &attributes, done_by, (void *)(uintptr_t)call) == 0 && pthread_join(thread, &is_done) == 0, "no thread");
    want(is_done != NULL, "a call is refused");
    while (unused < STACK && stack[unused] == UNUSED) unused++;
    return STACK - unused;
}

static void try_call(size_t number) {
    static uint32_t (*const none)(void) = nothing;
    size_t least = used_by(&none), used = used_by(&calls[number]);
    used = used > least ? used - least : 0;
    most[number] = used > most[number] ? used : most[number];
}

static void try_all(uint32_t pages) {
    static const char *const lines[] = {"malloc c1 64", "malloc c2 32", "storecap c1 c2", "loadcap c3 c1", "show c1", "free c2",
                                        "begin", "storecap c1 c1", "end", "free c1", "sweep", "malloc c4 4096", "free c4", "malloc c5 16"};
    static const kernelstint_command commands[] = {
        {KERNELSTINT_COMMAND_MALLOC, 1, 0, 64, 0, 0}, {KERNELSTINT_COMMAND_MALLOC, 2, 0, 32, 0, 0}, {KERNELSTINT_COMMAND_STORECAP, 1, 2, 0, 0, 0}, {KERNELSTINT_COMMAND_LOADCAP, 3, 1, 0, 0, 0},
        {KERNELSTINT_COMMAND_SHOW, 1, 0, 0, 0, 0},    {KERNELSTINT_COMMAND_FREE, 2, 0, 0, 0, 0},    {KERNELSTINT_COMMAND_BEGIN, 0, 0, 0, 0, 0},    {KERNELSTINT_COMMAND_STORECAP, 1, 1, 0, 0, 0},
        {KERNELSTINT_COMMAND_END, 0, 0, 0, 0, 0},     {KERNELSTINT_COMMAND_FREE, 1, 0, 0, 0, 0},    {KERNELSTINT_COMMAND_SWEEP, 0, 0, 0, 0, 0},       {KERNELSTINT_COMMAND_MALLOC, 4, 0, 4096, 0, 0},
        {KERNELSTINT_COMMAND_FREE, 4, 0, 0, 0, 0},    {KERNELSTINT_COMMAND_MALLOC, 5, 0, 16, 0, 0}};
    length = kernelstint_state_length(pages);
    want(kernelstint_first(0x40000000, pages, state, length) == KERNELSTINT_CODE_DONE, "no first state");
    want(kernelstint_machine_open(state, length, &machine) == KERNELSTINT_CODE_DONE, "no machine");
    for (size_t i = 0; i < sizeof lines / sizeof *lines; i++) {
        line = lines[i];
        command = commands[i];
        for (size_t number = 0; number < CALLS; number++) {
            try_call(number);
            if (calls[number] == machine_copy) want(machine_close() == KERNELSTINT_CODE_DONE, "a copy isn't closed");
        }
        want(step() == KERNELSTINT_CODE_DONE, lines[i]);
        memcpy(state, next, length);
    }
    want(kernelstint_machine_close(&machine) == KERNELSTINT_CODE_DONE, "a machine isn't closed");
}

int main(void) {
    try_all(1);
    try_all(MOST_PAGES);
    for (size_t number = 0; number < CALLS; number++) printf("%s %zu\n", names[number], most[number]);
    return 0;
}
