/*
 * The functions of kernelstint.h that are given pointers: each tests them, and then calls the proved export of
 * the crate kernelstint. It is trusted: nothing proves it. A pointer that is null is answered by KERNELSTINT_CODE_NULL, and places
 * of which one is written and that lie over one another by KERNELSTINT_CODE_OVERLAP; nothing is written then.
 */
#include "kernelstint.h"

#ifndef PUBLIC
#define PUBLIC __attribute__((visibility("default")))
#endif

kernelstint_coded_word kernelstint_proved_word_from_bytes(const uint8_t *bytes, size_t length);
uint32_t kernelstint_proved_word_to_bytes(kernelstint_word word, uint8_t *bytes, size_t length);
uint32_t kernelstint_proved_first(uint64_t base, uint32_t pages, uint8_t *out, size_t out_length);
uint32_t kernelstint_proved_step(const uint8_t *state, size_t length, kernelstint_command command, uint8_t *out, size_t out_length,
                                 kernelstint_reply *reply);
uint32_t kernelstint_proved_follow(const uint8_t *state, size_t length, kernelstint_command command, kernelstint_reply answer,
                                   uint8_t *out, size_t out_length, kernelstint_why *why);
uint32_t kernelstint_proved_step_line(const uint8_t *state, size_t length, const uint8_t *line, size_t line_length, uint8_t *out,
                                      size_t out_length, uint8_t *text, size_t text_length, size_t *count);
uint32_t kernelstint_proved_counts(const uint8_t *state, size_t length, kernelstint_counts_of *counts);
uint32_t kernelstint_proved_register(const uint8_t *state, size_t length, uint8_t number, kernelstint_tagged_word *word);
uint32_t kernelstint_proved_granule(const uint8_t *state, size_t length, uint64_t address, kernelstint_tagged_word *word);
uint32_t kernelstint_proved_run(const uint8_t *trace, size_t length, uint8_t *out, size_t out_length, size_t *count);
uint32_t kernelstint_proved_states(const uint8_t *trace, size_t length, uint8_t *out, size_t out_length, size_t *count);

uint32_t kernelstint_proved_trace_fault(const uint8_t *trace, size_t length, kernelstint_fault *fault);
uint32_t kernelstint_proved_line_fault(const uint8_t *line, size_t length, kernelstint_fault *fault);
uint32_t kernelstint_proved_machine_open(const uint8_t *state, size_t length, kernelstint_machine *machine);
uint32_t kernelstint_proved_machine_step(kernelstint_machine *machine, kernelstint_command command, kernelstint_reply *reply);
uint32_t kernelstint_proved_machine_copy(kernelstint_machine *machine, kernelstint_machine *copy);
uint32_t kernelstint_proved_machine_bytes(kernelstint_machine *machine, uint8_t *out, size_t out_length);
void kernelstint_proved_machine_close(kernelstint_machine *machine);

/* A place in memory that a call reads, or writes. */
typedef struct place {
    const void *at;
    size_t length;
    bool is_written;
} place;

static bool are_over(place first, place second) {
    if (first.length == 0 || second.length == 0) return false;
    uintptr_t a = (uintptr_t)first.at, b = (uintptr_t)second.at;
    return a <= b ? b - a < first.length : a - b < second.length;
}

/* The code of places by themselves. */
static uint32_t code_of(const place *places, size_t count) {
    for (size_t i = 0; i < count; i++)
        if (places[i].at == NULL) return KERNELSTINT_CODE_NULL;
    for (size_t i = 0; i < count; i++)
        for (size_t j = i + 1; j < count; j++)
            if ((places[i].is_written || places[j].is_written) && are_over(places[i], places[j])) return KERNELSTINT_CODE_OVERLAP;
    return KERNELSTINT_CODE_DONE;
}

#define READ(at, length) {(at), (length), false}
#define WRITTEN(at, length) {(at), (length), true}
/* Answers the code of these places, where it isn't 0. */
#define TEST_PLACES(...)                                                        \
    do {                                                                        \
        const place places[] = {__VA_ARGS__};                                   \
        uint32_t code = code_of(places, sizeof places / sizeof places[0]);      \
        if (code != KERNELSTINT_CODE_DONE) return code;                              \
    } while (0)

PUBLIC kernelstint_coded_word kernelstint_word_from_bytes(const uint8_t *bytes, size_t length) {
    if (bytes == NULL) return (kernelstint_coded_word){{0, 0}, KERNELSTINT_CODE_NULL};
    return kernelstint_proved_word_from_bytes(bytes, length);
}

PUBLIC uint32_t kernelstint_word_to_bytes(kernelstint_word word, uint8_t *bytes, size_t length) {
    TEST_PLACES(WRITTEN(bytes, length));
    return kernelstint_proved_word_to_bytes(word, bytes, length);
}

PUBLIC uint32_t kernelstint_first(uint64_t base, uint32_t pages, uint8_t *out, size_t out_length) {
    TEST_PLACES(WRITTEN(out, out_length));
    return kernelstint_proved_first(base, pages, out, out_length);
}

PUBLIC uint32_t kernelstint_step(const uint8_t *state, size_t length, kernelstint_command command, uint8_t *out, size_t out_length,
                                 kernelstint_reply *reply) {
    TEST_PLACES(READ(state, length), WRITTEN(out, out_length), WRITTEN(reply, sizeof *reply));
    return kernelstint_proved_step(state, length, command, out, out_length, reply);
}

PUBLIC uint32_t kernelstint_follow(const uint8_t *state, size_t length, kernelstint_command command, kernelstint_reply answer,
                                   uint8_t *out, size_t out_length, kernelstint_why *why) {
    TEST_PLACES(READ(state, length), WRITTEN(out, out_length), WRITTEN(why, sizeof *why));
    return kernelstint_proved_follow(state, length, command, answer, out, out_length, why);
}

PUBLIC uint32_t kernelstint_step_line(const uint8_t *state, size_t length, const uint8_t *line, size_t line_length, uint8_t *out,
                                      size_t out_length, uint8_t *text, size_t text_length, size_t *count) {
    TEST_PLACES(READ(state, length), READ(line, line_length), WRITTEN(out, out_length), WRITTEN(text, text_length),
                WRITTEN(count, sizeof *count));
    return kernelstint_proved_step_line(state, length, line, line_length, out, out_length, text, text_length, count);
}

PUBLIC uint32_t kernelstint_counts(const uint8_t *state, size_t length, kernelstint_counts_of *counts) {
    TEST_PLACES(READ(state, length), WRITTEN(counts, sizeof *counts));
    return kernelstint_proved_counts(state, length, counts);
}

PUBLIC uint32_t kernelstint_register(const uint8_t *state, size_t length, uint8_t number, kernelstint_tagged_word *word) {
    TEST_PLACES(READ(state, length), WRITTEN(word, sizeof *word));
    return kernelstint_proved_register(state, length, number, word);
}

PUBLIC uint32_t kernelstint_granule(const uint8_t *state, size_t length, uint64_t address, kernelstint_tagged_word *word) {
    TEST_PLACES(READ(state, length), WRITTEN(word, sizeof *word));
    return kernelstint_proved_granule(state, length, address, word);
}

PUBLIC uint32_t kernelstint_run(const uint8_t *trace, size_t length, uint8_t *out, size_t out_length, size_t *count) {
    TEST_PLACES(READ(trace, length), WRITTEN(out, out_length), WRITTEN(count, sizeof *count));
    return kernelstint_proved_run(trace, length, out, out_length, count);
}

PUBLIC uint32_t kernelstint_states(const uint8_t *trace, size_t length, uint8_t *out, size_t out_length, size_t *count) {
    TEST_PLACES(READ(trace, length), WRITTEN(out, out_length), WRITTEN(count, sizeof *count));
    return kernelstint_proved_states(trace, length, out, out_length, count);
}

PUBLIC uint32_t kernelstint_trace_fault(const uint8_t *trace, size_t length, kernelstint_fault *fault) {
    TEST_PLACES(READ(trace, length), WRITTEN(fault, sizeof *fault));
    return kernelstint_proved_trace_fault(trace, length, fault);
}

PUBLIC uint32_t kernelstint_line_fault(const uint8_t *line, size_t length, kernelstint_fault *fault) {
    TEST_PLACES(READ(line, length), WRITTEN(fault, sizeof *fault));
    return kernelstint_proved_line_fault(line, length, fault);
}

PUBLIC uint32_t kernelstint_machine_open(const uint8_t *state, size_t length, kernelstint_machine *machine) {
    TEST_PLACES(READ(state, length), WRITTEN(machine, sizeof *machine));
    if (machine->at != NULL) return KERNELSTINT_CODE_IS_OPEN;
    return kernelstint_proved_machine_open(state, length, machine);
}

PUBLIC uint32_t kernelstint_machine_step(kernelstint_machine *machine, kernelstint_command command, kernelstint_reply *reply) {
    TEST_PLACES(WRITTEN(machine, sizeof *machine), WRITTEN(reply, sizeof *reply));
    if (machine->at == NULL) return KERNELSTINT_CODE_NO_MACHINE;
    return kernelstint_proved_machine_step(machine, command, reply);
}

/* The two exports that follow take the machine out of its handle, and put it back: so they are handed another one. */
PUBLIC uint32_t kernelstint_machine_copy(const kernelstint_machine *machine, kernelstint_machine *copy) {
    TEST_PLACES(READ(machine, sizeof *machine), WRITTEN(copy, sizeof *copy));
    if (machine->at == NULL) return KERNELSTINT_CODE_NO_MACHINE;
    if (copy->at != NULL) return KERNELSTINT_CODE_IS_OPEN;
    kernelstint_machine held = *machine;
    return kernelstint_proved_machine_copy(&held, copy);
}

PUBLIC uint32_t kernelstint_machine_bytes(const kernelstint_machine *machine, uint8_t *out, size_t out_length) {
    TEST_PLACES(READ(machine, sizeof *machine), WRITTEN(out, out_length));
    if (machine->at == NULL) return KERNELSTINT_CODE_NO_MACHINE;
    kernelstint_machine held = *machine;
    return kernelstint_proved_machine_bytes(&held, out, out_length);
}

PUBLIC uint32_t kernelstint_machine_close(kernelstint_machine *machine) {
    TEST_PLACES(WRITTEN(machine, sizeof *machine));
    if (machine->at == NULL) return KERNELSTINT_CODE_NO_MACHINE;
    kernelstint_proved_machine_close(machine);
    return KERNELSTINT_CODE_DONE;
}
