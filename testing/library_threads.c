/*
 * Threads that call the library at once: each steps states of its own on heaps of 1, 2 and 16 pages, by bytes and by a machine that is held
 * and copied, and decodes words. It is given how many threads, which all do the same, and prints a sum of all answers of each kind; so
 * the same is printed for every number. It ends with status 1 where two threads have other answers, or one has none.
 */
#include "kernelstint.h"
#include <inttypes.h>
#include <pthread.h>
#include <stdio.h>
#include <stdlib.h>
#include <string.h>

enum { MOST = 64, STEPS = 60 };

static uint64_t sum_of(uint64_t sum, const void *from, size_t count) {
    const uint8_t *at = (const uint8_t *)from;
    for (size_t i = 0; i < count; i++) sum = (sum ^ at[i]) * UINT64_C(1099511628211);
    return sum;
}

static kernelstint_command command_at(int at) {
    static const uint8_t kinds[] = {KERNELSTINT_COMMAND_MALLOC, KERNELSTINT_COMMAND_MALLOC,   KERNELSTINT_COMMAND_STORECAP, KERNELSTINT_COMMAND_COPY,
                                    KERNELSTINT_COMMAND_FREE,   KERNELSTINT_COMMAND_LOADCAP, KERNELSTINT_COMMAND_SWEEP,    KERNELSTINT_COMMAND_SHOW};
    kernelstint_command it;
    memset(&it, 0, sizeof it);
    it.kind = kinds[at % 8];
    it.first = (uint8_t)(1 + at % 5);
    it.second = (uint8_t)(1 + at % 3);
    it.number = (uint64_t)(16 + 16 * (at % 7));
    return it;
}

static uint64_t steps_on(uint32_t pages) {
    size_t length = kernelstint_state_length(pages);
    uint8_t *state = malloc(length), *next = malloc(length);
    kernelstint_machine machine = {NULL}, copy = {NULL};
    uint64_t sum = 0;
    if (!state || !next || kernelstint_first(0x40000000, pages, state, length) || kernelstint_machine_open(state, length, &machine)) exit(1);
    for (int at = 0; at < STEPS; at++) {
        kernelstint_reply reply, held;
        memset(&reply, 0, sizeof reply);
        memset(&held, 0, sizeof held);
        if (kernelstint_step(state, length, command_at(at), next, length, &reply) || kernelstint_machine_step(&machine, command_at(at), &held)) exit(1);
        if (memcmp(&reply, &held, sizeof reply) != 0) exit(1);
        sum = sum_of(sum_of(sum, next, length), &reply, sizeof reply);
        memcpy(state, next, length);
        if (at % 20 == 7) {
            if (kernelstint_machine_copy(&machine, &copy) || kernelstint_machine_close(&machine)) exit(1);
            machine = copy;
            copy.at = NULL;
        }
    }
    if (kernelstint_machine_bytes(&machine, next, length) || memcmp(state, next, length) != 0 || kernelstint_machine_close(&machine)) exit(1);
    free(state);
    free(next);
    return sum;
}

static void *work(void *told) {
    uint64_t sum = 0;
    for (int round = 0; round < 4; round++)
        for (uint32_t pages = 1; pages <= 16; pages *= pages == 1 ? 2 : 8) {
            uint64_t of_steps = steps_on(pages);
            kernelstint_word word = {of_steps, of_steps * 3};
            kernelstint_bounds bounds = kernelstint_bounds_of(word);
            sum = sum_of(sum_of(sum, &of_steps, sizeof of_steps), &bounds, sizeof bounds);
        }
    *(uint64_t *)told = sum;
    return NULL;
}

int main(int count, char **words) {
    int threads = count > 1 ? atoi(words[1]) : 1;
    static pthread_t each[MOST];
    static uint64_t sums[MOST];
    if (threads < 1 || threads > MOST) return 2;
    for (int at = 0; at < threads; at++)
        if (pthread_create(&each[at], NULL, work, &sums[at]) != 0) return 1;
    for (int at = 0; at < threads; at++) pthread_join(each[at], NULL);
    for (int at = 1; at < threads; at++)
        if (sums[at] != sums[0]) return 1;
    printf("%016" PRIx64 "\n", sums[0]);
    return 0;
}
