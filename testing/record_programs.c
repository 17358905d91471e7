/* Small programs whose calls to the allocator are known, for testing/record: the first word names one. What `told` tells goes to
   standard output without a call to the allocator: a call, and what it was answered. */
#define _GNU_SOURCE
#include <errno.h>
#include <malloc.h>
#include <pthread.h>
#include <signal.h>
#include <spawn.h>
#include <stdint.h>
#include <stdio.h>
#include <stdlib.h>
#include <string.h>
#include <sys/wait.h>
#include <unistd.h>

extern char **environ;

static void told(const char *call, size_t size, uintptr_t block, uintptr_t old) {
    char line[120];
    int length = snprintf(line, sizeof line, "%s %zu %zu %zu\n", call, size, (size_t)block, (size_t)old);
    if (write(1, line, (size_t)length) != length) _exit(99);
}

static void *new_block(size_t size) {
    void *block = malloc(size);
    told("new", size, (uintptr_t)block, 0);
    return block;
}

static void *other(void *old, size_t size) {
    uintptr_t before = (uintptr_t)old;
    void *block = realloc(old, size);
    told("realloc", size, (uintptr_t)block, before);
    return block;
}

static void give_up(void *block) {
    told("free", 0, 0, (uintptr_t)block);
    free(block);
}

/* Kept where no compiler leaves a call out. */
static void *volatile kept;
static void *keep(void *block) { return kept = block; }

static void every_call(void) {
    void *aligned = 0, *first = keep(malloc(10)), *second = keep(calloc(3, 7)), *third = keep(aligned_alloc(64, 128));
    if (posix_memalign(&aligned, 32, 40)) _exit(99);
    keep(aligned);
    second = keep(realloc(second, 100));
    first = keep(reallocarray(first, 4, 8));
    free(0);
    free(third);
    third = keep(realloc(0, 5));
    free(keep(memalign(128, 6)));
    free(keep(valloc(7)));
    free(keep(pvalloc(8)));
    kept = realloc(third, 0);
    free(aligned);
    free(second);
    free(first);
    keep(malloc(0));
}

static void failed_calls(void) {
    void *block = keep(malloc(16)), *aligned = 0;
    volatile size_t most = SIZE_MAX;
    if (malloc(most / 2) || errno != ENOMEM) _exit(99);
    if (calloc(most / 2, 3) || errno != ENOMEM) _exit(99);
    if (realloc(block, most / 2) || errno != ENOMEM) _exit(99);
    if (reallocarray(block, most / 2, 3) || errno != ENOMEM) _exit(99);
    if (posix_memalign(&aligned, 3, 8) != EINVAL) _exit(99);
    memset(block, 1, 16);
    free(block);
}

/* The first realloc has to move the block, the second leaves it, and its length too, the third makes it shorter where it is. */
static void moves(void) {
    void *first = new_block(40), *behind = new_block(40);
    first = other(first, 200);
    first = other(first, 198);
    first = other(first, 24);
    give_up(behind);
    give_up(first);
}

static void reuse(void) {
    void *first = new_block(40), *second = new_block(40);
    give_up(first);
    first = new_block(36);
    give_up(second);
    give_up(first);
}

static void forks(void) {
    int status;
    pid_t child;
    void *block = keep(malloc(1));
    child = fork();
    if (child == 0) {
        free(block);
        free(keep(malloc(2)));
        keep(malloc(20));
        _exit(3);
    }
    if (waitpid(child, &status, 0) != child || WEXITSTATUS(status) != 3) _exit(99);
    keep(malloc(3));
}

static void spawns(void) {
    char *words[] = {"one", "one", 0};
    pid_t child;
    int status;
    keep(malloc(4));
    if (posix_spawn(&child, "/proc/self/exe", 0, 0, words, environ) || waitpid(child, &status, 0) != child) _exit(99);
    keep(malloc(5));
}

static void becomes(void) {
    char *words[] = {"other", "one", 0};
    keep(malloc(12));
    execv("/proc/self/exe", words);
    _exit(99);
}

enum { THREADS = 4 };
static int rounds = 2000;

static void *work(void *number) {
    void *block = 0;
    for (int i = 0; i < rounds; i++) {
        free(block);
        block = malloc(1000 + (size_t)number);
    }
    free(block);
    return 0;
}

static void threads(void) {
    pthread_t all[THREADS];
    for (size_t i = 0; i < THREADS; i++) {
        if (pthread_create(&all[i], 0, work, (void *)i)) _exit(99);
    }
    for (size_t i = 0; i < THREADS; i++) pthread_join(all[i], 0);
}

/* A thread allocates all the time while another forks: the child allocates as well. */
static void forks_beside(void) {
    pthread_t beside;
    int status;
    if (pthread_create(&beside, 0, work, 0)) _exit(99);
    for (int i = 0; i < 50; i++) {
        pid_t child = fork();
        if (child == 0) {
            free(keep(malloc(2)));
            _exit(0);
        }
        if (waitpid(child, &status, 0) != child || status) _exit(99);
    }
    pthread_join(beside, 0);
}

/* The block is freed again after others took slots of their own. */
static void frees_twice(void) {
    void *volatile block = keep(malloc(40));
    keep(malloc(24));
    free(block);
    keep(malloc(16));
    free(block);
    keep(malloc(32));
}

/* The C library finds this one, and ends the program. */
static void frees_at_once(void) {
    void *volatile block = keep(malloc(40));
    free(block);
    free(block);
}

static void frees_none(void) {
    char local[16], *block = keep(malloc(40));
    void *volatile none[] = {block + 16, local};
    free(none[0]);
    free(none[1]);
    free(block);
}

static void far_first(void) {
    keep(malloc(524288));
    for (int i = 0; i < 20; i++) keep(malloc(8));
}

static void blocks(int count, size_t size) {
    for (int i = 0; i < count; i++) keep(malloc(size));
}

static void turns(int count, size_t size) {
    for (int i = 0; i < count; i++) free(keep(malloc(size)));
}

static void says(void) {
    if (write(1, "said\n", 5) != 5 || write(2, "told\n", 5) != 5) _exit(99);
    exit(7);
}

int main(int count, char **words) {
    const char *name = count > 1 ? words[1] : "";
    int number = count > 2 ? atoi(words[2]) : 0;
    size_t size = count > 3 ? strtoul(words[3], 0, 10) : 0;
    if (number) rounds = number;
    if (!strcmp(name, "every_call")) every_call();
    if (!strcmp(name, "failed_calls")) failed_calls();
    if (!strcmp(name, "moves")) moves();
    if (!strcmp(name, "reuse")) reuse();
    if (!strcmp(name, "forks")) forks();
    if (!strcmp(name, "spawns")) spawns();
    if (!strcmp(name, "becomes")) becomes();
    if (!strcmp(name, "threads")) threads();
    if (!strcmp(name, "forks_beside")) forks_beside();
    if (!strcmp(name, "frees_twice")) frees_twice();
    if (!strcmp(name, "frees_at_once")) frees_at_once();
    if (!strcmp(name, "frees_none")) frees_none();
    if (!strcmp(name, "far_first")) far_first();
    if (!strcmp(name, "blocks")) blocks(number, size);
    if (!strcmp(name, "turns")) turns(number, size);
    if (!strcmp(name, "says")) says();
    if (!strcmp(name, "one")) keep(malloc(13));
    if (!strcmp(name, "killed")) {
        keep(malloc(11));
        raise(SIGKILL);
    }
    if (!strcmp(name, "waits")) {
        keep(malloc(14));
        if (write(1, "ready\n", 6) != 6) _exit(99);
        pause();
    }
    return 0;
}
