/* Holds the library's steps of a revoker, as examples/spin/revoker.h calls them, to what is proved of them together: a paint and visits of all pages, in any order
 * and more than once, are a `begin`, and visits of all pages, untags of all registers and a release are an `end`, both but for the marks of pages; a
 * visit is the untags of its granules. Random states, from the seed that is given; the last line says how many, and how many tags were taken. */
#include "revoker.h"

int readtrail = 0;

static uint64_t seed;

static unsigned below(unsigned most) {
    seed = seed * 6364136223846793005u + 1442695040888963407u;
    return (unsigned)(seed >> 33) % most;
}

/* One command of a few registers, any of which may trap. */
static int any_command(unsigned char *kept) {
    static const uint64_t sizes[] = {16, 32, 48, 2048, 4096}, addresses[] = {0, 16, 32, 4080, 4096, 4112};
    int one = 1 + (int)below(5), other = 1 + (int)below(5);
    switch (below(9)) {
    case 0: case 1: return heap_step(kept, KERNELSTINT_COMMAND_MALLOC, one, 0, sizes[below(5)]);
    case 2: return heap_step(kept, KERNELSTINT_COMMAND_FREE, one, 0, 0);
    case 3: return heap_step(kept, KERNELSTINT_COMMAND_COPY, one, other, 0);
    case 4: return heap_step(kept, KERNELSTINT_COMMAND_SETADDR, one, other, HEAP_BASE + addresses[below(6)]);
    case 5: case 6: return heap_step(kept, KERNELSTINT_COMMAND_STORECAP, one, other, 0);
    case 7: return heap_step(kept, KERNELSTINT_COMMAND_LOADCAP, one, other, 0);
    default: return heap_step(kept, KERNELSTINT_COMMAND_NARROW, one, other, sizes[below(2)]);
    }
}

static unsigned tags_in(const unsigned char *kept) {
    unsigned char state[HEAP_BYTES];
    unsigned count = 0;
    int i;
    heap_state(kept, state);
    for (i = 0; i < 32; i++) count += state[KERNELSTINT_REGISTER_AT(HEAP_PAGES, i) + KERNELSTINT_TAG_IN];
    for (i = 0; i < 256 * HEAP_PAGES; i++) count += state[KERNELSTINT_GRANULE_AT(i) + KERNELSTINT_TAG_IN];
    return count;
}

/* All pages, from any on, some twice; each at once or granule by granule. */
static void visit_all(unsigned char *kept) {
    int page = (int)below(HEAP_PAGES), left = HEAP_PAGES + (int)below(2), i;
    for (; left > 0; left--, page = (page + 1) % HEAP_PAGES) {
        if (below(2)) revoker_visit(kept, page);
        else for (i = 255; i >= 0; i--) revoker_untag(kept, 256 * page + i);
    }
}

static int is_same(const unsigned char *one, const unsigned char *other) { return memcmp(one, other, HEAP_KEPT) == 0; }

int main(int count, char **words) {
    static unsigned char kept[HEAP_KEPT], proved[HEAP_KEPT];
    unsigned run, step, taken = 0, begins = 0, ends = 0;
    seed = count > 1 ? strtoull(words[1], NULL, 10) : 1;
    for (run = 0; run < 300; run++) {
        if (!heap_first(kept)) return 1;
        for (step = 0; step < 60; step++) {
            if (!any_command(kept)) return 2;
            if (below(12) != 0) continue;
            memcpy(proved, kept, HEAP_KEPT);
            taken += tags_in(kept);
            if (heap_is_open(kept)) {
                visit_all(kept);
                revoker_untag_registers(kept);
                if (!revoker_release(kept) || !heap_step(proved, KERNELSTINT_COMMAND_END, 0, 0, 0)) return 3;
                ends++;
            } else {
                revoker_paint(kept);
                visit_all(kept);
                if (!heap_step(proved, KERNELSTINT_COMMAND_BEGIN, 0, 0, 0)) return 4;
                begins++;
            }
            memset(kept + HEAP_KEPT - HEAP_PAGES, 0, HEAP_PAGES);
            memset(proved + HEAP_KEPT - HEAP_PAGES, 0, HEAP_PAGES);
            taken -= tags_in(kept);
            if (!is_same(kept, proved)) {
                printf("run %u, step %u: another state than that of the library\n", run, step);
                return 5;
            }
        }
    }
    printf("%u epochs begun, %u ended, %u tags taken\n", begins, ends, taken);
    return 0;
}
