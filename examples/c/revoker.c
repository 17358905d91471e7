/* An allocator whose revoker looks for stale pointers while the program runs (Filardo et al. 2020, Cornucopia), and what it tells
 * of itself for heap_check:
 *
 *     cc -o revoker examples/c/revoker.c
 *     ./revoker | ./heap_check
 *     ./revoker late | ./heap_check
 *
 * The second is wrong: it makes a page clean after it has looked, so a pointer that was stored there meanwhile is missed.
 * In your own system the memory is the machine's, and only the lines that begin with `printf` are new. */
#include <inttypes.h>
#include <stdbool.h>
#include <stdio.h>

enum { GRANULE = 16, PAGE = 4096, PAGES = 4, BLOCK = 512, BLOCKS = PAGES * PAGE / BLOCK, GRANULES = PAGES * PAGE / GRANULE };
enum { REGISTERS = 6, ENTRY = REGISTERS };
#define HEAP UINT64_C(0x40000000)

typedef struct {
    bool tag;
    unsigned block; /* the one from which it was derived */
    uint64_t address;
} capability;

static enum { FREE, LIVE, WAITING, PAINTED } blocks[BLOCKS];
static capability memory[GRANULES], registers[REGISTERS + 1];
static bool dirty[PAGES], is_open, is_late;
/* The page that is looked at, and its next granule. */
static unsigned page = PAGES, granule;

static unsigned below(unsigned limit) {
    static uint32_t seed = 1;
    seed = seed * 1664525u + 1013904223u;
    return (seed >> 16) % limit;
}

static uint64_t base_of(unsigned block) { return HEAP + (uint64_t)block * BLOCK; }

/* ---- what the program does */

static void allocate(unsigned to) {
    for (unsigned block = 0; block < BLOCKS; block++) {
        if (blocks[block] == FREE) {
            blocks[block] = LIVE;
            registers[to] = (capability){true, block, base_of(block)};
            printf("malloc c%u %d -> block 0x%" PRIx64 " 0x%" PRIx64 "\n", to, BLOCK, base_of(block), base_of(block) + BLOCK);
            return;
        }
    }
    registers[to] = (capability){false, 0, 0};
    printf("malloc c%u %d -> nospace\n", to, BLOCK);
}

static void release(unsigned from) {
    capability freed = registers[from];
    if (freed.tag && blocks[freed.block] == LIVE) {
        blocks[freed.block] = WAITING;
        printf("free c%u -> held %d\n", from, BLOCK);
    } else printf("free c%u -> trap %s\n", from, freed.tag ? "freed" : "tag");
}

/* Points to one of a few granules of a block, for a store or a load. */
static unsigned entry(unsigned of) {
    registers[ENTRY] = registers[of];
    registers[ENTRY].address = base_of(registers[of].block) + below(3) * GRANULE;
    printf("setaddr c%u c%u 0x%" PRIx64 " -> ok\n", ENTRY, of, registers[ENTRY].address);
    return (unsigned)((registers[ENTRY].address - HEAP) / GRANULE);
}

static void store(unsigned of, unsigned from) {
    unsigned at = entry(of);
    memory[at] = registers[from];
    dirty[at / (PAGE / GRANULE)] |= registers[from].tag;
    printf("storecap c%u c%u -> ok\n", ENTRY, from);
}

static void load(unsigned to, unsigned of) {
    registers[to] = memory[entry(of)];
    printf("loadcap c%u c%u -> ok\n", to, ENTRY);
}

static void run(void) {
    unsigned to = 1 + below(REGISTERS - 1), from = 1 + below(REGISTERS - 1);
    switch (below(6)) {
    case 0: allocate(to); break;
    case 1: release(from); break;
    case 2: case 3: if (registers[to].tag) store(to, from); break;
    default: if (registers[from].tag) load(to, from);
    }
}

/* ---- what the revoker does */

static bool is_stale(capability word) { return word.tag && blocks[word.block] == PAINTED; }

static void look_at(unsigned at) {
    if (is_stale(memory[at])) {
        memory[at].tag = false;
        printf("untag 0x%" PRIx64 " -> cleared 1\n", HEAP + (uint64_t)at * GRANULE);
    }
}

static void begin(void) {
    for (unsigned block = 0; block < BLOCKS; block++) blocks[block] = blocks[block] == WAITING ? PAINTED : blocks[block];
    for (unsigned each = 0; each < PAGES; each++) dirty[each] = true;
    is_open = true;
    printf("paint -> ok\n");
}

/* Nothing runs beside this: what is left is looked at, and then the registers, which may hold what was just stored. */
static void end(void) {
    unsigned bytes = 0;
    for (unsigned at = 0; at < GRANULES; at++)
        if (dirty[at / (PAGE / GRANULE)]) look_at(at);
    for (unsigned r = 1; r <= ENTRY; r++)
        if (is_stale(registers[r])) {
            registers[r].tag = false;
            printf("untag c%u -> cleared 1\n", r);
        }
    for (unsigned block = 0; block < BLOCKS; block++)
        if (blocks[block] == PAINTED) blocks[block] = FREE, bytes += BLOCK;
    is_open = false;
    printf("release -> released %u\n", bytes);
}

/* Looks at a few granules, and lets the program run on. */
static void look(void) {
    if (page == PAGES) {
        for (page = 0; page < PAGES && !dirty[page]; page++) continue;
        if (page == PAGES) { end(); return; }
        granule = 0;
        if (!is_late) dirty[page] = false;
    }
    for (unsigned count = 0; count < 32 && granule < PAGE / GRANULE; count++) look_at(page * (PAGE / GRANULE) + granule++);
    if (granule == PAGE / GRANULE) {
        if (is_late) dirty[page] = false;
        page = PAGES;
    }
}

int main(int count, char **words) {
    is_late = count > 1 && words[1];
    printf("heap 0x%" PRIx64 " %d\n", HEAP, PAGES);
    for (int step = 0; step < 2000; step++) {
        run();
        if (is_open) look();
        else if (below(8) == 0) begin();
    }
    return 0;
}
