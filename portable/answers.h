/* What the module answers: an instance for each call, with the text and room for the answer in its memory. */
#include "room.h"
#include <stdint.h>
#include <sys/mman.h>
#include <unistd.h>

/* What the module has of its own ends here. */
extern const u64 module_base;

/* Each writes a text at `out`, where `room` bytes are, and its length at `count`, and answers a code (crates/page_answers). */
u32 module_report(struct module *m, u64 text, u64 length, u32 image, u64 out, u64 room, u64 count);
u32 module_states(struct module *m, u64 text, u64 length, u64 out, u64 room, u64 count);
u32 module_fault(struct module *m, u64 text, u64 length, u64 out, u64 room, u64 count);
u32 module_log(struct module *m, u64 text, u64 length, u64 out, u64 room, u64 count, u64 status);
u32 module_plan(struct module *m, u64 text, u64 length, u32 way, u64 out, u64 room, u64 count, u64 status);
u32 module_notes(struct module *m, u64 text, u64 length, u32 status, u64 out, u64 room, u64 count);
u32 module_word(struct module *m, u64 address, u64 metadata, u64 out, u64 room, u64 count);

/* The calls of the module, as crates/page_answers numbers their answers. */
enum code { DONE, NO_MEMORY, SHORT, NONE };
enum call { REPORT, STATES, FAULT, LOG, NOTES, PLAN, LINE };

/* More room than the longest report with its image; what isn't written takes no memory. */
static const u64 MUCH = (u64)96 << 20;

/* What answers a text of so many bytes fills so much memory that its pages, had one by one, take a third of the time. */
static const u64 LONG_TEXT = (u64)1 << 20;

struct asking {
    enum call call;
    const u8 *text;
    u64 length, first, second; /* the numbers that it has beside the text: the word's halves, whether the image, a status, or who does a plan's steps */
};

struct answer {
    enum code code;
    u8 *memory;       /* whose bytes from `start` on are the answer */
    u64 start, length;
    u32 status;
};

static u32 call(struct module *m, const struct asking *it, u64 at, u64 out, u64 room, u64 told) {
    switch (it->call) {
    case REPORT: return module_report(m, at, it->length, (u32)it->first, out, room, told);
    case STATES: return module_states(m, at, it->length, out, room, told);
    case FAULT: return module_fault(m, at, it->length, out, room, told);
    case LOG: return module_log(m, at, it->length, out, room, told, told + 8);
    case PLAN: return module_plan(m, at, it->length, (u32)it->first, out, room, told, told + 8);
    case NOTES: return module_notes(m, at, it->length, (u32)it->first, out, room, told);
    default: return module_word(m, it->first, it->second, out, room, told);
    }
}

/* Asks for memory in large pages where the system has them: for all of its mapping, since one in pieces isn't made longer in place. */
static void in_large_pages(u8 *memory, u64 size) {
#ifdef MADV_HUGEPAGE
    u64 page = (u64)sysconf(_SC_PAGESIZE), before = (uintptr_t)memory % page;
    (void)madvise(memory - before, (size_t)((before + size + page - 1) / page * page), MADV_HUGEPAGE);
#else
    (void)memory, (void)size;
#endif
}

/* What the module answers in a room of so many bytes. */
static struct answer answer_in(const struct asking *it, u64 room) {
    struct answer got = {NO_MEMORY, NULL, 0, 0, 0};
    struct module m;
    struct room rest;
    u64 at, told;
    if (!room_begin(&m, &rest, module_base, it->length + room + 64)) return got;
    if (it->length >= LONG_TEXT) in_large_pages(m.data, m.size);
    module_begin(&m);
    at = rest.next;
    told = (at + it->length + 15) >> 4 << 4;
    got.start = told + 16;
    rest.next = (got.start + room + 15) >> 4 << 4;
    if (it->length) memcpy(m.data + at, it->text, (size_t)it->length);
    got.code = (enum code)call(&m, it, at, got.start, room, told);
    got.memory = m.data;
    got.length = room_number(&m, told);
    got.status = (u32)room_number(&m, told + 8);
    if (got.code != DONE) { free(got.memory); got.memory = NULL; }
    return got;
}

/* What it answers at all: with much room, with little where the machine has not so much, and with as much as it says. */
static struct answer answer_to(const struct asking *it) {
    struct answer got = answer_in(it, MUCH);
    if (got.code == NO_MEMORY) got = answer_in(it, 65536);
    if (got.code == SHORT) got = answer_in(it, got.length);
    return got;
}
