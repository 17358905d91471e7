/* The room of an instance: its memory begins with what the module has of its own, and grows as room is asked for. Room that comes back is
 * handed out again to who asks for as much, in sizes of which there are four for each power of two. */
#include "module.h"
#include <stdlib.h>

enum { ROOM_HEAD = 16, ROOM_SIZES = 4 * 32 };
static const u64 ROOM_MOST = (u64)65535 << 16;

struct room {
    u64 next;              /* where room begins that was never handed out */
    u64 back[ROOM_SIZES];  /* the first of each size that came back; it has the next one */
    int is_fixed;          /* whether the memory stays as long as it is */
};

/* Whether the memory may be asked for, in a test that refuses some. */
#ifndef ROOM_MAY_HAVE
#define ROOM_MAY_HAVE() 1
#endif

static u64 room_number(const struct module *m, u64 at) { u64 it; memcpy(&it, m->data + at, 8); return it; }
static void room_put(struct module *m, u64 at, u64 it) { memcpy(m->data + at, &it, 8); }

/* Takes all room back that was handed out. */
static void room_forget(struct room *room, u64 start) {
    memset(room->back, 0, sizeof room->back);
    room->next = start;
}

/* Begins an instance, of whose memory its own lies below `base`, with room for `first` bytes beside it. The answer is 0 where the machine refused. */
static int room_begin(struct module *m, struct room *room, u64 base, u64 first) {
    u64 size = (base + first + 65535) >> 16 << 16;
    memset(room, 0, sizeof *room);
    room->next = base;
    if (size > ROOM_MOST || (u64)(size_t)size != size) return 0;
    m->data = ROOM_MAY_HAVE() ? calloc((size_t)size, 1) : NULL;
    m->size = size;
    m->host = room;
    return m->data != NULL;
}

/* Makes the memory so long, and twice as long as it was where that can be had. */
static int room_reach(struct module *m, u64 end) {
    u64 exact = (end + 65535) >> 16 << 16, twice = m->size * 2 > ROOM_MOST ? ROOM_MOST : m->size * 2;
    if (end <= m->size) return 1;
    if (end > ROOM_MOST || ((struct room *)m->host)->is_fixed) return 0;
    for (u64 size = twice > exact ? twice : exact; ; size = exact) {
        u8 *more = (u64)(size_t)size == size ? realloc(m->data, (size_t)size) : NULL;
        if (more) { m->data = more; m->size = size; return 1; }
        if (size == exact) return 0;
    }
}

/* The number of the least size that has so many bytes, and its bytes. */
static unsigned room_kind(u64 size, u64 *bytes) {
    unsigned power = 4;
    while (power < 33 && (u64)1 << power < size) power++;
    for (unsigned quarter = 1; quarter <= 4; quarter++) {
        *bytes = power == 4 ? 16 : ((u64)1 << (power - 1)) + quarter * ((u64)1 << (power - 3));
        if (*bytes >= size) return power == 4 ? 0 : (power - 5) * 4 + quarter;
    }
    return ROOM_SIZES;
}

/* Room of `size` bytes from a multiple of 16 on; 0 where there is none. */
static u64 room_take(struct module *m, u64 size) {
    struct room *room = m->host;
    u64 bytes, at;
    unsigned kind = size > ROOM_MOST ? ROOM_SIZES : room_kind(size, &bytes);
    if (kind >= ROOM_SIZES || (!room->is_fixed && !ROOM_MAY_HAVE())) return 0;
    if ((at = room->back[kind]) != 0) {
        room->back[kind] = room_number(m, at);
        return at;
    }
    at = room->next + ROOM_HEAD;
    if (!room_reach(m, at + bytes)) return 0;
    room_put(m, at - ROOM_HEAD, kind);
    room->next = at + ((bytes + 15) >> 4 << 4);
    return at;
}

HOST void module_room(struct module *m, u64 answer, u64 size, u64 align) {
    u64 at = align <= 16 ? room_take(m, size) : 0;
    m->data[answer] = at != 0;
    room_put(m, answer + 8, at != 0 ? at : 16);
}

HOST void module_back(struct module *m, u64 at) {
    struct room *room = m->host;
    u64 kind = room_number(m, at - ROOM_HEAD);
    room_put(m, at, room->back[kind]);
    room->back[kind] = at;
}
