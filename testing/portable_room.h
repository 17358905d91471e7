/* Refuses a portable program's memory from the asking on whose number the variable REFUSED_ROOM has, counted from 1; where it asked less
 * often it says how often on standard error. */
#include <stdio.h>
#include <stdlib.h>

static long room_asked, room_refused_from;
static void room_tell(void) { fprintf(stderr, "asked %ld\n", room_asked); }
static int room_may_have(void) {
    if (room_asked++ == 0) {
        const char *from = getenv("REFUSED_ROOM");
        room_refused_from = from ? atol(from) : 1L << 40;
        atexit(room_tell);
    }
    return room_asked < room_refused_from;
}
#define ROOM_MAY_HAVE() room_may_have()
