/* Loaded before a portable program (LD_PRELOAD): each second read and write is interrupted, and the others take seven bytes at most. */
#define _GNU_SOURCE
#include <errno.h>
#include <unistd.h>
#include <sys/syscall.h>

static int turn;
static int is_interrupted(void) { if (turn++ % 2) return 0; errno = EINTR; return 1; }
ssize_t read(int device, void *room, size_t size) { return is_interrupted() ? -1 : syscall(SYS_read, device, room, size < 7 ? size : 7); }
ssize_t write(int device, const void *text, size_t size) { return is_interrupted() ? -1 : syscall(SYS_write, device, text, size < 7 ? size : 7); }
