/* The programs over the module, for a machine that has a C compiler: NAME WORDS.., where NAME is heap_tool, heap_states, heap_check
 * or heap_revoker, by that name or as the first word. The module answers for a text; here words are read, texts read and answers written, with the
 * statuses of the programs: 0 done, 1 for want of memory, 2 words refused, 3 a faulty text, 4 a device that failed, 5 an event that
 * differs. */
#define _POSIX_C_SOURCE 200809L
#define _DEFAULT_SOURCE 1 /* for madvise */
#include "answers.h"
#include "words.h"
#include <errno.h>
#include <signal.h>
#include <stdio.h>

void module_trap(void) {
    static const char text[] = "the proved module did what it never does: its C text or the compiler is at fault\n";
    if (write(2, text, sizeof text - 1) < 0) { }
    abort();
}

static bool is_written(int device, const u8 *text, u64 length) {
    while (length > 0) {
        ssize_t count = write(device, text, length < 1u << 30 ? (size_t)length : 1u << 30);
        if (count < 0 && errno == EINTR) continue;
        if (count <= 0) return false;
        text += count;
        length -= (u64)count;
    }
    return true;
}

static int tell(const char *line, int status) { return is_written(1, (const u8 *)line, strlen(line)) ? status : 4; }

static int tell_answer(struct answer got, int status) {
    if (got.code != DONE) return tell("fault memory\n", 1);
    status = is_written(1, got.memory + got.start, got.length) ? status : 4;
    free(got.memory);
    return status;
}

/* Reads standard input to its end, and no more than `most` bytes: 0, or the status. */
static int read_text(u8 **text, u64 *length, u64 most) {
    u64 room = 65536;
    *length = 0;
    *text = malloc((size_t)room);
    while (*text && *length < most) {
        ssize_t count;
        if (*length == room) {
            u8 *more = realloc(*text, (size_t)(room *= 2));
            if (!more) return 1;
            *text = more;
        }
        count = read(0, *text + *length, (size_t)((room < most ? room : most) - *length));
        if (count < 0 && errno == EINTR) continue;
        if (count < 0) return 4;
        if (count == 0) return 0;
        *length += (u64)count;
    }
    return *text ? 0 : 1;
}

static u64 half_of(const char *hex) { /* eight bytes, of which the lowest stands first */
    u64 half = 0;
    for (int at = 0; at < 16; at++) {
        char digit = hex[at];
        half |= (u64)(digit <= '9' ? digit - '0' : (digit | 32) - 'a' + 10) << (at % 2 ? at * 4 - 4 : at * 4 + 4);
    }
    return half;
}

static int answer_trace(struct asking it, enum call call) {
    struct answer got = (it.call = call, answer_to(&it));
    if (got.code != NONE) return tell_answer(got, 0);
    it.call = FAULT;
    return tell_answer(answer_to(&it), 3);
}

static int answer_log(struct asking it) {
    struct answer got = (it.call = LOG, answer_to(&it)), notes;
    int status = tell_answer(got, (int)got.status);
    if (got.code != DONE || status == 4) return status;
    it.call = NOTES;
    it.first = got.status;
    notes = answer_to(&it);
    if (notes.code != DONE) return status;
    (void)is_written(2, notes.memory + notes.start, notes.length); /* whether it went out changes nothing */
    free(notes.memory);
    return status;
}

static int answer_plan(struct asking it) {
    struct answer got = (it.call = PLAN, answer_to(&it));
    return tell_answer(got, (int)got.status);
}

enum program { TOOL, STATES_OF, CHECK, REVOKER, OTHER };

static enum program program_of(const char *name) {
    static const char *const names[] = {"heap_tool", "heap_states", "heap_check", "heap_revoker"};
    int at = 0;
    while (at < OTHER && strcmp(name, names[at]) != 0) at++;
    return (enum program)at;
}

static int refuse(enum program program) {
    static const char *const usages[] = {
        "usage: heap_tool run [--workers N] [--cut N] [--image] or heap_tool word HEX\n",
        "usage: heap_states [--workers N] [--cut N]\n",
        "usage: heap_check [--workers N] [--cut N]\n",
        "usage: heap_revoker by-hand|cornucopia|reloaded [--workers N] [--cut N]\n",
    };
    return tell(usages[program], 2);
}

static enum asked read_for(enum program program, char **words, struct asking *it, bool *image, const char **hex) {
    if (program == TOOL) return read_words(words, image, hex);
    return program == REVOKER ? read_way(words, &it->second) : read_options(words, NULL);
}

static int answer_for(enum program program, struct asking it, bool image) {
    it.first = program == REVOKER ? it.second : image;
    if (program == CHECK) return answer_log(it);
    return program == REVOKER ? answer_plan(it) : answer_trace(it, program == TOOL ? REPORT : STATES);
}

int main(int count, char **words) {
    const char *slash = count > 0 ? strrchr(words[0], '/') : NULL, *name = slash ? slash + 1 : count > 0 ? words[0] : "", *hex = NULL;
    bool image = false;
    enum program program;
    struct asking it = {REPORT, NULL, 0, 0, 0};
    enum asked asked;
    u8 *text = NULL;
    int status;
    signal(SIGPIPE, SIG_IGN);
    if ((program = program_of(name)) == OTHER) {
        if (count < 2 || (program = program_of(words[1])) == OTHER) return 125;
        words++;
    }
    asked = read_for(program, words + 1, &it, &image, &hex);
    if (asked == REFUSED) return refuse(program);
    if (asked == WORD) {
        it.call = LINE;
        it.first = half_of(hex);
        it.second = half_of(hex + 16);
        return tell_answer(answer_to(&it), 0);
    }
    status = read_text(&text, &it.length, program == CHECK ? 16777217 : 4194305);
    it.text = text;
    if (status == 1) status = tell("fault memory\n", 1);
    else if (status == 0) status = answer_for(program, it, image);
    free(text);
    return status;
}
