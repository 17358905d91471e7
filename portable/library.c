/*
 * The functions of kernelstint.h over the library's module. Each puts what it is given into the memory of an instance, asks the module,
 * and takes the answer out. A call has an instance of its own: one of a few that are kept, or a new one; so threads wait for none but
 * the one by which want of memory is told. A machine that is held has one as long as it is held.
 */
#include "room.h"
#include "kernelstint.h"
#include <stdio.h>

#ifdef __GNUC__
#define PUBLIC __attribute__((visibility("default")))
#define CLAIM(flag) (__atomic_exchange_n(&(flag), 1, __ATOMIC_ACQUIRE) == 0)
#define UNCLAIM(flag) __atomic_store_n(&(flag), 0, __ATOMIC_RELEASE)
#else /* no other compiler was tried: here one thread may call at a time */
#define PUBLIC
#define CLAIM(flag) ((flag) ? 0 : ((flag) = 1))
#define UNCLAIM(flag) ((flag) = 0)
#endif

/* The module's structs lie in its memory as here. */
#define LIES_AS(type, bytes) typedef char type##_has_another_layout_here[sizeof(type) == (bytes) ? 1 : -1]
LIES_AS(kernelstint_word, 16);
LIES_AS(kernelstint_fields, 24);
LIES_AS(kernelstint_bounds, 24);
LIES_AS(kernelstint_length, 16);
LIES_AS(kernelstint_corrections, 2);
LIES_AS(kernelstint_coded_word, 24);
LIES_AS(kernelstint_narrowed_word, 24);
LIES_AS(kernelstint_command, 32);
LIES_AS(kernelstint_reply, 56);
LIES_AS(kernelstint_why, 88);
LIES_AS(kernelstint_counts_of, 32);
LIES_AS(kernelstint_tagged_word, 24);
LIES_AS(kernelstint_fault, 8);

static void module_trap(void) {
    fputs("kernelstint: the proved module did what it never does: its C text or the compiler is at fault\n", stderr);
    abort();
}

/* ---- Instances ---- */

enum { SPARE = 16, KEPT = 1 << 20, KEPT_BY_FIRST = 1 << 26, FIRST = 1 << 15, LAST = 1 << 14 };

struct instance {
    struct module m;
    struct room room;
    int is_claimed; /* an int, since some machines exchange no bytes */
    u64 handle, command, reply, state, length; /* of a machine that is held: its handle, and places for what goes in and out */
};

static struct instance spares[SPARE];
/* The last resort: it asks for no memory, and hands none out but for arguments. */
static struct instance last;
static u8 last_memory[MODULE_BASE + LAST];

static bool begin(struct instance *it) {
    if (!room_begin(&it->m, &it->room, MODULE_BASE, FIRST)) return false;
    module_begin(&it->m);
    return true;
}

static struct instance *new_instance(void) {
    struct instance *it = ROOM_MAY_HAVE() ? malloc(sizeof *it) : NULL;
    if (it && begin(it)) return it;
    free(it);
    return NULL;
}

static void end_instance(struct instance *it) {
    free(it->m.data);
    free(it);
}

/* An instance for a call; NULL where the machine refused. */
static struct instance *enter(void) {
    for (int at = 0; at < SPARE; at++) {
        struct instance *it = &spares[at];
        if (!CLAIM(it->is_claimed)) continue;
        if (it->m.data || begin(it)) return it;
        UNCLAIM(it->is_claimed);
        return NULL;
    }
    return new_instance();
}

static struct instance *last_resort(void) {
    while (!CLAIM(last.is_claimed)) { }
    if (!last.m.data) {
        last.m.data = last_memory;
        last.m.size = sizeof last_memory;
        last.m.host = &last.room;
        last.room.is_fixed = 1;
        module_begin(&last.m);
    }
    room_forget(&last.room, MODULE_BASE);
    return &last;
}

static void leave(struct instance *it) {
    if (!it) return;
    if (it != &last && (it < spares || it >= spares + SPARE)) {
        end_instance(it);
        return;
    }
    if (it != &last && it->m.size > (it == spares ? KEPT_BY_FIRST : KEPT)) {
        free(it->m.data);
        it->m.data = NULL;
    } else {
        room_forget(&it->room, MODULE_BASE);
    }
    UNCLAIM(it->is_claimed);
}

/* A place for so many bytes in the instance's memory; 0 where there is none. No bytes have a place as well. */
static u64 room_for(struct instance *it, u64 count) { return it ? room_take(&it->m, count) : 0; }

static u64 put(struct instance *it, const void *from, u64 count) {
    u64 at = room_for(it, count);
    if (at && count) memcpy(it->m.data + at, from, (size_t)count);
    return at;
}

static void get(const struct instance *it, void *to, u64 at, u64 count) {
    if (count) memcpy(to, it->m.data + at, (size_t)count);
}

/* ---- What has no pointers, and takes no memory ---- */

static struct instance *enter_at_last(void) {
    struct instance *it = enter();
    return it ? it : last_resort();
}

/* Asks the module with the answer's place and these words, and answers it. */
#define ANSWER(type, ask)               \
    do {                                \
        u64 told = room_for(it, sizeof(type)); \
        type answer;                    \
        ask;                            \
        get(it, &answer, told, sizeof answer); \
        leave(it);                      \
        return answer;                  \
    } while (0)
#define PLAIN(type, ask)                \
    do {                                \
        type answer = (type)(ask);      \
        leave(it);                      \
        return answer;                  \
    } while (0)
#define WORD_AT put(it, &word, sizeof word)

PUBLIC uint32_t kernelstint_version(void) {
    struct instance *it = enter_at_last();
    PLAIN(uint32_t, module_version(&it->m));
}

PUBLIC kernelstint_word kernelstint_null_word(void) {
    struct instance *it = enter_at_last();
    ANSWER(kernelstint_word, module_null_word(&it->m, told));
}

PUBLIC kernelstint_fields kernelstint_fields_of(kernelstint_word word) {
    struct instance *it = enter_at_last();
    ANSWER(kernelstint_fields, module_fields_of(&it->m, told, WORD_AT));
}

PUBLIC kernelstint_coded_word kernelstint_word_of_fields(kernelstint_fields fields) {
    struct instance *it = enter_at_last();
    ANSWER(kernelstint_coded_word, module_word_of_fields(&it->m, told, put(it, &fields, sizeof fields)));
}

PUBLIC uint8_t kernelstint_exponent_of(kernelstint_word word) {
    struct instance *it = enter_at_last();
    PLAIN(uint8_t, module_exponent_of(&it->m, WORD_AT));
}

PUBLIC kernelstint_bounds kernelstint_bounds_of(kernelstint_word word) {
    struct instance *it = enter_at_last();
    ANSWER(kernelstint_bounds, module_bounds_of(&it->m, told, WORD_AT));
}

PUBLIC kernelstint_corrections kernelstint_corrections_of(kernelstint_word word) {
    struct instance *it = enter_at_last();
    ANSWER(kernelstint_corrections, module_corrections_of(&it->m, told, WORD_AT));
}

PUBLIC bool kernelstint_representable(kernelstint_word word, uint64_t address) {
    struct instance *it = enter_at_last();
    PLAIN(bool, module_representable(&it->m, WORD_AT, address) & 1);
}

PUBLIC bool kernelstint_is_allowed(kernelstint_word word, uint16_t permission) {
    struct instance *it = enter_at_last();
    PLAIN(bool, module_is_allowed(&it->m, WORD_AT, permission) & 1);
}

PUBLIC kernelstint_narrowed_word kernelstint_with_bounds(kernelstint_word word, kernelstint_bounds bounds) {
    struct instance *it = enter_at_last();
    ANSWER(kernelstint_narrowed_word, module_with_bounds(&it->m, told, WORD_AT, put(it, &bounds, sizeof bounds)));
}

PUBLIC kernelstint_coded_word kernelstint_block_capability(kernelstint_bounds bounds) {
    struct instance *it = enter_at_last();
    ANSWER(kernelstint_coded_word, module_block_capability(&it->m, told, put(it, &bounds, sizeof bounds)));
}

PUBLIC kernelstint_word kernelstint_set_address(kernelstint_word word, uint64_t address) {
    struct instance *it = enter_at_last();
    ANSWER(kernelstint_word, module_set_address(&it->m, told, WORD_AT, address));
}

PUBLIC kernelstint_word kernelstint_and_perms(kernelstint_word word, uint16_t mask) {
    struct instance *it = enter_at_last();
    ANSWER(kernelstint_word, module_and_perms(&it->m, told, WORD_AT, mask));
}

PUBLIC kernelstint_length kernelstint_representable_length(uint64_t length) {
    struct instance *it = enter_at_last();
    ANSWER(kernelstint_length, module_representable_length(&it->m, told, length));
}

PUBLIC uint64_t kernelstint_alignment_mask(uint64_t length) {
    struct instance *it = enter_at_last();
    PLAIN(uint64_t, module_alignment_mask(&it->m, length));
}

PUBLIC size_t kernelstint_state_length(uint32_t pages) {
    struct instance *it = enter_at_last();
    PLAIN(size_t, module_state_length(&it->m, pages));
}

/* ---- What pointers.c calls, once it has tested the pointers ---- */

/* Of another number of bytes than 16 one is as good as another. */
static size_t least_of(u64 a, u64 b) { return (size_t)(a < b ? a : b); }

static kernelstint_coded_word kernelstint_proved_word_from_bytes(const uint8_t *bytes, size_t length) {
    struct instance *it = enter_at_last();
    u64 count = least_of(length, 17);
    ANSWER(kernelstint_coded_word, module_proved_word_from_bytes(&it->m, told, put(it, bytes, count), count));
}

static uint32_t kernelstint_proved_word_to_bytes(kernelstint_word word, uint8_t *bytes, size_t length) {
    struct instance *it = enter_at_last();
    u64 count = least_of(length, 17), out = room_for(it, count);
    uint32_t code = module_proved_word_to_bytes(&it->m, WORD_AT, out, count);
    if (code == KERNELSTINT_CODE_DONE) get(it, bytes, out, count);
    leave(it);
    return code;
}

/* No state is longer, and no trace; what is has no more of it looked at. */
enum { MOST = 5377 * 1024 + 557, MOST_OF_A_TRACE = 4194304 };

/* How much of a state is given, and how much room for the next one: as much, or, where the caller's isn't as long as his state, another length. */
struct lengths {
    u64 state, room;
};

static struct lengths lengths_of(size_t length, size_t out_length) {
    u64 state = least_of(length, MOST + 1);
    return (struct lengths){state, out_length == length ? state : state == 0};
}

/* Answers what `first` does in an instance with memory. Where there is none, `second` has the last resort, which is given no state, and
 * another length of the room where that is another than the state's: so it says what is told before want of memory. */
#define TRY(first, second)                                                  \
    do {                                                                    \
        struct instance *it = enter();                                      \
        uint32_t code = it ? (first) : KERNELSTINT_CODE_NO_MEMORY;          \
        leave(it);                                                          \
        if (code != KERNELSTINT_CODE_NO_MEMORY) return code;                \
        it = last_resort();                                                 \
        code = (second);                                                    \
        leave(it);                                                          \
        return code == KERNELSTINT_CODE_BAD_STATE ? KERNELSTINT_CODE_NO_MEMORY : code; \
    } while (0)

static uint32_t first_in(struct instance *it, uint64_t base, uint32_t pages, uint8_t *out, size_t out_length) {
    u64 made = room_for(it, out_length);
    uint32_t code = made ? module_proved_first(&it->m, base, pages, made, out_length) : KERNELSTINT_CODE_NO_MEMORY;
    if (code == KERNELSTINT_CODE_DONE) get(it, out, made, out_length);
    return code;
}

static uint32_t kernelstint_proved_first(uint64_t base, uint32_t pages, uint8_t *out, size_t out_length) {
    bool fits = out_length == kernelstint_state_length(pages);
    struct instance *it = enter();
    uint32_t code = it && fits ? first_in(it, base, pages, out, out_length) : KERNELSTINT_CODE_NO_MEMORY;
    leave(it);
    if (code != KERNELSTINT_CODE_NO_MEMORY) return code;
    it = last_resort();
    code = first_in(it, base, pages, out, 0);
    leave(it);
    return code == KERNELSTINT_CODE_BAD_ROOM && fits ? KERNELSTINT_CODE_NO_MEMORY : code;
}

static uint32_t step_in(struct instance *it, const uint8_t *state, size_t length, kernelstint_command command, uint8_t *out,
                        size_t out_length, kernelstint_reply *reply) {
    struct lengths size = lengths_of(length, out_length);
    u64 asked = put(it, &command, sizeof command), told = room_for(it, sizeof *reply), given = put(it, state, size.state), made = room_for(it, size.room);
    uint32_t code = KERNELSTINT_CODE_NO_MEMORY;
    if (asked && told && given && made) code = module_proved_step(&it->m, given, size.state, asked, made, size.room, told);
    if (code == KERNELSTINT_CODE_DONE) {
        get(it, out, made, out_length);
        get(it, reply, told, sizeof *reply);
    }
    return code;
}

static uint32_t kernelstint_proved_step(const uint8_t *state, size_t length, kernelstint_command command, uint8_t *out,
                                        size_t out_length, kernelstint_reply *reply) {
    TRY(step_in(it, state, length, command, out, out_length, reply), step_in(it, NULL, 0, command, NULL, out_length != length, reply));
}

static uint32_t follow_in(struct instance *it, const uint8_t *state, size_t length, kernelstint_command command, kernelstint_reply answer,
                          uint8_t *out, size_t out_length, kernelstint_why *why) {
    struct lengths size = lengths_of(length, out_length);
    u64 asked = put(it, &command, sizeof command), answered = put(it, &answer, sizeof answer), told = room_for(it, sizeof *why);
    u64 given = put(it, state, size.state), made = room_for(it, size.room);
    uint32_t code = KERNELSTINT_CODE_NO_MEMORY;
    if (asked && answered && told && given && made)
        code = module_proved_follow(&it->m, given, size.state, asked, answered, made, size.room, told);
    if (code == KERNELSTINT_CODE_DONE) get(it, out, made, out_length);
    if (code == KERNELSTINT_CODE_DIFFERS) get(it, why, told, sizeof *why);
    return code;
}

static uint32_t kernelstint_proved_follow(const uint8_t *state, size_t length, kernelstint_command command, kernelstint_reply answer,
                                          uint8_t *out, size_t out_length, kernelstint_why *why) {
    TRY(follow_in(it, state, length, command, answer, out, out_length, why),
        follow_in(it, NULL, 0, command, answer, NULL, out_length != length, why));
}

static uint32_t step_line_in(struct instance *it, const uint8_t *state, size_t length, const uint8_t *line, size_t line_length,
                             uint8_t *out, size_t out_length, uint8_t *text, size_t text_length, size_t *count) {
    struct lengths size = lengths_of(length, out_length);
    u64 text_room = least_of(text_length, KERNELSTINT_LONGEST_REPLY), told = room_for(it, text_room), counted = room_for(it, 8);
    u64 typed = put(it, line, line_length), given = put(it, state, size.state), made = room_for(it, size.room);
    uint32_t code = KERNELSTINT_CODE_NO_MEMORY;
    if (told && counted && typed && given && made)
        code = module_proved_step_line(&it->m, given, size.state, typed, line_length, made, size.room, told, text_room, counted);
    if (code == KERNELSTINT_CODE_DONE) {
        *count = (size_t)room_number(&it->m, counted);
        get(it, out, made, out_length);
        get(it, text, told, *count);
    }
    return code;
}

static uint32_t kernelstint_proved_step_line(const uint8_t *state, size_t length, const uint8_t *line, size_t line_length, uint8_t *out,
                                             size_t out_length, uint8_t *text, size_t text_length, size_t *count) {
    TRY(step_line_in(it, state, length, line, line_length, out, out_length, text, text_length, count),
        step_line_in(it, NULL, 0, line, line_length, NULL, out_length != length, text, text_length, count));
}

static uint32_t counts_in(struct instance *it, const uint8_t *state, size_t length, kernelstint_counts_of *counts) {
    u64 told = room_for(it, sizeof *counts), given = put(it, state, length = least_of(length, MOST + 1));
    uint32_t code = told && given ? module_proved_counts(&it->m, given, length, told) : KERNELSTINT_CODE_NO_MEMORY;
    if (code == KERNELSTINT_CODE_DONE) get(it, counts, told, sizeof *counts);
    return code;
}

static uint32_t kernelstint_proved_counts(const uint8_t *state, size_t length, kernelstint_counts_of *counts) {
    TRY(counts_in(it, state, length, counts), KERNELSTINT_CODE_NO_MEMORY);
}

static uint32_t register_in(struct instance *it, const uint8_t *state, size_t length, uint8_t number, kernelstint_tagged_word *word) {
    u64 told = room_for(it, sizeof *word), given = put(it, state, length = least_of(length, MOST + 1));
    uint32_t code = told && given ? module_proved_register(&it->m, given, length, number, told) : KERNELSTINT_CODE_NO_MEMORY;
    if (code == KERNELSTINT_CODE_DONE) get(it, word, told, sizeof *word);
    return code;
}

static uint32_t kernelstint_proved_register(const uint8_t *state, size_t length, uint8_t number, kernelstint_tagged_word *word) {
    TRY(register_in(it, state, length, number, word), register_in(it, NULL, 0, number, word));
}

static uint32_t granule_in(struct instance *it, const uint8_t *state, size_t length, uint64_t address, kernelstint_tagged_word *word) {
    u64 told = room_for(it, sizeof *word), given = put(it, state, length = least_of(length, MOST + 1));
    uint32_t code = told && given ? module_proved_granule(&it->m, given, length, address, told) : KERNELSTINT_CODE_NO_MEMORY;
    if (code == KERNELSTINT_CODE_DONE) get(it, word, told, sizeof *word);
    return code;
}

static uint32_t kernelstint_proved_granule(const uint8_t *state, size_t length, uint64_t address, kernelstint_tagged_word *word) {
    TRY(granule_in(it, state, length, address, word), KERNELSTINT_CODE_NO_MEMORY);
}

/* ---- Whole traces ---- */

typedef u32 text_call(struct module *m, u64 trace, u64 length, u64 out, u64 out_length, u64 count);

/* What the module writes in a room of so many bytes; a text that is longer is told with its length. */
static uint32_t text_in(text_call *call, const uint8_t *trace, size_t length, uint8_t *out, u64 out_length, u64 *count) {
    struct instance *it = enter();
    u64 counted = room_for(it, 8), given = put(it, trace, length = least_of(length, MOST_OF_A_TRACE + 1)), made = room_for(it, out_length);
    uint32_t code = counted && given && made ? call(&it->m, given, length, made, out_length, counted) : KERNELSTINT_CODE_NO_MEMORY;
    if (code == KERNELSTINT_CODE_DONE || code == KERNELSTINT_CODE_SHORT_TEXT) *count = room_number(&it->m, counted);
    if (code == KERNELSTINT_CODE_DONE) get(it, out, made, *count);
    leave(it);
    return code;
}

/* The caller's room may be much longer than the text: it is tried with much, with little where there is not so much memory, and with as
 * much as the text has. */
static uint32_t text_of(text_call *call, const uint8_t *trace, size_t length, uint8_t *out, size_t out_length, size_t *count) {
    u64 told = 0;
    uint32_t code = text_in(call, trace, length, out, least_of(out_length, (u64)8 << 20), &told);
    if (code == KERNELSTINT_CODE_NO_MEMORY) code = text_in(call, trace, length, out, least_of(out_length, 65536), &told);
    if (code == KERNELSTINT_CODE_SHORT_TEXT && told <= out_length) code = text_in(call, trace, length, out, told, &told);
    if (code == KERNELSTINT_CODE_DONE || code == KERNELSTINT_CODE_SHORT_TEXT) *count = (size_t)told;
    return code;
}

static uint32_t kernelstint_proved_run(const uint8_t *trace, size_t length, uint8_t *out, size_t out_length, size_t *count) {
    return text_of(module_proved_run, trace, length, out, out_length, count);
}

static uint32_t kernelstint_proved_states(const uint8_t *trace, size_t length, uint8_t *out, size_t out_length, size_t *count) {
    return text_of(module_proved_states, trace, length, out, out_length, count);
}

static uint32_t kernelstint_proved_trace_fault(const uint8_t *trace, size_t length, kernelstint_fault *fault) {
    struct instance *it = enter();
    u64 told = room_for(it, sizeof *fault), given = put(it, trace, length = least_of(length, MOST_OF_A_TRACE + 1));
    uint32_t code = told && given ? module_proved_trace_fault(&it->m, given, length, told) : KERNELSTINT_CODE_NO_MEMORY;
    if (code == KERNELSTINT_CODE_BAD_TRACE) get(it, fault, told, sizeof *fault);
    leave(it);
    return code;
}

static uint32_t line_fault_in(struct instance *it, const uint8_t *line, size_t length, kernelstint_fault *fault) {
    u64 told = room_for(it, sizeof *fault), typed = put(it, line, length);
    uint32_t code = told && typed ? module_proved_line_fault(&it->m, typed, length, told) : KERNELSTINT_CODE_NO_MEMORY;
    if (code == KERNELSTINT_CODE_BAD_LINE) get(it, fault, told, sizeof *fault);
    return code;
}

static uint32_t kernelstint_proved_line_fault(const uint8_t *line, size_t length, kernelstint_fault *fault) {
    TRY(line_fault_in(it, line, length, fault), line_fault_in(it, line, length, fault));
}

/* ---- Machines that are held ---- */

static uint32_t open_in(struct instance *it, const uint8_t *state, size_t length) {
    static const u64 none;
    length = least_of(length, MOST + 1);
    it->length = length;
    it->handle = put(it, &none, sizeof none);
    it->command = room_for(it, sizeof(kernelstint_command));
    it->reply = room_for(it, sizeof(kernelstint_reply));
    it->state = put(it, state, length);
    if (!it->handle || !it->command || !it->reply || !it->state) return KERNELSTINT_CODE_NO_MEMORY;
    return module_proved_machine_open(&it->m, it->state, length, it->handle);
}

static uint32_t kernelstint_proved_machine_open(const uint8_t *state, size_t length, kernelstint_machine *machine) {
    struct instance *it = new_instance();
    uint32_t code = it ? open_in(it, state, length) : KERNELSTINT_CODE_NO_MEMORY;
    if (code == KERNELSTINT_CODE_DONE) machine->at = it;
    else if (it) end_instance(it);
    return code;
}

static uint32_t kernelstint_proved_machine_step(kernelstint_machine *machine, kernelstint_command command, kernelstint_reply *reply) {
    struct instance *it = machine->at;
    uint32_t code;
    memcpy(it->m.data + it->command, &command, sizeof command);
    code = module_proved_machine_step(&it->m, it->handle, it->command, it->reply);
    if (code == KERNELSTINT_CODE_DONE) get(it, reply, it->reply, sizeof *reply);
    return code;
}

static uint32_t kernelstint_proved_machine_bytes(kernelstint_machine *machine, uint8_t *out, size_t out_length) {
    struct instance *it = machine->at;
    uint32_t code;
    if (out_length != it->length) return KERNELSTINT_CODE_BAD_ROOM;
    code = module_proved_machine_bytes(&it->m, it->handle, it->state, out_length);
    if (code == KERNELSTINT_CODE_DONE) get(it, out, it->state, out_length);
    return code;
}

/* A copy of the instance: of its memory all that lies above the stack, of which nothing is in use between calls. */
static uint32_t kernelstint_proved_machine_copy(kernelstint_machine *machine, kernelstint_machine *copy) {
    const struct instance *it = machine->at;
    struct instance *other = ROOM_MAY_HAVE() ? malloc(sizeof *other) : NULL;
    u8 *memory = other && ROOM_MAY_HAVE() ? calloc((size_t)it->m.size, 1) : NULL;
    if (!memory) {
        free(other);
        return KERNELSTINT_CODE_NO_MEMORY;
    }
    *other = *it;
    other->m.data = memory;
    other->m.host = &other->room;
    memcpy(memory + it->m.g0, it->m.data + it->m.g0, (size_t)(it->room.next - it->m.g0));
    copy->at = other;
    return KERNELSTINT_CODE_DONE;
}

static void kernelstint_proved_machine_close(kernelstint_machine *machine) {
    end_instance(machine->at);
    machine->at = NULL;
}
