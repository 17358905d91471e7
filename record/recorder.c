/* Loaded before a program (LD_PRELOAD) by heap_record: notes each call of the program to its allocator in a file, the record.
   A record has a head, and then a row of entries, which record/calls.py reads. The file is mapped and its room is taken
   before it is written, so that a program that is killed leaves all that it noted, and a full disk is told and ends no program. No
   file stays open.

   The first process that finds the record empty has it. A program that takes the place of another in this process (exec) begins it
   anew. Other processes are counted in its head, or have records of their own in the folder that HEAP_RECORD_CHILDREN names.

   One lock is held while the allocator answers and the call is noted, so the calls of threads stand in an order that they had. A call
   counts when it is asked, and is noted once it is answered: one in which the allocator ended the program was asked alone. What is
   handed out within the allocator, or before the environment is known, isn't noted, and nor is its free. */
#define _GNU_SOURCE
#include <dlfcn.h>
#include <errno.h>
#include <fcntl.h>
#include <link.h>
#include <malloc.h>
#include <pthread.h>
#include <stdint.h>
#include <stdio.h>
#include <stdlib.h>
#include <string.h>
#include <sys/mman.h>
#include <sys/prctl.h>
#include <sys/resource.h>
#include <sys/stat.h>
#include <unistd.h>
#if __has_include(<sys/single_threaded.h>)
#include <sys/single_threaded.h>
#else
enum { __libc_single_threaded = 0 };
#endif

enum {
    GRANULE = 16,
    ROOM = 1 << 16,  /* bytes that a record's head has: whole pages of any system */
    PATH = 4096,     /* bytes of a path */
    WORDS = 2048,    /* bytes of a command's words */
    NAME = 16,       /* bytes of a process's name */
    UNNOTED = 256,   /* blocks without a call in the record that are told apart */
    COUNTED = 253,   /* children that are told apart */
    CHUNK = 1 << 20, /* bytes of entries that are mapped at once */
    MOST = 1 << 20   /* entries of a record: more calls than a text has, unless it leaves many out */
};

static const uint64_t MARK = 0x3164726f63657268; /* "hrecord1" */

/* How far the recording of a process has come. NEW is 0, as a forked child has it. */
enum phase { NEW, NOTES, COUNTS /* the record has all the entries that it may have */, OFF };

enum kind { HANDED_OUT = 1, FREED = 2, MOVED = 3 /* realloc */ };

struct entry {
    uint64_t kind;
    uint64_t size;  /* bytes that were asked for */
    uint64_t block; /* the address that was answered; 0: the call failed */
    uint64_t old;   /* the address that was given up, or to be moved */
};

struct head {
    uint64_t mark;
    uint64_t process;
    uint64_t entries;  /* how many entries are whole */
    uint64_t calls;    /* how many calls there were, those without an entry too */
    uint64_t error;    /* errno of what ended the record; 0: nothing did */
    uint64_t programs; /* how many programs this process has been, one after the other */
    uint64_t children; /* processes that have no record */
    uint64_t is_ended; /* whether the program ended, and no other took its place that has no recorder */
    uint64_t lacks;    /* whether the library that HEAP_RECORD_PRELOAD names isn't loaded */
    uint64_t is_blind; /* whether more blocks than UNNOTED were handed out unnoted */
    char name[NAME];   /* the process's, as the system has it */
    uint64_t length;   /* bytes of `words` */
    char words[WORDS]; /* the words of the command, each with a byte 0 at its end */
    uint64_t counted[COUNTED]; /* numbers of `children`, each where its remainder says */
};

/* What a forked child has all zero: so a lock that another thread held is free there. */
struct state {
    enum phase phase;
    pthread_mutex_t lock;
    struct head *head;
    struct entry *next, *end; /* within the chunk that is mapped now */
};

/* The functions that come next after these, of the program's own allocator. */
static struct {
    void *(*malloc)(size_t);
    void *(*calloc)(size_t, size_t);
    void *(*realloc)(void *, size_t);
    void (*free)(void *);
    void *(*aligned_alloc)(size_t, size_t);
    int (*posix_memalign)(void **, size_t, size_t);
    size_t (*malloc_usable_size)(void *);
} next;

static struct state *state;
static __thread enum { OUTSIDE, WITHOUT_LOCK, WITH_LOCK } is_within __attribute__((tls_model("initial-exec")));
static char record[PATH], children[PATH]; /* the paths that heap_record gave */
static char own[PATH + 32];               /* the path of this process's record */
static int is_cheri;                      /* whether the allocator is asked as one for CHERI is */

/* What is asked for while the functions that come next are looked up; none of it is ever taken back. */
static _Alignas(GRANULE) char early[4096];
static size_t early_used;

static void *early_block(size_t size) {
    void *block = early + early_used;
    if (size > sizeof early - early_used) return 0;
    early_used += (size + GRANULE - 1) / GRANULE * GRANULE;
    return block;
}

static int is_early(const void *block) { return (uintptr_t)block - (uintptr_t)early < sizeof early; }

/* Blocks that were handed out and not noted. A forked child has those of its parent. */
static const void *unnoted[UNNOTED];
static unsigned unnoted_count;

/* The lock is held, or there are no threads yet. */
static int has_unnoted(void) { return state && state->phase != OFF; }

static void keep_unnoted(const void *block) {
    if (!block || !has_unnoted()) return;
    if (unnoted_count < UNNOTED) unnoted[unnoted_count++] = block;
    else if (state->head) state->head->is_blind = 1;
}

/* Whether a block is one of these; then it is one no longer. */
static int take_unnoted(const void *block) {
    if (unnoted_count == 0 || !has_unnoted()) return 0;
    for (unsigned i = 0; i < unnoted_count; i++) {
        if (unnoted[i] == block) {
            unnoted[i] = unnoted[--unnoted_count];
            return 1;
        }
    }
    return 0;
}

/* Looks up the functions that come next, once; whether they are there. The first call comes before there are threads. */
static int is_ready(void) {
    static int is_looking;
    if (next.free) return 1;
    if (is_looking) return 0;
    is_looking = 1;
    *(void **)&next.malloc = dlsym(RTLD_NEXT, "malloc");
    *(void **)&next.calloc = dlsym(RTLD_NEXT, "calloc");
    *(void **)&next.realloc = dlsym(RTLD_NEXT, "realloc");
    *(void **)&next.aligned_alloc = dlsym(RTLD_NEXT, "aligned_alloc");
    *(void **)&next.posix_memalign = dlsym(RTLD_NEXT, "posix_memalign");
    *(void **)&next.malloc_usable_size = dlsym(RTLD_NEXT, "malloc_usable_size");
    *(void **)&next.free = dlsym(RTLD_NEXT, "free");
    is_looking = 0;
    return next.free != 0;
}

/* Maps `size` bytes of a record, from `start` on, and takes their room on the disk before; else errno says why not. Only a child's
   record is made here: a process that outlives the program finds no record, and leaves none. */
static void *mapped(const char *path, off_t start, size_t size) {
    struct rlimit most;
    void *bytes = MAP_FAILED;
    int error, file = open(path, O_RDWR | O_CLOEXEC | (path == own && start == 0 ? O_CREAT : 0), 0600);
    if (file < 0) return 0;
    /* past this limit a signal would end the program */
    if (getrlimit(RLIMIT_FSIZE, &most) == 0 && most.rlim_cur < (rlim_t)start + size) {
        error = EFBIG;
    } else {
        do error = posix_fallocate(file, start, (off_t)size);
        while (error == EINTR);
    }
    if (error == 0) bytes = mmap(0, size, PROT_READ | PROT_WRITE, MAP_SHARED | MAP_POPULATE, file, start);
    else errno = error;
    error = errno;
    if (bytes != MAP_FAILED) madvise(bytes, size, MADV_DONTFORK);
    close(file);
    errno = error;
    return bytes == MAP_FAILED ? 0 : bytes;
}

/* The words of this process's command, as the system has them; no more than have room. */
static void read_words(struct head *head) {
    int file = open("/proc/self/cmdline", O_RDONLY | O_CLOEXEC);
    ssize_t count = file < 0 ? 0 : read(file, head->words, sizeof head->words);
    if (file >= 0) close(file);
    head->length = count < 0 ? 0 : (uint64_t)count;
}

/* Counts this process among those that have no record: once, though it may become another program. */
static void count_child(struct head *head) {
    uint64_t process = (uint64_t)getpid(), *place = &head->counted[process % COUNTED];
    if (__atomic_exchange_n(place, process, __ATOMIC_RELAXED) != process) __atomic_add_fetch(&head->children, 1, __ATOMIC_RELAXED);
}

/* Begins the record of `path` for this process, where it is empty or this process's own; whether it is. What goes on after a fork is
   no program that takes another's place. */
static int begin_record(struct state *it, const char *path, int is_program) {
    struct head *head = mapped(path, 0, ROOM);
    if (!head) return 0;
    if (head->mark && head->process != (uint64_t)getpid()) {
        if (!*children) count_child(head);
        munmap(head, ROOM);
        return 0;
    }
    head->mark = MARK;
    head->process = (uint64_t)getpid();
    head->entries = head->calls = head->error = head->is_ended = head->lacks = head->is_blind = 0;
    head->programs += (uint64_t)is_program;
    prctl(PR_GET_NAME, head->name);
    read_words(head);
    it->head = head;
    it->phase = NOTES;
    if (path != own) strcpy(own, path);
    return 1;
}

/* Begins a record of this process's own in the folder of children, where there is one. */
static void begin_child(struct state *it, int is_program) {
    snprintf(own, sizeof own, "%s/%ld", children, (long)getpid());
    if (*children) begin_record(it, own, is_program);
}

/* Decides what is noted of this process: nothing is decided before the C library knows the environment. */
static void begin(struct state *it) {
    int error = errno, is_program = !*record;
    const char *path, *folder;
    if (!environ) return;
    path = getenv("HEAP_RECORD");
    folder = getenv("HEAP_RECORD_CHILDREN");
    if (!*record && path && strlen(path) < sizeof record) strcpy(record, path);
    if (!*children && folder && strlen(folder) < sizeof children) strcpy(children, folder);
    is_cheri = getenv("HEAP_RECORD_CHERI") != 0;
    it->phase = OFF;
    if (*record && !begin_record(it, record, is_program)) begin_child(it, is_program);
    errno = error;
}

/* Maps the next chunk of entries; whether there is one. What was noted stays where it can't be. */
static int extend(struct state *it) {
    int error = errno;
    uint64_t noted = it->head->entries;
    void *bytes = noted < MOST ? mapped(own, (off_t)(ROOM + noted * sizeof *it->next), CHUNK) : 0;
    if (it->end) munmap(it->end - CHUNK / sizeof *it->end, CHUNK);
    it->next = bytes;
    it->end = bytes ? it->next + CHUNK / sizeof *it->end : 0;
    if (!bytes) {
        if (noted < MOST) it->head->error = (uint64_t)errno;
        it->phase = COUNTS;
    }
    errno = error;
    return bytes != 0;
}

static void leave(struct state *it) {
    if (!it) return;
    if (is_within == WITH_LOCK) pthread_mutex_unlock(&it->lock);
    is_within = OUTSIDE;
}

static void forget_state(void) { *state = (struct state){0}; }

/* Makes the state, in a page that a fork leaves zero, or else one that a handler makes zero. Where there is no page nothing is noted,
   and heap_record says so. */
static void make_state(void) {
    static int is_tried;
    int error = errno;
    void *page = is_tried ? MAP_FAILED : mmap(0, sizeof *state, PROT_READ | PROT_WRITE, MAP_PRIVATE | MAP_ANONYMOUS, -1, 0);
    is_tried = 1;
    if (page != MAP_FAILED) {
        state = page;
        if (madvise(page, sizeof *state, MADV_WIPEONFORK) != 0) pthread_atfork(0, 0, forget_state);
    }
    errno = error;
}

/* Takes the lock for a call that is to be noted; 0 where it isn't. */
static struct state *enter(void) {
    if (is_within != OUTSIDE) return 0;
    if (!state) make_state();
    if (!state || state->phase == OFF) return 0;
    is_within = __libc_single_threaded ? WITHOUT_LOCK : WITH_LOCK;
    if (is_within == WITH_LOCK) pthread_mutex_lock(&state->lock);
    if (state->phase == NEW) begin(state);
    if (state->phase == NOTES || state->phase == COUNTS) return state;
    leave(state);
    return 0;
}

/* Counts a call that is to be noted, and takes the lock for it; 0 where it isn't. */
static struct state *ask(void) {
    struct state *it = enter();
    if (it) it->head->calls++;
    return it;
}

/* Notes the answer of a call that was asked. An entry counts once it is whole. */
static void note(struct state *it, enum kind kind, size_t size, const void *block, const void *old) {
    if (!it) keep_unnoted(block);
    else if (block) take_unnoted(block);
    if (!it || it->phase == COUNTS || (it->next == it->end && !extend(it))) return;
    *it->next++ = (struct entry){kind, size, (uintptr_t)block, (uintptr_t)old};
    __atomic_store_n(&it->head->entries, it->head->entries + 1, __ATOMIC_RELEASE);
}

/* The multiple to which bounds of so many bytes are rounded, and at which they begin, so that a capability holds them. */
static size_t unit_of(size_t size) {
    size_t unit = 8;
    if (size < 1 << 12) return GRANULE;
    while ((size + unit - 1) / unit >= 1 << 10) unit *= 2;
    return unit < GRANULE ? GRANULE : unit;
}

/* A block as an allocator for CHERI is asked for it: in whole granules, and bounds that a capability holds. */
static void *exact_block(size_t size, size_t alignment) {
    size_t unit = unit_of(size), length = (size ? size + unit - 1 : unit) / unit * unit;
    void *block;
    if (alignment < unit) alignment = unit;
    if (alignment == GRANULE) return next.malloc(length);
    errno = next.posix_memalign(&block, alignment, length);
    return errno ? 0 : block;
}

/* A block as the program asked for it, or as an allocator for CHERI is asked. */
static void *new_block(size_t size, size_t alignment) {
    if (is_cheri && size <= PTRDIFF_MAX) return exact_block(size, alignment);
    return alignment ? next.aligned_alloc(alignment, size) : next.malloc(size);
}

void *malloc(size_t size) {
    struct state *it;
    void *block;
    if (!is_ready()) return early_block(size);
    it = ask();
    block = new_block(size, 0);
    note(it, HANDED_OUT, size, block, 0);
    leave(it);
    return block;
}

void *calloc(size_t count, size_t each) {
    struct state *it;
    void *block;
    size_t size;
    int is_too_much = __builtin_mul_overflow(count, each, &size);
    if (!is_ready()) return is_too_much ? 0 : early_block(size);
    it = ask();
    if (is_too_much || !is_cheri) {
        block = next.calloc(count, each);
    } else if ((block = new_block(size, 0))) {
        memset(block, 0, size);
    }
    note(it, HANDED_OUT, is_too_much ? SIZE_MAX : size, block, 0);
    leave(it);
    return block;
}

void free(void *block) {
    struct state *it, *noted;
    if (!block || is_early(block) || !is_ready()) return;
    it = enter();
    /* what the program was given is noted too where it is freed within the allocator */
    noted = it ? it : is_within != OUTSIDE && state->head ? state : 0;
    if (take_unnoted(block)) noted = 0;
    if (noted) noted->head->calls++;
    next.free(block);
    note(noted, FREED, 0, 0, block);
    leave(it);
}

/* A new block with the bytes of another, which is given up, as an allocator for CHERI does it. */
static void *moved(void *old, size_t size) {
    size_t before = next.malloc_usable_size(old);
    void *block = new_block(size, 0);
    if (!block) return 0;
    memcpy(block, old, before < size ? before : size);
    next.free(old);
    return block;
}

void *realloc(void *old, size_t size) {
    struct state *it;
    void *block;
    int is_unnoted;
    if (!old) return malloc(size);
    if (is_early(old)) {
        size_t rest = (size_t)(early + sizeof early - (char *)old);
        block = malloc(size);
        return block ? memcpy(block, old, size < rest ? size : rest) : 0;
    }
    it = ask();
    is_unnoted = take_unnoted(old);
    block = is_cheri && size ? moved(old, size) : next.realloc(old, size);
    if (is_unnoted && size && !block) keep_unnoted(old);
    note(it, is_unnoted ? HANDED_OUT : MOVED, size, block, is_unnoted ? 0 : old);
    leave(it);
    return block;
}

void *reallocarray(void *old, size_t count, size_t each) {
    size_t size;
    if (!__builtin_mul_overflow(count, each, &size)) return realloc(old, size);
    errno = ENOMEM;
    return 0;
}

void *aligned_alloc(size_t alignment, size_t size) {
    struct state *it;
    void *block;
    if (!is_ready()) return 0;
    it = ask();
    block = new_block(size, alignment);
    note(it, HANDED_OUT, size, block, 0);
    leave(it);
    return block;
}

int posix_memalign(void **block, size_t alignment, size_t size) {
    struct state *it;
    size_t unit = unit_of(size), length = (size ? size + unit - 1 : unit) / unit * unit;
    int error, is_asked_so = is_cheri && size <= PTRDIFF_MAX;
    if (!is_ready()) return ENOMEM;
    it = ask();
    error = next.posix_memalign(block, is_asked_so && alignment < unit ? unit : alignment, is_asked_so ? length : size);
    note(it, HANDED_OUT, size, error ? 0 : *block, 0);
    leave(it);
    return error;
}

/* The older names for blocks at multiples of an alignment, which is rounded up to a power of 2. */
void *memalign(size_t alignment, size_t size) {
    size_t power = GRANULE;
    while (power < alignment && power <= SIZE_MAX / 4) power *= 2;
    return aligned_alloc(power, size);
}

void *valloc(size_t size) { return aligned_alloc((size_t)sysconf(_SC_PAGESIZE), size); }

void *pvalloc(size_t size) {
    size_t page = (size_t)sysconf(_SC_PAGESIZE);
    return aligned_alloc(page, size > SIZE_MAX - page ? size : (size + page - 1) / page * page);
}

/* C++: `new` and `delete` of its own library come to malloc and free, but those that an allocator brings don't. Where memory ran
   out, the next `new` does what is to be done. */
typedef void *New(size_t size, uintptr_t more, const void *tag);

static void *block_of_new(const char *name, size_t size, size_t alignment, const void *tag) {
    void *block = alignment ? aligned_alloc(alignment, size ? size : 1) : malloc(size ? size : 1);
    New *other = 0;
    if (block) return block;
    *(void **)&other = dlsym(RTLD_NEXT, name);
    return alignment ? other(size, alignment, tag) : other(size, (uintptr_t)tag, 0);
}

void *_Znwm(size_t size) { return block_of_new("_Znwm", size, 0, 0); }
void *_Znam(size_t size) { return block_of_new("_Znam", size, 0, 0); }
void *_ZnwmRKSt9nothrow_t(size_t size, const void *tag) { return block_of_new("_ZnwmRKSt9nothrow_t", size, 0, tag); }
void *_ZnamRKSt9nothrow_t(size_t size, const void *tag) { return block_of_new("_ZnamRKSt9nothrow_t", size, 0, tag); }
void *_ZnwmSt11align_val_t(size_t size, size_t to) { return block_of_new("_ZnwmSt11align_val_t", size, to, 0); }
void *_ZnamSt11align_val_t(size_t size, size_t to) { return block_of_new("_ZnamSt11align_val_t", size, to, 0); }
void *_ZnwmSt11align_val_tRKSt9nothrow_t(size_t size, size_t to, const void *tag) {
    return block_of_new("_ZnwmSt11align_val_tRKSt9nothrow_t", size, to, tag);
}
void *_ZnamSt11align_val_tRKSt9nothrow_t(size_t size, size_t to, const void *tag) {
    return block_of_new("_ZnamSt11align_val_tRKSt9nothrow_t", size, to, tag);
}

/* Each `delete` by its name; what follows the block doesn't matter. */
#define DELETE(name) \
    void name(void *block) { free(block); }
DELETE(_ZdlPv)
DELETE(_ZdaPv)
DELETE(_ZdlPvm)
DELETE(_ZdaPvm)
DELETE(_ZdlPvRKSt9nothrow_t)
DELETE(_ZdaPvRKSt9nothrow_t)
DELETE(_ZdlPvSt11align_val_t)
DELETE(_ZdaPvSt11align_val_t)
DELETE(_ZdlPvmSt11align_val_t)
DELETE(_ZdaPvmSt11align_val_t)
DELETE(_ZdlPvSt11align_val_tRKSt9nothrow_t)
DELETE(_ZdaPvSt11align_val_tRKSt9nothrow_t)

static int is_named(struct dl_phdr_info *library, size_t size, void *name) {
    const char *path = library->dlpi_name, *last = strrchr(path, '/');
    (void)size;
    return !strcmp(path, name) || (last && !strcmp(last + 1, name));
}

/* A program that asks for nothing has a record too. */
__attribute__((constructor)) static void begin_at_once(void) {
    struct state *it = enter();
    char *name = getenv("HEAP_RECORD_PRELOAD");
    if (it && name) it->head->lacks = dl_iterate_phdr(is_named, name) == 0;
    leave(it);
}

__attribute__((destructor)) static void end_well(void) {
    if (state && state->head) state->head->is_ended = 1;
}
