/* Loaded before a program (LD_PRELOAD): refuses the allocation whose number the variable REFUSED_ALLOCATION
   has, and the start of the thread whose number REFUSED_THREAD has, counted from 1; where a `-` follows the
   number, all after it too. Where the program ends before it comes to one that is to be refused, it says so
   on standard error. */
typedef unsigned long size_t;

void *__libc_malloc(size_t size);
void *__libc_realloc(void *old, size_t size);
void *dlsym(void *handle, const char *name);
char *getenv(const char *name);
long strtol(const char *digits, char **rest, int radix);
size_t strlen(const char *text);
long write(int file, const void *bytes, size_t count);
void _Exit(int status);

typedef int Start(void *thread, const void *attributes, void *(*routine)(void *), void *argument);

enum { NO_ROOM = 11 /* EAGAIN */ };

/* What is refused of one kind. */
struct refusal {
    long left;       /* how many come before the one refused, and that one; 0 or less: it came */
    int is_on;       /* whether any is refused */
    int is_for_good; /* whether all after it are refused too */
};

static Start *start_thread;
static struct refusal allocations;
static struct refusal threads;

static void set(struct refusal *refusal, const char *asked) {
    char *rest;
    if (!asked) return;
    refusal->left = strtol(asked, &rest, 10);
    refusal->is_on = refusal->left > 0;
    refusal->is_for_good = *rest == '-';
}

__attribute__((constructor)) static void begin(void) {
    start_thread = (Start *)dlsym((void *)-1L /* RTLD_NEXT */, "pthread_create");
    set(&threads, getenv("REFUSED_THREAD"));
    set(&allocations, getenv("REFUSED_ALLOCATION"));
}

static int is_refused(struct refusal *refusal) {
    long left;
    if (!refusal->is_on) return 0;
    left = __atomic_sub_fetch(&refusal->left, 1, __ATOMIC_SEQ_CST);
    return left == 0 || (left < 0 && refusal->is_for_good);
}

void *malloc(size_t size) { return is_refused(&allocations) ? 0 : __libc_malloc(size); }

void *realloc(void *old, size_t size) { return is_refused(&allocations) ? 0 : __libc_realloc(old, size); }

int pthread_create(void *thread, const void *attributes, void *(*routine)(void *), void *argument) {
    if (is_refused(&threads)) return NO_ROOM;
    return start_thread(thread, attributes, routine, argument);
}

static void tell_if_none(const struct refusal *refusal, const char *told) {
    if (refusal->is_on && refusal->left > 0) write(2, told, strlen(told));
}

__attribute__((destructor)) static void tell(void) {
    tell_if_none(&allocations, "no allocation was refused\n");
    tell_if_none(&threads, "no thread was refused\n");
}

/* So ends a program that may start threads, without its destructors. */
void _exit(int status) {
    tell();
    _Exit(status);
}
