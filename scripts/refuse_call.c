/* Preloaded into a built program, it refuses or shortens calls of the C library, so that a script can see what the
 * program makes of it. REFUSE names the kind and NTH the call, counted from 1:
 *   alloc      the NTH allocation finds no memory
 *   read       the NTH read fails
 *   write      the NTH write to standard output fails
 *   interrupt  the NTH read or write to standard output is interrupted
 *   short      each read and each write to standard output, from the NTH on, moves one byte
 *   asleep     each read from the NTH on is interrupted
 *   broken     each read moves one byte, and the NTH fails
 *   full       each write to standard output moves one byte, and each from the NTH on fails
 *   idle       the same, but each from the NTH on takes nothing
 *   thread     the NTH thread is not started
 *   none       nothing is refused
 * Where a call met this, descriptor 9 gets an x. At the end it gets a number: of `thread`, how many threads run, and
 * of `none`, how many blocks of memory are held. It needs no header, so that any C compiler for x86-64 Linux makes
 * it. */
typedef unsigned long size;

extern char *getenv(const char *);
extern int *__errno_location(void);
extern long syscall(long, ...);
extern void *dlsym(void *, const char *);
extern void *__libc_malloc(size);
extern void *__libc_calloc(size, size);
extern void *__libc_realloc(void *, size);
extern void *__libc_memalign(size, size);
extern void __libc_free(void *);

enum { SYS_READ = 0, SYS_WRITE = 1, SYS_EXIT_GROUP = 231 };
enum { INTERRUPTED = 4, INPUT_FAULT = 5, NO_THREAD = 11, NO_MEMORY = 12, NO_SPACE = 28 };

static const char *kind;
static long wanted, allocations, reads, writes, transfers, held;

static int is_kind(const char *name) {
    if (!kind) {
        const char *nth = getenv("NTH");
        kind = getenv("REFUSE") ? getenv("REFUSE") : "";
        for (; nth && *nth >= '0' && *nth <= '9'; nth++)
            wanted = 10 * wanted + (*nth - '0');
    }
    for (size i = 0;; i++) {
        if (kind[i] != name[i])
            return 0;
        if (!name[i])
            return 1;
    }
}

static int met(int error) {
    syscall(SYS_WRITE, 9, "x", 1);
    *__errno_location() = error;
    return 1;
}

/* of the calls that meet it, the first alone is told: a reader may ask millions of times */
static int met_once(int error) {
    static int is_told;
    if (!is_told++)
        return met(error);
    *__errno_location() = error;
    return 1;
}

static int refuses_memory(void) {
    /* (threads allocate side by side) */
    return is_kind("alloc") && __atomic_add_fetch(&allocations, 1, __ATOMIC_SEQ_CST) == wanted && met(NO_MEMORY);
}

/* a block that was given */
static void *counted(void *block) {
    if (block)
        __atomic_add_fetch(&held, 1, __ATOMIC_SEQ_CST);
    return block;
}

static long moved(long call, int file, void *bytes, size count, const char *failing, long *calls) {
    if (is_kind(failing) && ++*calls == wanted && met(INPUT_FAULT))
        return -1;
    if (is_kind("interrupt") && ++transfers == wanted && met(INTERRUPTED))
        return -1;
    if (is_kind("short") && ++transfers >= wanted && count > 1 && met(0))
        count = 1;
    return syscall(call, file, bytes, count);
}

void *malloc(size bytes) {
    return refuses_memory() ? 0 : counted(__libc_malloc(bytes));
}

void *calloc(size count, size bytes) {
    return refuses_memory() ? 0 : counted(__libc_calloc(count, bytes));
}

void *realloc(void *old, size bytes) {
    void *new = refuses_memory() ? 0 : __libc_realloc(old, bytes);
    return old ? new : counted(new);
}

void *aligned_alloc(size alignment, size bytes) {
    return refuses_memory() ? 0 : counted(__libc_memalign(alignment, bytes));
}

int posix_memalign(void **block, size alignment, size bytes) {
    if (refuses_memory())
        return NO_MEMORY;
    *block = counted(__libc_memalign(alignment, bytes));
    return *block ? 0 : NO_MEMORY;
}

void free(void *block) {
    if (block)
        __atomic_sub_fetch(&held, 1, __ATOMIC_SEQ_CST);
    __libc_free(block);
}

long read(int file, void *bytes, size count) {
    if (is_kind("asleep") && ++reads >= wanted && met_once(INTERRUPTED))
        return -1;
    if (is_kind("broken")) {
        if (++reads == wanted && met(INPUT_FAULT))
            return -1;
        return syscall(SYS_READ, file, bytes, count < 1 ? count : 1);
    }
    return moved(SYS_READ, file, bytes, count, "read", &reads);
}

long write(int file, const void *bytes, size count) {
    int is_full = is_kind("full");
    if (file != 1)
        return syscall(SYS_WRITE, file, bytes, count);
    if (count && (is_full || is_kind("idle"))) {
        if (++writes >= wanted)
            return met_once(NO_SPACE) && is_full ? -1 : 0;
        return syscall(SYS_WRITE, file, bytes, 1);
    }
    return moved(SYS_WRITE, file, (void *)bytes, count, "write", &writes);
}

long __write(int file, const void *bytes, size count) {
    return write(file, bytes, count);
}

typedef int start_thread(void *, const void *, void *(*)(void *), void *);

/* what each thread does, and how many have not ended */
static struct work {
    void *(*body)(void *);
    void *given;
} works[1024];
static long begun, running;

static void *do_work(void *given) {
    struct work *work = given;
    void *made = work->body(work->given);
    __atomic_sub_fetch(&running, 1, __ATOMIC_SEQ_CST);
    return made;
}

int pthread_create(void *thread, const void *how, void *(*body)(void *), void *given) {
    /* (the next of this name: the C library's) */
    start_thread *start = (start_thread *)dlsym((void *)-1L, "pthread_create");
    struct work *work = &works[begun];
    int status;
    if (!is_kind("thread"))
        return start(thread, how, body, given);
    if (begun == 1023 || (++begun == wanted && met(NO_THREAD)))
        return NO_THREAD;
    work->body = body;
    work->given = given;
    __atomic_add_fetch(&running, 1, __ATOMIC_SEQ_CST);
    status = start(thread, how, do_work, work);
    if (status)
        __atomic_sub_fetch(&running, 1, __ATOMIC_SEQ_CST);
    return status;
}

/* tells a number at the end, of a process that returns from main or that leaves at once */
__attribute__((destructor)) static void tell(void) {
    char digits[24];
    size at = sizeof digits;
    long rest = is_kind("thread") ? running : held;
    if (!is_kind("thread") && !is_kind("none"))
        return;
    do
        digits[--at] = '0' + rest % 10;
    while (rest /= 10);
    syscall(SYS_WRITE, 9, digits + at, sizeof digits - at);
}

void _exit(int status) {
    tell();
    for (;;)
        syscall(SYS_EXIT_GROUP, status);
}
