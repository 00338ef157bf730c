/* Refuses one call of a program on x86-64 Linux that this library is loaded before (LD_PRELOAD). tools/refuse-growth compiles it,
   without the headers and the libraries of C, and sets

     REFUSE        growth (malloc, calloc, realloc, aligned_alloc, posix_memalign) or call (open, openat, read, write,
                   writev, mkdir, rename, fsync, fdatasync)
     REFUSE_AT     which of these calls fails, counted from 1
     REFUSE_MARK   a file that is made when it does
*/
typedef __SIZE_TYPE__ size_t;
typedef long ssize_t;

enum { GROWTH = 'g', CALL = 'c' };
enum { NO_MEMORY = 12, NO_RIGHT = 13, NO_DEVICE = 5, NO_SPACE = 28 };
enum { HERE = -100, TO_WRITE = 1, TO_MAKE = 0100, OWNERS = 0600 };
enum { READ = 0, WRITE = 1, CLOSE = 3, WRITEV = 20, FSYNC = 74, FDATASYNC = 75, OPENAT = 257, MKDIRAT = 258, RENAMEAT = 264 };

extern void *__libc_malloc(size_t size);
extern void *__libc_calloc(size_t count, size_t size);
extern void *__libc_realloc(void *block, size_t size);
extern void *__libc_memalign(size_t alignment, size_t size);
extern int *__errno_location(void);
extern char *getenv(const char *name);
extern long syscall(long number, ...);
extern unsigned long strtoul(const char *text, char **end, int base);

static unsigned long seen;

/* Whether this call is the one that fails, which sets errno. */
static int is_refused(char kind, int error) {
    const char *wanted = getenv("REFUSE"), *at = getenv("REFUSE_AT"), *mark = getenv("REFUSE_MARK");
    if (!wanted || !at || !mark || wanted[0] != kind || ++seen != strtoul(at, 0, 10)) return 0;
    syscall(CLOSE, syscall(OPENAT, HERE, mark, TO_MAKE | TO_WRITE, OWNERS));
    *__errno_location() = error;
    return 1;
}

void *malloc(size_t size) {
    return is_refused(GROWTH, NO_MEMORY) ? 0 : __libc_malloc(size);
}

void *calloc(size_t count, size_t size) {
    return is_refused(GROWTH, NO_MEMORY) ? 0 : __libc_calloc(count, size);
}

void *realloc(void *block, size_t size) {
    return is_refused(GROWTH, NO_MEMORY) ? 0 : __libc_realloc(block, size);
}

void *aligned_alloc(size_t alignment, size_t size) {
    return is_refused(GROWTH, NO_MEMORY) ? 0 : __libc_memalign(alignment, size);
}

int posix_memalign(void **block, size_t alignment, size_t size) {
    void *found = is_refused(GROWTH, NO_MEMORY) ? 0 : __libc_memalign(alignment, size);
    if (!found) return NO_MEMORY;
    *block = found;
    return 0;
}

/* (a caller that gives no mode makes no file, and then the system does not look at it) */
static int opened(int folder, const char *path, int flags, unsigned mode) {
    return is_refused(CALL, NO_RIGHT) ? -1 : (int)syscall(OPENAT, folder, path, flags, mode);
}

#define OPENED(folder) \
    __builtin_va_list rest; \
    __builtin_va_start(rest, flags); \
    unsigned mode = __builtin_va_arg(rest, unsigned); \
    __builtin_va_end(rest); \
    return opened(folder, path, flags, mode);

int open(const char *path, int flags, ...) { OPENED(HERE) }
int open64(const char *path, int flags, ...) { OPENED(HERE) }
int openat(int folder, const char *path, int flags, ...) { OPENED(folder) }
int openat64(int folder, const char *path, int flags, ...) { OPENED(folder) }

ssize_t read(int file, void *into, size_t count) {
    return is_refused(CALL, NO_DEVICE) ? -1 : syscall(READ, file, into, count);
}

ssize_t write(int file, const void *from, size_t count) {
    return is_refused(CALL, NO_SPACE) ? -1 : syscall(WRITE, file, from, count);
}

ssize_t writev(int file, const void *parts, int count) {
    return is_refused(CALL, NO_SPACE) ? -1 : syscall(WRITEV, file, parts, count);
}

int mkdir(const char *path, unsigned mode) {
    return is_refused(CALL, NO_RIGHT) ? -1 : (int)syscall(MKDIRAT, HERE, path, mode);
}

int rename(const char *old, const char *new) {
    return is_refused(CALL, NO_RIGHT) ? -1 : (int)syscall(RENAMEAT, HERE, old, HERE, new);
}

int fsync(int file) {
    return is_refused(CALL, NO_DEVICE) ? -1 : (int)syscall(FSYNC, file);
}

int fdatasync(int file) {
    return is_refused(CALL, NO_DEVICE) ? -1 : (int)syscall(FDATASYNC, file);
}
