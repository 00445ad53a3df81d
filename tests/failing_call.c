/* Lets one call of the host that a program makes fail, or move a byte alone. FAILING_KIND names the kind of call: open, read, write,
 * map or thread; FAILING_NUMBER its number among those of its kind, counted from 1; FAILING_ERROR the number of the error, or 0 for a
 * read or a write that moves a byte alone, and for a thread in whose place the program ends with status 99. It is loaded before the C
 * library, and hands every other call on to it.
 * It includes nothing, so that a compiler without headers builds it. */
typedef unsigned long size;
typedef long count;

extern void *dlsym(void *library, const char *name);
extern char *getenv(const char *name);
extern unsigned long strtoul(const char *text, char **end, int base);
extern int strcmp(const char *one, const char *other);
extern void _exit(int status);
extern int *__errno_location(void);

#define NEXT_LIBRARY ((void *)-1l)

enum kind { OPEN, READ, WRITE, MAP, THREAD, KINDS };

static const char *const names[KINDS] = {"open", "read", "write", "map", "thread"};
static unsigned long made[KINDS];

static unsigned long number_of(const char *name) {
    const char *text = getenv(name);
    return text == 0 ? 0 : strtoul(text, 0, 10);
}

/* Whether this call is the one. */
static int is_named(enum kind kind) {
    const char *named = getenv("FAILING_KIND");
    unsigned long number = __atomic_add_fetch(&made[kind], 1, __ATOMIC_RELAXED);
    return named != 0 && strcmp(named, names[kind]) == 0 && number_of("FAILING_NUMBER") == number;
}

static int fails(enum kind kind) {
    if (!is_named(kind)) return 0;
    *__errno_location() = (int)number_of("FAILING_ERROR");
    return 1;
}

int open(const char *path, int flags, ...) {
    int (*next)(const char *, int, ...) = (int (*)(const char *, int, ...))dlsym(NEXT_LIBRARY, "open");
    return fails(OPEN) ? -1 : next(path, flags, 0666);
}

/* How many bytes a call moves that is not to fail, or -1. */
static count moved(enum kind kind, size bytes) {
    if (!is_named(kind)) return (count)bytes;
    if (number_of("FAILING_ERROR") == 0) return bytes < 1 ? 0 : 1;
    *__errno_location() = (int)number_of("FAILING_ERROR");
    return -1;
}

count read(int file, void *into, size bytes) {
    count (*next)(int, void *, size) = (count (*)(int, void *, size))dlsym(NEXT_LIBRARY, "read");
    count most = moved(READ, bytes);
    return most < 0 ? -1 : next(file, into, (size)most);
}

count write(int file, const void *from, size bytes) {
    count (*next)(int, const void *, size) = (count (*)(int, const void *, size))dlsym(NEXT_LIBRARY, "write");
    count most = moved(WRITE, bytes);
    return most < 0 ? -1 : next(file, from, (size)most);
}

void *mmap(void *at, size bytes, int protection, int flags, int file, long offset) {
    void *(*next)(void *, size, int, int, int, long) = (void *(*)(void *, size, int, int, int, long))dlsym(NEXT_LIBRARY, "mmap");
    return fails(MAP) ? (void *)-1l : next(at, bytes, protection, flags, file, offset);
}

/* It answers the error's number itself. */
int pthread_create(unsigned long *thread, const void *attributes, void *(*start)(void *), void *argument) {
    int (*next)(unsigned long *, const void *, void *(*)(void *), void *) =
        (int (*)(unsigned long *, const void *, void *(*)(void *), void *))dlsym(NEXT_LIBRARY, "pthread_create");
    if (!is_named(THREAD)) return next(thread, attributes, start, argument);
    if (number_of("FAILING_ERROR") == 0) _exit(99);
    return (int)number_of("FAILING_ERROR");
}
