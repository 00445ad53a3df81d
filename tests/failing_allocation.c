/* Lets one allocation of a program fail: the one whose number the variable FAILING_ALLOCATION names, counted from 1. Where
 * FAILING_PROGRAM names a program, that one alone is meant, and not those that start it.
 * It is loaded before the C library, and hands every other call on to it. A block that is made longer counts too.
 * It includes nothing, so that a compiler without headers builds it. */
typedef unsigned long size;

extern void *dlsym(void *library, const char *name);
extern char *getenv(const char *name);
extern unsigned long strtoul(const char *text, char **end, int base);
extern int strcmp(const char *one, const char *other);
extern char *program_invocation_short_name;

#define NEXT_LIBRARY ((void *)-1l)

static unsigned long made;

static int is_meant(void) {
    const char *meant = getenv("FAILING_PROGRAM");
    return meant == 0 || (program_invocation_short_name != 0 && strcmp(meant, program_invocation_short_name) == 0);
}

static int fails(void) {
    const char *failing = getenv("FAILING_ALLOCATION");
    unsigned long number = __atomic_add_fetch(&made, 1, __ATOMIC_RELAXED);
    return failing != 0 && is_meant() && strtoul(failing, 0, 10) == number;
}

void *malloc(size bytes) {
    void *(*next)(size) = (void *(*)(size))dlsym(NEXT_LIBRARY, "malloc");
    return fails() ? 0 : next(bytes);
}

void *realloc(void *block, size bytes) {
    void *(*next)(void *, size) = (void *(*)(void *, size))dlsym(NEXT_LIBRARY, "realloc");
    return fails() ? 0 : next(block, bytes);
}
