/*
 * For LD_PRELOAD: refuses one request for memory of a program, the one of the number FAIL_ALLOC, and grants all others.
 * Requests are counted from 1, from the entry of main to its return, so those of the C library before and after are none.
 * Where one was refused, a file of the name FAIL_ALLOC_MARK stands afterwards. Nothing is printed. In the same way the
 * thread of the number FAIL_THREAD isn't started. While a file of the name FAIL_ALLOC_WHILE is there, each request for
 * FAIL_ALLOC_LARGE bytes or more is refused.
 */
#define _GNU_SOURCE
#include <dlfcn.h>
#include <errno.h>
#include <fcntl.h>
#include <pthread.h>
#include <stddef.h>
#include <stdlib.h>
#include <unistd.h>

typedef int main_function(int, char **, char **);
typedef int start_function(main_function *, int, char **, void (*)(void), void (*)(void), void (*)(void), void *);

static main_function *program_main;
static unsigned long number_refused;
static unsigned long requests;
static unsigned long large;
static const char *large_while;
static unsigned long thread_refused;
static unsigned long threads;
static int in_main;

/* The same function of the C library. A dlsym that asks for memory itself finds its function unresolved, and is refused. */
static void *next_function(void **known, const char *name) {
    static int resolving;
    if (*known == NULL && !resolving) {
        resolving = 1;
        *known = dlsym(RTLD_NEXT, name);
        resolving = 0;
    }
    return *known;
}

static int is_refused(unsigned long number, unsigned long refused) {
    if (number != refused) {
        return 0;
    }
    const char *mark = getenv("FAIL_ALLOC_MARK");
    if (mark != NULL) {
        close(open(mark, O_WRONLY | O_CREAT, 0600));
    }
    return 1;
}

static int refuses(size_t size) {
    if (!in_main) {
        return 0;
    }
    if (large_while != NULL && size >= large && access(large_while, F_OK) == 0) {
        return 1;
    }
    return is_refused(__atomic_add_fetch(&requests, 1, __ATOMIC_RELAXED), number_refused);
}

static unsigned long number_in(const char *name) {
    const char *number = getenv(name);
    return number == NULL ? 0 : strtoul(number, NULL, 10);
}

static int counted_main(int argc, char **argv, char **envp) {
    number_refused = number_in("FAIL_ALLOC");
    thread_refused = number_in("FAIL_THREAD");
    large = number_in("FAIL_ALLOC_LARGE");
    large_while = getenv("FAIL_ALLOC_WHILE");
    in_main = 1;
    int status = program_main(argc, argv, envp);
    in_main = 0;
    return status;
}

int __libc_start_main(main_function *entry, int argc, char **argv, void (*init)(void), void (*fini)(void),
                      void (*rtld_fini)(void), void *stack_end) {
    static void *known;
    start_function *start = (start_function *)next_function(&known, "__libc_start_main");
    program_main = entry;
    return start(counted_main, argc, argv, init, fini, rtld_fini, stack_end);
}

void *malloc(size_t size) {
    static void *known;
    void *(*next)(size_t) = (void *(*)(size_t))next_function(&known, "malloc");
    if (next == NULL || refuses(size)) {
        errno = ENOMEM;
        return NULL;
    }
    return next(size);
}

void *calloc(size_t count, size_t size) {
    static void *known;
    void *(*next)(size_t, size_t) = (void *(*)(size_t, size_t))next_function(&known, "calloc");
    if (next == NULL || refuses(count * size)) {
        errno = ENOMEM;
        return NULL;
    }
    return next(count, size);
}

void *realloc(void *block, size_t size) {
    static void *known;
    void *(*next)(void *, size_t) = (void *(*)(void *, size_t))next_function(&known, "realloc");
    if (next == NULL || refuses(size)) {
        errno = ENOMEM;
        return NULL;
    }
    return next(block, size);
}

void *aligned_alloc(size_t alignment, size_t size) {
    static void *known;
    void *(*next)(size_t, size_t) = (void *(*)(size_t, size_t))next_function(&known, "aligned_alloc");
    if (next == NULL || refuses(size)) {
        errno = ENOMEM;
        return NULL;
    }
    return next(alignment, size);
}

int posix_memalign(void **block, size_t alignment, size_t size) {
    static void *known;
    int (*next)(void **, size_t, size_t) = (int (*)(void **, size_t, size_t))next_function(&known, "posix_memalign");
    if (next == NULL || refuses(size)) {
        return ENOMEM;
    }
    return next(block, alignment, size);
}

int pthread_create(pthread_t *thread, const pthread_attr_t *settings, void *(*run)(void *), void *argument) {
    static void *known;
    int (*next)(pthread_t *, const pthread_attr_t *, void *(*)(void *), void *) =
        (int (*)(pthread_t *, const pthread_attr_t *, void *(*)(void *), void *))next_function(&known, "pthread_create");
    if (next == NULL || (in_main && is_refused(__atomic_add_fetch(&threads, 1, __ATOMIC_RELAXED), thread_refused))) {
        return EAGAIN;
    }
    return next(thread, settings, run, argument);
}
