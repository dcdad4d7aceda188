/* Orders the threads of a script 'threads 1 N'. program-tests preloads it. The program's own thread is the session, and the thread that it
   makes is the worker. The worker begins when the session has made allocations, and the session goes on when the worker has made some. A
   wait has an end: then a letter goes to standard error. */
#define _GNU_SOURCE
#include <dlfcn.h>
#include <pthread.h>
#include <sched.h>
#include <stdatomic.h>
#include <stdlib.h>
#include <sys/mman.h>
#include <time.h>
#include <unistd.h>

void *__libc_malloc(size_t), *__libc_calloc(size_t, size_t), *__libc_realloc(void *, size_t), *__libc_memalign(size_t, size_t);
typedef int create(pthread_t *, const pthread_attr_t *, void *(*)(void *), void *);
struct begun { void *(*start)(void *); void *of; };

/* How many allocations a thread makes before the other one goes on, and for how many seconds that one waits. */
enum { FEW = 20, MANY = 200, SECONDS = 20 };
static atomic_int is_ordered;
static atomic_long by_session, by_worker;
static _Thread_local int is_worker;

static void wait_for(atomic_long *count, long due) {
    struct timespec now, end;
    clock_gettime(CLOCK_MONOTONIC, &end);
    end.tv_sec += SECONDS;
    while (atomic_load(count) < due) {
        sched_yield();
        clock_gettime(CLOCK_MONOTONIC, &now);
        if (now.tv_sec >= end.tv_sec) {
            if (write(2, "l", 1) != 1) _exit(99);
            return;
        }
    }
}

static void count(void) {
    if (!atomic_load(&is_ordered)) return;
    if (is_worker) atomic_fetch_add(&by_worker, 1);
    else if (atomic_fetch_add(&by_session, 1) == MANY) wait_for(&by_worker, FEW);
}

static void *begin(void *at) {
    struct begun it = *(struct begun *)at;
    is_worker = 1;
    wait_for(&by_session, MANY);
    return it.start(it.of);
}

int pthread_create(pthread_t *thread, const pthread_attr_t *how, void *(*start)(void *), void *of) {
    static struct begun it;
    create *next = (create *)dlsym(RTLD_NEXT, "pthread_create");
    it = (struct begun){start, of};
    atomic_store(&is_ordered, 1);
    return next(thread, how, begin, &it);
}

void *malloc(size_t n) { count(); return __libc_malloc(n); }
void *calloc(size_t k, size_t n) { count(); return __libc_calloc(k, n); }
void *realloc(void *p, size_t n) { count(); return __libc_realloc(p, n); }
void *aligned_alloc(size_t a, size_t n) { count(); return __libc_memalign(a, n); }
int posix_memalign(void **p, size_t a, size_t n) { count(); return (*p = __libc_memalign(a, n)) ? 0 : 12; }
