/* Writes a letter to standard error for each thread that is made. program-tests preloads it. */
#define _GNU_SOURCE
#include <dlfcn.h>
#include <pthread.h>
#include <unistd.h>

typedef int create(pthread_t *, const pthread_attr_t *, void *(*)(void *), void *);

int pthread_create(pthread_t *thread, const pthread_attr_t *how, void *(*start)(void *), void *of) {
    create *next = (create *)dlsym(RTLD_NEXT, "pthread_create");
    int result = next(thread, how, start, of);
    if (result == 0 && write(2, "t", 1) != 1) _exit(99);
    return result;
}
