// Preloaded into a program, it refuses one thread: the one whose number (from 1) the environment variable REFUSE_THREAD
// gives, as pthread_create does where the system has no more. 0 or none refuses nothing. Built by tests/no-worker.
#define _GNU_SOURCE
#include <dlfcn.h>
#include <errno.h>
#include <pthread.h>
#include <stdlib.h>
#include <unistd.h>

typedef int create(pthread_t *, const pthread_attr_t *, void *(*)(void *), void *);

int pthread_create(pthread_t *thread, const pthread_attr_t *how, void *(*start)(void *), void *with) {
    static long seen = 0;
    const char *text = getenv("REFUSE_THREAD");
    if (text && __sync_add_and_fetch(&seen, 1) == atol(text)) {
        (void)!write(2, "thread refused\n", 15);
        return EAGAIN;
    }
    return ((create *)dlsym(RTLD_NEXT, "pthread_create"))(thread, how, start, with);
}
