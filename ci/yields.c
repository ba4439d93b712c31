// For ci/program.py: loaded before the C library, it holds a program's first thread back until another thread yields.
#define _GNU_SOURCE
#include <dlfcn.h>
#include <pthread.h>
#include <semaphore.h>

static sem_t yields;
static int started;
static void *(*body)(void *);

int sched_yield(void) { return sem_post(&yields); }

static void *held(void *word) {
    sem_wait(&yields);
    return body(word);
}

int pthread_create(pthread_t *made, const pthread_attr_t *how, void *(*runs)(void *), void *word) {
    int (*start)(pthread_t *, const pthread_attr_t *, void *(*)(void *), void *) = dlsym(RTLD_NEXT, "pthread_create");
    if (started++)
        return start(made, how, runs, word);
    body = runs;
    return start(made, how, held, word);
}
