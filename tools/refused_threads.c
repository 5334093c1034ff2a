/* Loaded before the C library by tools/soak: pthread_create, which starts as many threads as THREADS says and
   refuses each further one, as a system does that has no more. */
#define _GNU_SOURCE
#include <dlfcn.h>
#include <errno.h>
#include <pthread.h>
#include <stdatomic.h>
#include <stdlib.h>

typedef int start_thread(pthread_t *, const pthread_attr_t *, void *(*)(void *), void *);

static atomic_long started;

int pthread_create(pthread_t *thread, const pthread_attr_t *how, void *(*work)(void *), void *given)
{
    const char *allowed = getenv("THREADS");
    if (allowed != NULL && atomic_fetch_add(&started, 1) >= strtol(allowed, NULL, 10))
        return EAGAIN;
    return ((start_thread *)dlsym(RTLD_NEXT, "pthread_create"))(thread, how, work, given);
}
