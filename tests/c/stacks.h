/* Threads with stacks of a given size: how much of one some work uses, and whether it is enough. */
#ifndef STACKS_H
#define STACKS_H

#include <pthread.h>
#include <sys/wait.h>

#include "lent.h"

/* THREAD: what the header's numbers have for the thread itself. */
enum { STACK = 4 * 1024 * 1024, PAINT = 0xa5, THREAD = 8192 };

/* The bytes of stack that a thread used for some work, the thread's own included: the stack is ours, and is painted first. */
static inline size_t used(void *(*work)(void *), void *given) {
    uint8_t *stack = mmap(NULL, STACK, PROT_READ | PROT_WRITE, MAP_PRIVATE | MAP_ANONYMOUS, -1, 0);
    pthread_attr_t attributes;
    pthread_t thread;
    sure(stack != MAP_FAILED, "mmap");
    memset(stack, PAINT, STACK);
    if (pthread_attr_init(&attributes) != 0 || pthread_attr_setstack(&attributes, stack, STACK) != 0) exit(2);
    if (pthread_create(&thread, &attributes, work, given) != 0 || pthread_join(thread, NULL) != 0) exit(2);
    size_t clean = 0;
    while (clean < STACK && stack[clean] == PAINT) clean++;
    munmap(stack, STACK);
    return STACK - clean;
}

static inline void *idle(void *given) {
    (void)given;
    return NULL;
}

/* Whether a thread with this many bytes of stack does the work, which answers NULL if all is as it should be: a process of its own, which a stack that is too small would end. */
static inline int enough(size_t bytes, void *(*work)(void *), void *given) {
    int status = 0;
    fflush(stdout);
    pid_t child = fork();
    sure(child >= 0, "fork");
    if (child == 0) {
        pthread_attr_t attributes;
        pthread_t thread;
        void *wrong = NULL;
        if (pthread_attr_init(&attributes) != 0 || pthread_attr_setstacksize(&attributes, bytes) != 0) _exit(2);
        if (pthread_create(&thread, &attributes, work, given) != 0 || pthread_join(thread, &wrong) != 0) _exit(2);
        _exit(wrong != NULL);
    }
    sure(waitpid(child, &status, 0) == child, "waitpid");
    if (WIFSIGNALED(status)) printf(" (FAIL  a thread of %zu bytes was ended by signal %d)", bytes, WTERMSIG(status));
    if (WIFEXITED(status) && WEXITSTATUS(status) != 0) printf(" (FAIL  a thread of %zu bytes: status %d)", bytes, WEXITSTATUS(status));
    return WIFEXITED(status) && WEXITSTATUS(status) == 0;
}

#endif
