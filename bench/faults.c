/* Faults on demand for a program's input and output.
 *
 * Loaded before the C library (LD_PRELOAD), it stands for read on standard input and write on standard output. The
 * environment says what happens in turn: READ_STEPS="333 -5" lets 333 bytes be read, in one call or in several, and then
 * one read fail with error 5. No call goes past the end of a step. Calls after the last step, and those on other
 * descriptors, are the system's. */
#define _GNU_SOURCE
#include <errno.h>
#include <limits.h>
#include <stdlib.h>
#include <sys/syscall.h>
#include <unistd.h>

struct plan {
    const char *variable;
    const char *steps; /* those to come; NULL before the first call */
    long left;         /* bytes of the step under way */
};

static struct plan reads = {"READ_STEPS", NULL, 0}, writes = {"WRITE_STEPS", NULL, 0};

/* Goes to the next step once the one before is done; after the last there is no end to it. */
static void go_on(struct plan *plan) {
    if (plan->steps == NULL) {
        const char *found = getenv(plan->variable);
        plan->steps = found == NULL ? "" : found;
    }
    if (plan->left == 0) {
        char *after;
        plan->left = strtol(plan->steps, &after, 10);
        plan->left = after == plan->steps ? LONG_MAX : plan->left;
        plan->steps = after;
    }
}

static ssize_t by_plan(struct plan *plan, long call, int descriptor, const void *bytes, size_t count) {
    go_on(plan);
    if (plan->left < 0) {
        errno = (int)-plan->left;
        plan->left = 0;
        return -1;
    }
    ssize_t moved = syscall(call, descriptor, bytes, count < (size_t)plan->left ? count : (size_t)plan->left);
    plan->left -= moved > 0 ? moved : 0;
    return moved;
}

ssize_t read(int descriptor, void *bytes, size_t count) {
    return descriptor == STDIN_FILENO ? by_plan(&reads, SYS_read, descriptor, bytes, count)
                                      : syscall(SYS_read, descriptor, bytes, count);
}

ssize_t write(int descriptor, const void *bytes, size_t count) {
    return descriptor == STDOUT_FILENO ? by_plan(&writes, SYS_write, descriptor, bytes, count)
                                       : syscall(SYS_write, descriptor, bytes, count);
}
