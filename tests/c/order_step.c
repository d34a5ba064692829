// In single steps: a child makes each call, and after every instruction the whole volume is compared. It must be as
// after some number of whole stores, but for the sector of the next one, in which each byte is as before that store or
// as after it.
#include <signal.h>
#include <stdio.h>
#include <stdlib.h>
#include <string.h>
#include <sys/mman.h>
#include <sys/ptrace.h>
#include <sys/wait.h>
#include <unistd.h>

#include "order.h"

static uint8_t start[LENGTH];
// The volume after the stores that are complete, and the sector of each store after it.
static uint8_t complete[LENGTH];
static uint8_t after[MOST_STORES][256];
static long steps;
static int calls;

static void stop(const char *name, const char *what, int number) {
    printf("order: %s: %s (store %d)\n", name, what, number);
    exit(1);
}

void set_up(int count, char **words) {
    (void)count, (void)words;
    void *at = mmap(volume, ROOM, PROT_READ | PROT_WRITE, MAP_SHARED | MAP_ANONYMOUS | MAP_FIXED, -1, 0);
    if (at != volume) stop("set-up", "no memory is shared", 0);
}

static pid_t child_with(struct call call) {
    pid_t child = fork();
    if (child != 0) return child;
    ptrace(PTRACE_TRACEME, 0, NULL, NULL);
    raise(SIGSTOP);
    make(call, 255);
    _exit(0);
}

// Each byte of the sector is as before its store or as after it.
static int in_progress(const uint8_t *now, const uint8_t *old, const uint8_t *new) {
    int right = 1;
    for (int i = 0; i < 256; i++) right &= now[i] == old[i] || now[i] == new[i];
    return right;
}

// Answers how many stores are complete, where `made` were before this instruction.
static int look(const char *name, const struct store *list, int count, int made) {
    if (memcmp(volume, complete, length) == 0) return made;
    if (made == count) stop(name, "a write after the last store", made);
    size_t at = 256 * (size_t)list[made].sector;
    if (memcmp(volume, complete, at) != 0) stop(name, "another sector changes", made + 1);
    if (memcmp(volume + at + 256, complete + at + 256, length - at - 256) != 0)
        stop(name, "another sector changes", made + 1);
    if (!in_progress(volume + at, complete + at, after[made]))
        stop(name, "a byte that is neither old nor new", made + 1);
    if (memcmp(volume + at, after[made], 256) != 0) return made;
    memcpy(complete + at, after[made], 256);
    return made + 1;
}

static void step_through(const char *name, struct call call, const struct store *list, int count) {
    int made = 0, status = 0;
    pid_t child = child_with(call);
    if (child < 0 || waitpid(child, &status, 0) != child || !WIFSTOPPED(status)) stop(name, "no child to step", 0);
    memcpy(complete, volume, length);
    while (ptrace(PTRACE_SINGLESTEP, child, NULL, NULL) == 0 && waitpid(child, &status, 0) == child &&
           WIFSTOPPED(status)) {
        made = look(name, list, count, made);
        steps++;
    }
    if (!WIFEXITED(status) || WEXITSTATUS(status) != 0) stop(name, "the call didn't end", made);
    if (made < count) stop(name, "a store is missing", made + 1);
    calls++;
}

void stores(const char *name, struct call call, const struct store *list, int count) {
    memcpy(start, volume, length);
    for (int i = 0; i < count; i++) {
        make(call, (uint8_t)(i + 1));
        memcpy(after[i], volume + 256 * list[i].sector, 256);
        memcpy(volume, start, length);
    }
    step_through(name, call, list, count);
}

void stores_nothing(const char *name, struct call call, unsigned kind, unsigned number) {
    if (!is_reply(make(call, 0), call, kind, number)) stop(name, "another reply", 0);
    if (!is_reply(make(call, 255), call, kind, number)) stop(name, "another reply", 0);
    step_through(name, call, NULL, 0);
}

void sum_up(void) {
    printf("order: %d calls in %ld steps, no store begun before the last was whole\n", calls, steps);
}
