/* failing.c: preloaded, it makes reads or writes of the processes of one name fail, or move few bytes.
 *
 *   LD_PRELOAD=failing.so FAILING="NAME CALL AT TIMES ERROR MOST" FAILING_SEEN=FILE command
 *
 * CALL is read or write. Calls number AT to AT + TIMES - 1 fail with the error number ERROR; where one does, FILE is made. No call
 * moves more than MOST bytes. Standard error is left alone, so that what is said there can be tested. With FAILING_WAIT a call
 * fails after so many microseconds, by which time the process at a pipe's other end is done.
 */
#define _GNU_SOURCE
#include <dlfcn.h>
#include <errno.h>
#include <fcntl.h>
#include <stdio.h>
#include <stdlib.h>
#include <string.h>
#include <unistd.h>

static struct {
    char name[32], call[8];
    unsigned at, times, error;
    size_t most;
} plan;

static unsigned calls;

__attribute__((constructor)) static void read_plan(void)
{
    const char *text = getenv("FAILING");
    if (!text || sscanf(text, "%31s %7s %u %u %u %zu", plan.name, plan.call, &plan.at, &plan.times, &plan.error, &plan.most) != 6)
        plan.call[0] = 0;
    else if (strcmp(plan.name, program_invocation_short_name))
        plan.call[0] = 0;
}

static int planned(const char *call, int fd)
{
    return fd != STDERR_FILENO && !strcmp(plan.call, call);
}

/* Whether this call is one of those that fail. */
static int fails(void)
{
    const char *seen = getenv("FAILING_SEEN"), *wait = getenv("FAILING_WAIT");
    calls++;
    if (calls < plan.at || calls - plan.at >= plan.times)
        return 0;
    if (seen)
        close(open(seen, O_CREAT | O_WRONLY, 0666));
    if (wait)
        usleep((useconds_t)atoi(wait));
    errno = (int)plan.error;
    return 1;
}

ssize_t read(int fd, void *buf, size_t n)
{
    ssize_t (*real)(int, void *, size_t) = (ssize_t (*)(int, void *, size_t))dlsym(RTLD_NEXT, "read");
    if (!planned("read", fd))
        return real(fd, buf, n);
    return fails() ? -1 : real(fd, buf, n < plan.most ? n : plan.most);
}

ssize_t write(int fd, const void *buf, size_t n)
{
    ssize_t (*real)(int, const void *, size_t) = (ssize_t (*)(int, const void *, size_t))dlsym(RTLD_NEXT, "write");
    if (!planned("write", fd))
        return real(fd, buf, n);
    return fails() ? -1 : real(fd, buf, n < plan.most ? n : plan.most);
}
