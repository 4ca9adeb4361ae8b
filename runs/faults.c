/* Faults of standard input and output, for runs/faults, which loads this before a program (LD_PRELOAD). READS and WRITES have a letter for each
   call in turn: i is interrupted, a would block, e fails, f finds no space, and a digit moves so many bytes at most. Calls after the last letter
   are as usual. Each letter that was used is written to descriptor 9. */
#include <errno.h>
#include <stdlib.h>
#include <sys/syscall.h>
#include <unistd.h>

/* The error of this call, or 0; the count is cut where that is the fault. */
static int fault(const char *name, size_t *used, size_t *count) {
    const char *plan = getenv(name);
    size_t at = 0;
    if (!plan) return 0;
    while (at < *used && plan[at]) at++;
    if (!plan[at]) return 0;
    *used += 1;
    syscall(SYS_write, 9, plan + at, (size_t)1);
    switch (plan[at]) {
    case 'i': return EINTR;
    case 'a': return EAGAIN;
    case 'e': return EIO;
    case 'f': return ENOSPC;
    }
    if ((size_t)(plan[at] - '0') < *count) *count = (size_t)(plan[at] - '0');
    return 0;
}

ssize_t read(int fd, void *bytes, size_t count) {
    static size_t used;
    int error = fd == 0 ? fault("READS", &used, &count) : 0;
    if (error) return errno = error, -1;
    return syscall(SYS_read, fd, bytes, count);
}

ssize_t write(int fd, const void *bytes, size_t count) {
    static size_t used;
    int error = fd == 1 ? fault("WRITES", &used, &count) : 0;
    if (error) return errno = error, -1;
    return syscall(SYS_write, fd, bytes, count);
}
