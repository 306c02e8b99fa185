// Preloaded into a program, makes calls of the C library fail that the program makes on one descriptor.
//     FAULT="CALL FD FIRST TIMES ERRNO MOST" LD_PRELOAD=faults.so PROGRAM
// CALL is read, write or fsync; FD is 0 or 1, or 3 for every number above 2. Of these calls, counted from 1, those from FIRST on, TIMES of them, fail with
// ERRNO, or answer 0 where that is 0; the others move at most MOST bytes.
#include <errno.h>
#include <stdio.h>
#include <stdlib.h>
#include <string.h>
#include <sys/syscall.h>
#include <unistd.h>

// Whether this call fails. Lowers `count` to MOST.
static int fails(const char *call, int fd, size_t *count) {
    static long seen;
    char name[8];
    int of, error;
    long first, times;
    size_t most;
    const char *fault = getenv("FAULT");
    if (fault == NULL || sscanf(fault, "%7s %d %ld %ld %d %zu", name, &of, &first, &times, &error, &most) != 6)
        abort();
    if (strcmp(name, call) != 0 || of != (fd > 2 ? 3 : fd))
        return 0;
    if (*count > most)
        *count = most;
    seen++;
    if (seen < first || seen - first >= times)
        return 0;
    errno = error;
    return 1;
}

ssize_t read(int fd, void *bytes, size_t count) {
    if (fails("read", fd, &count))
        return errno ? -1 : 0;
    return syscall(SYS_read, fd, bytes, count);
}

ssize_t write(int fd, const void *bytes, size_t count) {
    if (fails("write", fd, &count))
        return errno ? -1 : 0;
    return syscall(SYS_write, fd, bytes, count);
}

int fsync(int fd) {
    size_t none = 0;
    if (fails("fsync", fd, &none))
        return errno ? -1 : 0;
    return syscall(SYS_fsync, fd);
}
