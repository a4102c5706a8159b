// Calls of the system that are slow or refused, for tests that have to come in between: loaded
// before the C library by LD_PRELOAD. SLOW names what is asked for; MARK is the file that is made
// when a slow call has begun. The call goes on when it is removed, or after 20 seconds.
#define _GNU_SOURCE
#include <errno.h>
#include <fcntl.h>
#include <stdarg.h>
#include <stdio.h>
#include <stdlib.h>
#include <string.h>
#include <sys/syscall.h>
#include <unistd.h>

static int asked(const char *what) {
    return strstr(getenv("SLOW"), what) != NULL;
}

static void pause_in(const char *call) {
    static int has_paused = 0;
    if (has_paused || !asked(call)) {
        return;
    }
    has_paused = 1;
    close(openat(AT_FDCWD, getenv("MARK"), O_CREAT | O_WRONLY, 0600));
    for (int i = 0; i < 20000 && access(getenv("MARK"), F_OK) == 0; i++) {
        usleep(1000);
    }
}

int fsync(int file) {
    pause_in("fsync");
    return syscall(SYS_fsync, file);
}

int rename(const char *from, const char *to) {
    pause_in("rename");
    return renameat(AT_FDCWD, from, AT_FDCWD, to);
}

int flock(int file, int how) {
    if (asked("no-locks")) {
        errno = ENOLCK;
        return -1;
    }
    return syscall(SYS_flock, file, how);
}

int linkat(int from_folder, const char *from, int to_folder, const char *to, int flags) {
    if (asked("no-links")) {
        errno = EPERM;
        return -1;
    }
    return syscall(SYS_linkat, from_folder, from, to_folder, to, flags);
}

int open64(const char *path, int flags, ...) {
    va_list more;
    va_start(more, flags);
    int mode = va_arg(more, int);
    va_end(more);
    if (asked("no-unnamed") && (flags & O_TMPFILE) == O_TMPFILE) {
        errno = EOPNOTSUPP;
        return -1;
    }
    return openat(AT_FDCWD, path, flags, mode);
}
