/* Makes one call of a program to the system fail, or ends the program there. For LD_PRELOAD, over the C library's calls
   on files.

   FAULT_AT       the number of the call, from 1 on; each call is counted
   FAULT_HOW      an errno: the call fails with it; "before" or "after": the program is killed before or after the call;
                  "short": a write takes one byte
   FAULT_FOREVER  if set, each later call of the same name fails too
   FAULT_LOG      a descriptor, to which the name of each call is written, a line each */
#define _GNU_SOURCE
#include <errno.h>
#include <fcntl.h>
#include <signal.h>
#include <stdarg.h>
#include <stdlib.h>
#include <string.h>
#include <sys/stat.h>
#include <sys/syscall.h>
#include <unistd.h>

static long at = -1, met;
static int error, before, after, cut, forever, told = -1;
static const char *failing;

__attribute__((constructor)) static void begin(void) {
    const char *number = getenv("FAULT_AT"), *how = getenv("FAULT_HOW"), *file = getenv("FAULT_LOG");
    at = number ? atol(number) : -1;
    told = file ? atoi(file) : -1;
    forever = getenv("FAULT_FOREVER") != NULL;
    if (how == NULL)
        return;
    before = strcmp(how, "before") == 0;
    after = strcmp(how, "after") == 0;
    cut = strcmp(how, "short") == 0;
    error = before || after || cut ? 0 : atoi(how);
}

static void end(void) {
    syscall(SYS_kill, syscall(SYS_getpid), SIGKILL);
}

/* Whether this call is the one. */
static int is_met(const char *name) {
    if (told >= 0) {
        syscall(SYS_write, told, name, strlen(name));
        syscall(SYS_write, told, "\n", 1);
    }
    ++met;
    if (forever && failing != NULL)
        return strcmp(failing, name) == 0;
    if (met != at)
        return 0;
    failing = name;
    if (before)
        end();
    return 1;
}

#define CALL(name, ...)                                                                                                \
    do {                                                                                                               \
        int here = is_met(name);                                                                                       \
        if (here && error) {                                                                                           \
            errno = error;                                                                                             \
            return -1;                                                                                                 \
        }                                                                                                              \
        long got = syscall(__VA_ARGS__);                                                                               \
        if (here && after)                                                                                             \
            end();                                                                                                     \
        return got;                                                                                                    \
    } while (0)

static int open_file(const char *path, int flags, mode_t mode) {
    CALL("open", SYS_openat, AT_FDCWD, path, flags, mode);
}

int open(const char *path, int flags, ...) {
    va_list more;
    va_start(more, flags);
    mode_t mode = flags & O_CREAT ? va_arg(more, mode_t) : 0;
    va_end(more);
    return open_file(path, flags, mode);
}

int open64(const char *path, int flags, ...) {
    va_list more;
    va_start(more, flags);
    mode_t mode = flags & O_CREAT ? va_arg(more, mode_t) : 0;
    va_end(more);
    return open_file(path, flags, mode);
}

/* The system closes the file even if the call fails. */
int close(int file) {
    int here = is_met("close");
    long got = syscall(SYS_close, file);
    if (here && after)
        end();
    if (here && error) {
        errno = error;
        return -1;
    }
    return got;
}

ssize_t read(int file, void *bytes, size_t size) {
    CALL("read", SYS_read, file, bytes, size);
}

ssize_t write(int file, const void *bytes, size_t size) {
    int here = is_met("write");
    if (here && error) {
        errno = error;
        return -1;
    }
    if (here && after)
        size = size > 1 ? size / 2 : size;
    long got = syscall(SYS_write, file, bytes, here && cut && size > 1 ? 1 : size);
    if (here && after)
        end();
    return got;
}

int fsync(int file) {
    CALL("fsync", SYS_fsync, file);
}

int fdatasync(int file) {
    CALL("fdatasync", SYS_fdatasync, file);
}

int rename(const char *from, const char *to) {
    CALL("rename", SYS_rename, from, to);
}

int unlink(const char *path) {
    CALL("unlink", SYS_unlink, path);
}

int fchmod(int file, mode_t mode) {
    CALL("fchmod", SYS_fchmod, file, mode);
}

int fchown(int file, uid_t owner, gid_t group) {
    CALL("fchown", SYS_fchown, file, owner, group);
}

int ftruncate(int file, off_t size) {
    CALL("ftruncate", SYS_ftruncate, file, size);
}

int statx(int folder, const char *path, int flags, unsigned mask, struct statx *told_of) {
    CALL("statx", SYS_statx, folder, path, flags, mask, told_of);
}

ssize_t readlink(const char *path, char *bytes, size_t size) {
    CALL("readlink", SYS_readlink, path, bytes, size);
}
