/* Loaded into a program (LD_PRELOAD), makes its calls of the system fail, or ends it there. The calls of the kind INJECT_CALL are counted from 1, those
   of every kind where it is "any". The one whose number is in INJECT_AT is struck, and with INJECT_ON all later ones too. INJECT_HOW says how:
       a number    the call fails with this errno, and does nothing (a close closes); with EINTR and INJECT_ON a hundred calls fail so,
                   since who is interrupted may try again for ever
       short       a read or a write gets no more than one byte, or, with INJECT_ON, half of what was asked; other calls are as ever
       kill, int, term     the signal comes before the call
       count       nothing happens
   For each call that is struck a byte is written to the file descriptor whose number is in INJECT_FD. */
#define _GNU_SOURCE
#include <dlfcn.h>
#include <errno.h>
#include <fcntl.h>
#include <signal.h>
#include <stdarg.h>
#include <stdlib.h>
#include <string.h>
#include <sys/stat.h>
#include <sys/syscall.h>
#include <sys/uio.h>
#include <unistd.h>

static const char *kind = "";
static const char *how = "";
static long at, count;
static int on, told = -1;

__attribute__((constructor)) static void start(void) {
    const char *text;
    kind = (text = getenv("INJECT_CALL")) ? text : "";
    how = (text = getenv("INJECT_HOW")) ? text : "";
    at = (text = getenv("INJECT_AT")) ? atol(text) : 0;
    told = (text = getenv("INJECT_FD")) ? atoi(text) : -1;
    on = getenv("INJECT_ON") != NULL;
}

/* Whether this call is struck. A signal has come then. */
static int is_struck(const char *call) {
    if (at == 0 || (strcmp(kind, call) != 0 && strcmp(kind, "any") != 0)) {
        return 0;
    }
    count += 1;
    if (count < at || (count > at && !on) || (atoi(how) == EINTR && count >= at + 100)) {
        return 0;
    }
    if (told >= 0) {
        syscall(SYS_write, told, "s", 1);
    }
    int name = strcmp(how, "kill") == 0 ? SIGKILL : strcmp(how, "int") == 0 ? SIGINT : strcmp(how, "term") == 0 ? SIGTERM : 0;
    if (name != 0) {
        raise(name);
    }
    return 1;
}

/* Whether the call fails, and then the errno is set. */
static int fails(const char *call) {
    int error = is_struck(call) ? atoi(how) : 0;
    if (error != 0) {
        errno = error;
    }
    return error != 0;
}

/* How many bytes a call may move; or -1, and the errno is set. */
static ssize_t room(const char *call, size_t size) {
    if (!is_struck(call)) {
        return (ssize_t)size;
    }
    if (atoi(how) != 0) {
        errno = atoi(how);
        return -1;
    }
    if (strcmp(how, "short") != 0 || size == 0) {
        return (ssize_t)size;
    }
    return on ? (ssize_t)((size + 1) / 2) : 1;
}

static int open_at(int folder, const char *path, int flags, va_list more) {
    mode_t mode = flags & (O_CREAT | O_TMPFILE) ? va_arg(more, mode_t) : 0;
    return fails("open") ? -1 : (int)syscall(SYS_openat, folder, path, flags, mode);
}

#define OPENS(name, parameters, folder)                         \
    int name parameters {                                       \
        va_list more;                                           \
        va_start(more, flags);                                  \
        int made = open_at(folder, path, flags, more);          \
        va_end(more);                                           \
        return made;                                            \
    }
OPENS(open, (const char *path, int flags, ...), AT_FDCWD)
OPENS(open64, (const char *path, int flags, ...), AT_FDCWD)
OPENS(openat, (int folder, const char *path, int flags, ...), folder)
OPENS(openat64, (int folder, const char *path, int flags, ...), folder)

ssize_t read(int fd, void *bytes, size_t size) {
    ssize_t most = room("read", size);
    return most < 0 ? -1 : syscall(SYS_read, fd, bytes, (size_t)most);
}

ssize_t pread(int fd, void *bytes, size_t size, off_t from) {
    ssize_t most = room("read", size);
    return most < 0 ? -1 : syscall(SYS_pread64, fd, bytes, (size_t)most, from);
}

ssize_t pread64(int fd, void *bytes, size_t size, off64_t from) {
    return pread(fd, bytes, size, from);
}

ssize_t write(int fd, const void *bytes, size_t size) {
    ssize_t most = room("write", size);
    return most < 0 ? -1 : syscall(SYS_write, fd, bytes, (size_t)most);
}

ssize_t __write(int fd, const void *bytes, size_t size) {
    return write(fd, bytes, size);
}

ssize_t pwrite(int fd, const void *bytes, size_t size, off_t to) {
    ssize_t most = room("write", size);
    return most < 0 ? -1 : syscall(SYS_pwrite64, fd, bytes, (size_t)most, to);
}

ssize_t writev(int fd, const struct iovec *parts, int number) {
    return number < 1 ? syscall(SYS_writev, fd, parts, number) : write(fd, parts[0].iov_base, parts[0].iov_len);
}

off_t lseek(int fd, off_t to, int from) {
    return fails("lseek") ? -1 : syscall(SYS_lseek, fd, to, from);
}

off64_t lseek64(int fd, off64_t to, int from) {
    return lseek(fd, to, from);
}

int fsync(int fd) {
    return fails("fsync") ? -1 : (int)syscall(SYS_fsync, fd);
}

int fdatasync(int fd) {
    return fails("fsync") ? -1 : (int)syscall(SYS_fdatasync, fd);
}

int ftruncate(int fd, off_t size) {
    return fails("ftruncate") ? -1 : (int)syscall(SYS_ftruncate, fd, size);
}

int close(int fd) {
    int failed = fails("close");
    int error = errno;
    int closed = (int)syscall(SYS_close, fd);
    errno = failed ? error : errno;
    return failed ? -1 : closed;
}

int rename(const char *from, const char *to) {
    return fails("rename") ? -1 : (int)syscall(SYS_renameat, AT_FDCWD, from, AT_FDCWD, to);
}

int mkdir(const char *path, mode_t mode) {
    return fails("mkdir") ? -1 : (int)syscall(SYS_mkdirat, AT_FDCWD, path, mode);
}

int unlink(const char *path) {
    return fails("unlink") ? -1 : (int)syscall(SYS_unlinkat, AT_FDCWD, path, 0);
}

int chmod(const char *path, mode_t mode) {
    return fails("chmod") ? -1 : (int)syscall(SYS_fchmodat, AT_FDCWD, path, mode);
}

ssize_t readlink(const char *path, char *bytes, size_t size) {
    return fails("readlink") ? -1 : syscall(SYS_readlinkat, AT_FDCWD, path, bytes, size);
}

int statx(int folder, const char *restrict path, int flags, unsigned mask, struct statx *restrict about) {
    return fails("statx") ? -1 : (int)syscall(SYS_statx, folder, path, flags, mask, about);
}

char *realpath(const char *restrict path, char *restrict bytes) {
    char *(*next)(const char *, char *) = (char *(*)(const char *, char *))dlsym(RTLD_NEXT, "realpath");
    return fails("realpath") || next == NULL ? NULL : next(path, bytes);
}
