// Put before the C library (LD_PRELOAD): some calls on files fail, are cut short, or end the program, by a plan.
//
// FAULTS is the plan, as 7:EIO,9:short. Calls are counted from 1. Of a call with a number in the plan becomes:
//   EIO ENOSPC EINTR   it does nothing and fails so
//   short              a read or a write of half of its bytes
//   part               a write of half of its bytes, and the end of the program
//   before, behind     the end of the program, before the call or behind it
// A number with a + behind it, as in 7+:EIO, stands for this call and all later syncs. A name in place of a number, as in
// left:EIO, stands for the first sync of that file: so the system tells a failure that came behind the back of all.
// FAULTS_LOG names a file to which each call adds a line: its name, its descriptor, what it answered (below 0 the error), a
// number (the place of a read or a write, the length of a cut, the flags of an opening), and the path or the bytes written,
// in hexadecimal.
#define _GNU_SOURCE
#include <errno.h>
#include <fcntl.h>
#include <signal.h>
#include <stdarg.h>
#include <stdio.h>
#include <stdlib.h>
#include <string.h>
#include <sys/stat.h>
#include <sys/syscall.h>
#include <sys/types.h>
#include <unistd.h>

enum fate { PASSES, FAILS, SHORT, PART, BEFORE, BEHIND };

enum { DESCRIPTORS = 1024 };

static long calls;
static int log_file = -1;
static char plan[4096];
static char names[DESCRIPTORS][16];

__attribute__((constructor)) static void begin(void) {
    const char *text = getenv("FAULTS"), *path = getenv("FAULTS_LOG");
    if (text) strncpy(plan, text, sizeof plan - 1);
    if (!path) return;
    int low = syscall(SYS_openat, AT_FDCWD, path, O_WRONLY | O_CREAT | O_APPEND | O_CLOEXEC, 0600);
    log_file = syscall(SYS_fcntl, low, F_DUPFD_CLOEXEC, 500L);
    syscall(SYS_close, low);
}

static void end_here(void) { syscall(SYS_kill, syscall(SYS_getpid), SIGKILL); }

static enum fate fate_named(const char *word, int *error) {
    static const struct { const char *word; enum fate fate; int error; } fates[] = {
        {"EIO", FAILS, EIO}, {"ENOSPC", FAILS, ENOSPC}, {"EINTR", FAILS, EINTR}, {"short", SHORT, 0},
        {"part", PART, 0}, {"before", BEFORE, 0}, {"behind", BEHIND, 0},
    };
    for (size_t i = 0; i < sizeof fates / sizeof *fates; i++) {
        size_t length = strlen(fates[i].word);
        if (!strncmp(word, fates[i].word, length)) {
            *error = fates[i].error;
            return fates[i].fate;
        }
    }
    return PASSES;
}

// Whether a plan's next part speaks of this call. Goes behind its number or name.
static int is_meant(char **at, int fd, int is_sync) {
    if (**at >= '0' && **at <= '9') {
        long number = strtol(*at, at, 10);
        int later = **at == '+';
        *at += later;
        return number == calls || (later && is_sync && number < calls);
    }
    size_t length = strcspn(*at, ":");
    char *name = *at;
    *at += length;
    if (!is_sync || fd < 0 || fd >= DESCRIPTORS) return 0;
    if (strlen(names[fd]) != length || strncmp(names[fd], name, length)) return 0;
    memset(name, '-', length);
    return 1;
}

// Counts a call, and gives its fate. A call that is to end the program before it does not come back.
static enum fate next_fate(int fd, int is_sync) {
    int error = 0;
    enum fate fate = PASSES;
    calls++;
    for (char *at = plan; *at && fate == PASSES;) {
        int meant = is_meant(&at, fd, is_sync);
        if (*at == ':' && meant) fate = fate_named(at + 1, &error);
        while (*at && *at++ != ',') {}
    }
    if (fate == BEFORE) end_here();
    if (fate == FAILS) errno = error;
    return fate;
}

static void add(const char *text, size_t length) { syscall(SYS_write, log_file, text, length); }

// Adds the line of a call to the log, and ends the program where that is its fate.
static long done(enum fate fate, const char *name, int fd, long answer, long long number, const void *bytes, size_t size) {
    int error = errno;
    if (log_file >= 0) {
        char *line = NULL;
        char head[128];
        int length = snprintf(head, sizeof head, "%s %d %ld %lld ", name, fd, answer < 0 ? -(long)error : answer, number);
        size_t whole = length + 2 * size + 1;
        static char room[1 << 20];
        if (whole < sizeof room) {
            line = room;
            memcpy(line, head, length);
            for (size_t i = 0; i < size; i++) {
                static const char digits[] = "0123456789abcdef";
                unsigned char byte = ((const unsigned char *)bytes)[i];
                line[length + 2 * i] = digits[byte >> 4];
                line[length + 2 * i + 1] = digits[byte & 15];
            }
            line[whole - 1] = '\n';
            add(line, whole);
        }
    }
    if (fate == PART || fate == BEHIND) end_here();
    errno = error;
    return answer;
}

static long long place_of(int fd) {
    int error = errno;
    long long place = syscall(SYS_lseek, fd, 0L, SEEK_CUR);
    errno = error;
    return place;
}

int open(const char *path, int flags, ...) {
    va_list rest;
    va_start(rest, flags);
    int mode = flags & O_CREAT ? va_arg(rest, int) : 0;
    va_end(rest);
    enum fate fate = next_fate(-1, 0);
    long fd = fate == FAILS ? -1 : syscall(SYS_openat, AT_FDCWD, path, flags, mode);
    if (fd >= 0 && fd < DESCRIPTORS) {
        const char *slash = strrchr(path, '/');
        snprintf(names[fd], sizeof *names, "%s", slash ? slash + 1 : path);
    }
    return done(fate, "open", fd, fd, flags, path, strlen(path));
}

int open64(const char *path, int flags, ...) __attribute__((alias("open")));

int close(int fd) {
    enum fate fate = next_fate(fd, 0);
    long answer = syscall(SYS_close, fd);
    if (fate == FAILS) answer = -1;
    return done(fate, "close", fd, answer, 0, NULL, 0);
}

ssize_t read(int fd, void *bytes, size_t size) {
    enum fate fate = next_fate(fd, 0);
    long long place = place_of(fd);
    if (fate == SHORT && size > 1) size /= 2;
    long answer = fate == FAILS ? -1 : syscall(SYS_read, fd, bytes, size);
    return done(fate, "read", fd, answer, place, NULL, 0);
}

ssize_t write(int fd, const void *bytes, size_t size) {
    enum fate fate = next_fate(fd, 0);
    long long place = place_of(fd);
    if ((fate == SHORT || fate == PART) && size > 1) size /= 2;
    long answer = fate == FAILS ? -1 : syscall(SYS_write, fd, bytes, size);
    return done(fate, "write", fd, answer, place, bytes, answer > 0 ? answer : 0);
}

off_t lseek(int fd, off_t place, int whence) {
    enum fate fate = next_fate(fd, 0);
    long answer = fate == FAILS ? -1 : syscall(SYS_lseek, fd, place, whence);
    return done(fate, "lseek", fd, answer, place, NULL, 0);
}

off64_t lseek64(int fd, off64_t place, int whence) __attribute__((alias("lseek")));

int ftruncate(int fd, off_t length) {
    enum fate fate = next_fate(fd, 0);
    long answer = fate == FAILS ? -1 : syscall(SYS_ftruncate, fd, length);
    return done(fate, "ftruncate", fd, answer, length, NULL, 0);
}

int ftruncate64(int fd, off64_t length) __attribute__((alias("ftruncate")));

int fsync(int fd) {
    enum fate fate = next_fate(fd, 1);
    return done(fate, "fsync", fd, fate == FAILS ? -1 : syscall(SYS_fsync, fd), 0, NULL, 0);
}

int fdatasync(int fd) {
    enum fate fate = next_fate(fd, 1);
    return done(fate, "fsync", fd, fate == FAILS ? -1 : syscall(SYS_fdatasync, fd), 0, NULL, 0);
}

int statx(int fd, const char *path, int flags, unsigned mask, struct statx *found) {
    enum fate fate = next_fate(fd, 0);
    long answer = fate == FAILS ? -1 : syscall(SYS_statx, fd, path, flags, mask, found);
    return done(fate, "statx", fd, answer, 0, path, strlen(path));
}

int mkdir(const char *path, mode_t mode) {
    enum fate fate = next_fate(-1, 0);
    long answer = fate == FAILS ? -1 : syscall(SYS_mkdirat, AT_FDCWD, path, mode);
    return done(fate, "mkdir", -1, answer, 0, path, strlen(path));
}
