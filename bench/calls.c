// Notes the calls that a program makes of files by their offset, and those of its standard output. It is preloaded:
//
//   cc -O2 -shared -fPIC -o calls.so calls.c -ldl
//   CALLS_LOG=log LD_PRELOAD=./calls.so hstore one.img run <script
//
// Each call becomes a line of the log: `read AT LENGTH`, `write AT LENGTH`, `sync` (of the data alone), `fsync`, and
// `reply` for one that wrote to standard output. Calls that the system refused stand there too. The log is written where
// the room for it is full, and when the program ends. With CALLS_FAIL=N the sync N of the data alone, from 0 on, fails.
#define _GNU_SOURCE
#include <dlfcn.h>
#include <errno.h>
#include <fcntl.h>
#include <stdarg.h>
#include <stdio.h>
#include <stdlib.h>
#include <sys/uio.h>
#include <unistd.h>

enum { ROOM = 1 << 20, LINE = 64 };

static char lines[ROOM];
static size_t noted;
static int log_file = -1;
static long before_failing = -1; // how many syncs come before the one that fails

#define FIND(name) real_##name = dlsym(RTLD_NEXT, #name)
static __typeof__(&write) real_write;
static __typeof__(&writev) real_writev;
static __typeof__(&pread) real_pread;
static __typeof__(&pwrite) real_pwrite;
static __typeof__(&fdatasync) real_fdatasync;
static __typeof__(&fsync) real_fsync;

static void write_log(void) {
    size_t done = 0;
    while (done < noted) {
        ssize_t moved = real_write(log_file, lines + done, noted - done);
        if (moved <= 0) abort();
        done += (size_t)moved;
    }
    noted = 0;
}

__attribute__((constructor)) static void begin(void) {
    FIND(write), FIND(writev), FIND(pread), FIND(pwrite), FIND(fdatasync), FIND(fsync);
    const char *path = getenv("CALLS_LOG");
    // Its number is far from those that the program's own files get.
    int file = path == NULL ? -1 : open(path, O_WRONLY | O_CREAT | O_TRUNC | O_CLOEXEC, 0600);
    log_file = file < 0 ? -1 : fcntl(file, F_DUPFD_CLOEXEC, 200);
    if (log_file < 0) abort();
    close(file);
    if (getenv("CALLS_FAIL") != NULL) before_failing = atol(getenv("CALLS_FAIL"));
}

__attribute__((destructor)) static void end(void) { write_log(); }

__attribute__((format(printf, 1, 2))) static void note(const char *form, ...) {
    if (noted + LINE > ROOM) write_log();
    va_list values;
    va_start(values, form);
    noted += (size_t)vsnprintf(lines + noted, LINE, form, values);
    va_end(values);
}

ssize_t pread(int file, void *into, size_t len, off_t at) {
    note("read %lld %zu\n", (long long)at, len);
    return real_pread(file, into, len, at);
}
ssize_t pread64(int file, void *into, size_t len, off_t at) { return pread(file, into, len, at); }

ssize_t pwrite(int file, const void *bytes, size_t len, off_t at) {
    note("write %lld %zu\n", (long long)at, len);
    return real_pwrite(file, bytes, len, at);
}
ssize_t pwrite64(int file, const void *bytes, size_t len, off_t at) { return pwrite(file, bytes, len, at); }

int fdatasync(int file) {
    note("sync\n");
    if (before_failing-- != 0) return real_fdatasync(file);
    return errno = EIO, -1;
}

int fsync(int file) {
    note("fsync\n");
    return real_fsync(file);
}

ssize_t write(int file, const void *bytes, size_t len) {
    if (file == STDOUT_FILENO) note("reply\n");
    return real_write(file, bytes, len);
}

ssize_t writev(int file, const struct iovec *parts, int count) {
    if (file == STDOUT_FILENO) note("reply\n");
    return real_writev(file, parts, count);
}
