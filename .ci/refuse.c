// Refuses one of a program's requests for memory, the calls of malloc, calloc and realloc. It is preloaded:
//
//   cc -O2 -shared -fPIC -o refuse.so refuse.c -ldl
//   REFUSED=7 REFUSED_LOG=log LD_PRELOAD=./refuse.so hstore one.img run <script
//
// Requests have numbers from 0 on, and the one with the number REFUSED is answered as where no memory is left. Then the
// file REFUSED_LOG is written: `unread`, or `read` where a file was read by its offset before.
#define _GNU_SOURCE
#include <dlfcn.h>
#include <errno.h>
#include <fcntl.h>
#include <stdlib.h>
#include <string.h>
#include <unistd.h>

// Those of the C library, which may be asked before the calls below can be looked up.
void *__libc_malloc(size_t len);
void *__libc_calloc(size_t count, size_t len);
void *__libc_realloc(void *old, size_t len);

static ssize_t (*real_pread)(int, void *, size_t, off_t);
static const char *log_path;
static unsigned long refused;
static unsigned long requests;
static int counts;
static int has_read;

__attribute__((constructor)) static void begin(void) {
    const char *number = getenv("REFUSED");
    log_path = getenv("REFUSED_LOG");
    real_pread = dlsym(RTLD_NEXT, "pread");
    if (number == NULL || log_path == NULL || real_pread == NULL) abort();
    refused = strtoul(number, NULL, 10);
    counts = 1;
}

static int is_refused(void) {
    if (!counts || requests++ != refused) return 0;
    const char *state = has_read ? "read\n" : "unread\n";
    int file = open(log_path, O_WRONLY | O_CREAT | O_TRUNC | O_CLOEXEC, 0600);
    if (file < 0 || write(file, state, strlen(state)) < 0) abort();
    close(file);
    errno = ENOMEM;
    return 1;
}

void *malloc(size_t len) { return is_refused() ? NULL : __libc_malloc(len); }

void *calloc(size_t count, size_t len) { return is_refused() ? NULL : __libc_calloc(count, len); }

void *realloc(void *old, size_t len) { return is_refused() ? NULL : __libc_realloc(old, len); }

ssize_t pread(int file, void *into, size_t len, off_t at) {
    has_read = 1;
    return real_pread(file, into, len, at);
}

ssize_t pread64(int file, void *into, size_t len, off_t at) { return pread(file, into, len, at); }
