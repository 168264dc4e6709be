// Has something happen at a moment of a call of a program, or has one call of the system fail. It is preloaded:
//
//   cc -O2 -shared -fPIC -o meanwhile.so meanwhile.c -ldl
//   MOMENT=/a THEN='rm dir/b' LD_PRELOAD=./meanwhile.so hbox create one.img dir
//
// MOMENT is `/NAME` for a read of a file of this name, `pwrite`, `sync` for those of the data alone too, `flock`, `link`,
// `unlink`, or `linked`, which comes behind a link. TURN=N lets so many of these moments pass. Then a shell carries out
// THEN, whose parent is the program. With FAIL=E the call is not made, and answers with the number E of the system.
#define _GNU_SOURCE
#include <dlfcn.h>
#include <errno.h>
#include <stdio.h>
#include <stdlib.h>
#include <string.h>
#include <sys/file.h>
#include <unistd.h>

static long turns = -1; // how many moments pass; below 0 none comes any more

__attribute__((constructor)) static void begin(void) {
    if (getenv("MOMENT") != NULL) turns = getenv("TURN") == NULL ? 0 : atol(getenv("TURN"));
    unsetenv("LD_PRELOAD");
}

// Whether the call at this moment fails.
static int fails(const char *moment) {
    if (turns < 0 || strcmp(moment, getenv("MOMENT")) != 0 || turns-- > 0) return 0;
    if (getenv("THEN") != NULL && system(getenv("THEN")) < 0) abort();
    if (getenv("FAIL") == NULL) return 0;
    errno = atoi(getenv("FAIL"));
    return 1;
}

#define CALL(moment, name, types, ...) \
    int name types { \
        int(*real) types = dlsym(RTLD_NEXT, #name); \
        return fails(moment) ? -1 : real(__VA_ARGS__); \
    }
CALL("sync", fdatasync, (int file), file)
CALL("sync", fsync, (int file), file)
CALL("flock", flock, (int file, int how), file, how)
CALL("unlink", unlink, (const char *path), path)

int link(const char *path, const char *name) {
    int (*real)(const char *, const char *) = dlsym(RTLD_NEXT, "link");
    int done = fails("link") ? -1 : real(path, name);
    return done == 0 && fails("linked") ? -1 : done;
}

ssize_t pwrite(int file, const void *bytes, size_t len, off_t at) {
    ssize_t (*real)(int, const void *, size_t, off_t) = dlsym(RTLD_NEXT, "pwrite");
    return fails("pwrite") ? -1 : real(file, bytes, len, at);
}
ssize_t pwrite64(int file, const void *bytes, size_t len, off_t at) { return pwrite(file, bytes, len, at); }

ssize_t read(int file, void *into, size_t len) {
    ssize_t (*real)(int, void *, size_t) = dlsym(RTLD_NEXT, "read");
    char link[64], path[4096];
    snprintf(link, sizeof link, "/proc/self/fd/%d", file);
    ssize_t found = readlink(link, path, sizeof path - 1);
    path[found < 0 ? 0 : found] = 0;
    return strrchr(path, '/') != NULL && fails(strrchr(path, '/')) ? -1 : real(file, into, len);
}
