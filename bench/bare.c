// Makes the calls of a log on a file, and nothing else, and prints how many microseconds they took, by the clock
// and of a processor: cc -O2 -o bare bare.c && ./bare LOG FILE
//
// The log has the lines of calls.c without `reply`, and `open PATH`, which reads a whole file. What is written are bytes
// that are not zero, where no such line stands before.
#define _GNU_SOURCE
#include <fcntl.h>
#include <stdio.h>
#include <stdlib.h>
#include <string.h>
#include <time.h>
#include <unistd.h>

enum { LONGEST = 1 << 20, MOST_CALLS = 1 << 20, SOME_BYTE = 0x5a };

typedef struct {
    char kind; // the first letter of the line: r, w, s, f or o
    char *path;
    long long at;
    size_t len;
} Call;

static char bytes[LONGEST];
static Call calls[MOST_CALLS];

static void fail(const char *what) {
    perror(what);
    exit(1);
}

static int read_all(const char *path) {
    ssize_t came;
    int file = open(path, O_RDONLY);
    while ((came = read(file, bytes, sizeof bytes)) > 0) {}
    return came == 0 && close(file) == 0;
}

static int make(int file, const Call *call) {
    switch (call->kind) {
    case 'r': return pread(file, bytes, call->len, call->at) == (ssize_t)call->len;
    case 'w': return pwrite(file, bytes, call->len, call->at) == (ssize_t)call->len;
    case 's': return fdatasync(file) == 0;
    case 'f': return fsync(file) == 0;
    case 'o': return read_all(call->path);
    default: return 0;
    }
}

static double now(clockid_t clock) {
    struct timespec time;
    clock_gettime(clock, &time);
    return time.tv_sec * 1e6 + time.tv_nsec / 1e3;
}

int main(int count, char **words) {
    if (count != 3) return 2;
    FILE *log = fopen(words[1], "r");
    int file = open(words[2], O_RDWR);
    if (log == NULL || file < 0) fail(words[1]);
    size_t many = 0;
    for (char line[4096]; fgets(line, sizeof line, log) != NULL; many++) {
        if (many == MOST_CALLS) fail("too many calls");
        calls[many].kind = line[0];
        sscanf(line, "%*s %lld %zu", &calls[many].at, &calls[many].len);
        if (line[0] == 'o') calls[many].path = strdup(strtok(line + 5, "\n"));
        if (calls[many].len > LONGEST) fail("too long a call");
    }
    memset(bytes, SOME_BYTE, sizeof bytes);
    double clock = now(CLOCK_MONOTONIC), processor = now(CLOCK_PROCESS_CPUTIME_ID);
    for (size_t at = 0; at < many; at++)
        if (!make(file, &calls[at])) fail("a call");
    printf("%.1f %.1f\n", now(CLOCK_MONOTONIC) - clock, now(CLOCK_PROCESS_CPUTIME_ID) - processor);
    return 0;
}
