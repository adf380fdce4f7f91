// A library to preload. It refuses what a program asks of the system, to show what the program then does.
//
//   REFUSE_MEMORY=N   the Nth request for memory, by malloc or realloc, counted from the start of main, is refused
//   REFUSE_READ=N     the Nth read, and each later one, fails with EIO
//   REFUSE_WRITE=N    the Nth write, and each later one, fails with EIO
//   REFUSE_ERROR=N    these reads and writes fail with error number N instead of EIO
//   REFUSE_MANY=N     reads and writes move at most N bytes at a time
//   REFUSE_SIGNS=1    the program itself says what is refused: after a request for 2^24 + N bytes, N from 1 to 4095, the Nth
//                     request is refused; a request for 2^24 bytes ends this, and is granted exactly if no request was
//                     refused since
//   REFUSE_REPORT=FD  at the end a line is written to this file descriptor: the number of requests for memory, the number of
//                     those refused, the bytes read, the bytes written, the greatest resident memory in KiB and the greatest
//                     single request in bytes
#define _GNU_SOURCE
#include <dlfcn.h>
#include <errno.h>
#include <stdio.h>
#include <stdlib.h>
#include <string.h>
#include <sys/syscall.h>
#include <unistd.h>

// The calls that move bytes in one direction: the first one that fails, how many were made, and how many bytes they moved.
struct traffic {
    long fails_at, times, bytes;
};

enum { SIGN = 1 << 24, SIGNS = 1 << 12 };

static struct traffic in, out;
static long memory_at, many, signs, error, report_to = -1;
static long requests, refused, refused_before;
static size_t greatest;
static int is_started;

static long number(const char *name, long otherwise) {
    const char *text = getenv(name);
    return text ? atol(text) : otherwise;
}

__attribute__((constructor)) static void start(void) {
    memory_at = number("REFUSE_MEMORY", 0);
    in.fails_at = number("REFUSE_READ", 0);
    out.fails_at = number("REFUSE_WRITE", 0);
    many = number("REFUSE_MANY", 0);
    signs = number("REFUSE_SIGNS", 0);
    error = number("REFUSE_ERROR", EIO);
    report_to = number("REFUSE_REPORT", -1);
    is_started = 1;
}

// For a request of SIGN bytes, ends the refusals and returns whether a request was refused since the last sign. For a
// greater one, arranges for a later request to be refused and returns 0.
static int is_sign_refused(size_t size) {
    int was_refused = size == SIGN && refused > refused_before;
    memory_at = size == SIGN ? 0 : requests + (long)(size - SIGN);
    refused_before = refused;
    return was_refused;
}

// Counts a request for memory, and returns whether it is to be refused.
static int is_refused(size_t size) {
    if (signs && size >= SIGN && size < SIGN + SIGNS)
        return is_sign_refused(size);
    if (is_started && size > greatest)
        greatest = size;
    if (!is_started || ++requests != memory_at)
        return 0;
    refused++;
    errno = ENOMEM;
    return 1;
}

void *malloc(size_t size) {
    static void *(*given)(size_t);
    if (!given)
        given = (void *(*)(size_t))dlsym(RTLD_NEXT, "malloc");
    return is_refused(size) ? NULL : given(size);
}

void *realloc(void *old, size_t size) {
    static void *(*given)(void *, size_t);
    if (!given)
        given = (void *(*)(void *, size_t))dlsym(RTLD_NEXT, "realloc");
    return is_refused(size) ? NULL : given(old, size);
}

static ssize_t moved(long call, struct traffic *way, int file, void *bytes, size_t size) {
    if (way->fails_at && ++way->times >= way->fails_at) {
        errno = (int)error;
        return -1;
    }
    ssize_t count = syscall(call, file, bytes, many && size > (size_t)many ? (size_t)many : size);
    way->bytes += count > 0 ? count : 0;
    return count;
}

ssize_t read(int from, void *to, size_t size) {
    return moved(SYS_read, &in, from, to, size);
}

ssize_t write(int to, const void *from, size_t size) {
    return moved(SYS_write, &out, to, (void *)from, size);
}

ssize_t __write(int to, const void *from, size_t size) {
    return write(to, from, size);
}

__attribute__((destructor)) static void report(void) {
    char line[256], text[8192];
    if (report_to < 0)
        return;
    is_started = 0;
    int status = (int)syscall(SYS_openat, -100, "/proc/self/status", 0);
    ssize_t size = syscall(SYS_read, status, text, sizeof text - 1);
    text[size > 0 ? size : 0] = 0;
    const char *peak = strstr(text, "VmHWM:");
    int length = snprintf(line, sizeof line, "%ld %ld %ld %ld %ld %zu\n", requests, refused, in.bytes, out.bytes,
                          peak ? atol(peak + 6) : -1, greatest);
    syscall(SYS_write, (int)report_to, line, (size_t)length);
}
