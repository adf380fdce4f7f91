// A library to preload: where the program ends, the greatest sum of bytes that its blocks of memory held at one time goes to the
// file that LIVE_REPORT names. While a block is given more room, the old and the new one count, as where it is moved. Where
// the program writes to its standard output, the sum that it holds then goes to the file that LIVE_WRITES names.
#define _GNU_SOURCE
#include <dlfcn.h>
#include <fcntl.h>
#include <malloc.h>
#include <stdio.h>
#include <stdlib.h>
#include <sys/syscall.h>
#include <unistd.h>

static size_t live, greatest;
static void *(*given)(size_t), *(*given_zeros)(size_t, size_t), *(*given_more)(void *, size_t);
static void (*taken_back)(void *);

static void find(void) {
    if (given)
        return;
    given = (void *(*)(size_t))dlsym(RTLD_NEXT, "malloc");
    given_zeros = (void *(*)(size_t, size_t))dlsym(RTLD_NEXT, "calloc");
    given_more = (void *(*)(void *, size_t))dlsym(RTLD_NEXT, "realloc");
    taken_back = (void (*)(void *))dlsym(RTLD_NEXT, "free");
}

static void add(size_t size) {
    live += size;
    if (live > greatest)
        greatest = live;
}

void *malloc(size_t size) {
    find();
    void *block = given(size);
    add(block ? malloc_usable_size(block) : 0);
    return block;
}

void *calloc(size_t count, size_t size) {
    find();
    void *block = given_zeros(count, size);
    add(block ? malloc_usable_size(block) : 0);
    return block;
}

void *realloc(void *old, size_t size) {
    find();
    size_t was = old ? malloc_usable_size(old) : 0;
    void *block = given_more(old, size);
    if (block) {
        add(malloc_usable_size(block));
        live -= was;
    }
    return block;
}

void free(void *block) {
    find();
    live -= block ? malloc_usable_size(block) : 0;
    taken_back(block);
}

static void tell(void) {
    static int file = -2;
    char line[32];
    if (file == -2) {
        const char *name = getenv("LIVE_WRITES");
        file = name ? open(name, O_CREAT | O_WRONLY | O_TRUNC, 0644) : -1;
    }
    if (file < 0)
        return;
    // (padded, so that a shorter number covers a longer one)
    int size = snprintf(line, sizeof line, "%-20zu\n", live);
    if (pwrite(file, line, (size_t)size, 0) != size)
        abort();
}

ssize_t write(int to, const void *from, size_t size) {
    if (to == 1)
        tell();
    return syscall(SYS_write, to, from, size);
}

ssize_t __write(int to, const void *from, size_t size) {
    return write(to, from, size);
}

__attribute__((destructor)) static void report(void) {
    const char *name = getenv("LIVE_REPORT");
    size_t held = greatest;
    FILE *file = name ? fopen(name, "w") : NULL;
    if (file) {
        fprintf(file, "%zu\n", held);
        fclose(file);
    }
}
