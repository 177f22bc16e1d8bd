/* The FAIL_ATth call of the C allocator answers that there is no memory; `each-allocation` preloads this. Calls are counted
   from the program's start on, those of the C library's own start among them. At the end the count stands in the file REACHED,
   and that of the calls that grow a block in the file GREW; `lines` reads both. */
#define _GNU_SOURCE
#include <dlfcn.h>
#include <errno.h>
#include <stdio.h>
#include <stdlib.h>

static long calls, grown, fail_at = -1;

static int fails(void) {
    if (fail_at < 0) {
        const char *text = getenv("FAIL_AT");
        fail_at = text ? atol(text) : 0;
    }
    return ++calls == fail_at;
}

static void *next(const char *name) { return dlsym(RTLD_NEXT, name); }

void *malloc(size_t size) {
    static void *(*real)(size_t);
    if (!real) real = next("malloc");
    if (fails()) { errno = ENOMEM; return NULL; }
    return real(size);
}

void *realloc(void *old, size_t size) {
    static void *(*real)(void *, size_t);
    if (!real) real = next("realloc");
    if (old) grown++;
    if (fails()) { errno = ENOMEM; return NULL; }
    return real(old, size);
}

void *aligned_alloc(size_t alignment, size_t size) {
    static void *(*real)(size_t, size_t);
    if (!real) real = next("aligned_alloc");
    if (fails()) { errno = ENOMEM; return NULL; }
    return real(alignment, size);
}

int posix_memalign(void **to, size_t alignment, size_t size) {
    static int (*real)(void **, size_t, size_t);
    if (!real) real = next("posix_memalign");
    if (fails()) return ENOMEM;
    return real(to, alignment, size);
}

static void write_count(const char *variable, long count) {
    const char *path = getenv(variable);
    FILE *file = path ? fopen(path, "w") : NULL;
    if (!file) return;
    fprintf(file, "%ld\n", count);
    fclose(file);
}

__attribute__((destructor)) static void tell(void) {
    long all = calls, grew = grown;
    write_count("REACHED", all);
    write_count("GREW", grew);
}
