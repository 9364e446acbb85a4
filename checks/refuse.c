/* Stands before the C library's malloc and realloc, and refuses one call of these, for checks/memory.
 *
 * REFUSE is the number of the call that fails, counted from 1, or 0 for none. ALLOCATIONS names a file of eight bytes
 * in which the calls are counted, so that their number is told however the program ends. */
#define _GNU_SOURCE
#include <dlfcn.h>
#include <errno.h>
#include <fcntl.h>
#include <stdatomic.h>
#include <stdlib.h>
#include <sys/mman.h>
#include <unistd.h>

static void *(*system_malloc)(size_t);
static void *(*system_realloc)(void *, size_t);
static long refused;
static _Atomic(long) *calls;

__attribute__((constructor)) static void begin(void) {
    const char *number = getenv("REFUSE"), *name = getenv("ALLOCATIONS");
    int file = name == NULL ? -1 : open(name, O_RDWR);
    void *counted = file < 0 ? MAP_FAILED : mmap(NULL, sizeof *calls, PROT_READ | PROT_WRITE, MAP_SHARED, file, 0);
    if (counted == MAP_FAILED)
        _exit(99);
    close(file);
    system_malloc = (void *(*)(size_t))dlsym(RTLD_NEXT, "malloc");
    system_realloc = (void *(*)(void *, size_t))dlsym(RTLD_NEXT, "realloc");
    refused = number == NULL ? 0 : atol(number);
    calls = counted;
}

static int is_refused(void) {
    if (calls == NULL || atomic_fetch_add(calls, 1) + 1 != refused)
        return 0;
    errno = ENOMEM;
    return 1;
}

void *malloc(size_t size) {
    if (system_malloc == NULL)
        system_malloc = (void *(*)(size_t))dlsym(RTLD_NEXT, "malloc");
    return is_refused() ? NULL : system_malloc(size);
}

void *realloc(void *block, size_t size) {
    if (system_realloc == NULL)
        system_realloc = (void *(*)(void *, size_t))dlsym(RTLD_NEXT, "realloc");
    return is_refused() ? NULL : system_realloc(block, size);
}
