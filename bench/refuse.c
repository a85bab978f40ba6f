// Refuses one call for memory: for LD_PRELOAD.
//
// REFUSE tells the number of the call, counted from 1, of those to malloc and realloc; 0 is none. The file that
// REFUSE_COUNT names has 8 bytes, in which the calls are counted.
#include <errno.h>
#include <fcntl.h>
#include <stdatomic.h>
#include <stddef.h>
#include <stdlib.h>
#include <sys/mman.h>
#include <unistd.h>

extern void *__libc_malloc(size_t size);
extern void *__libc_realloc(void *block, size_t size);

static _Atomic unsigned long *calls;
static unsigned long refused;

__attribute__((constructor)) static void begin(void) {
    const char *number = getenv("REFUSE"), *path = getenv("REFUSE_COUNT");
    int file = path ? open(path, O_RDWR) : -1;
    if (number == NULL || file < 0) return;
    void *page = mmap(NULL, sizeof *calls, PROT_READ | PROT_WRITE, MAP_SHARED, file, 0);
    close(file);
    if (page == MAP_FAILED) return;
    refused = strtoul(number, NULL, 10);
    calls = page;
}

static int is_refused(void) {
    if (calls == NULL || atomic_fetch_add(calls, 1) + 1 != refused) return 0;
    errno = ENOMEM;
    return 1;
}

void *malloc(size_t size) {
    return is_refused() ? NULL : __libc_malloc(size);
}

void *realloc(void *block, size_t size) {
    return is_refused() ? NULL : __libc_realloc(block, size);
}
