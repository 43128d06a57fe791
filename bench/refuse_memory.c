/* Refuses memory to a program that it is loaded before (LD_PRELOAD): the request with the number REFUSE_AT alone, or each one
   from REFUSE_FROM on. Requests are counted from 1, in the first eight bytes of the file that REFUSE_COUNT names. */
#include <errno.h>
#include <fcntl.h>
#include <stdatomic.h>
#include <stddef.h>
#include <stdlib.h>
#include <sys/mman.h>
#include <unistd.h>

extern void *__libc_malloc(size_t);
extern void *__libc_calloc(size_t, size_t);
extern void *__libc_realloc(void *, size_t);
extern void *__libc_memalign(size_t, size_t);

static atomic_ulong before_main;
static atomic_ulong *requests = &before_main;
static unsigned long at, from;

static unsigned long number_in(const char *name) {
    const char *text = getenv(name);
    return text ? strtoul(text, NULL, 10) : 0;
}

/* What was asked for before, by the loader alone, is not counted. */
__attribute__((constructor)) static void begin(void) {
    const char *path = getenv("REFUSE_COUNT");
    int file = path ? open(path, O_RDWR | O_CREAT | O_TRUNC, 0644) : -1;
    if (file >= 0 && ftruncate(file, sizeof(atomic_ulong)) == 0) {
        void *shared = mmap(NULL, sizeof(atomic_ulong), PROT_READ | PROT_WRITE, MAP_SHARED, file, 0);
        if (shared != MAP_FAILED) requests = shared;
        close(file);
    }
    at = number_in("REFUSE_AT");
    from = number_in("REFUSE_FROM");
    atomic_store(requests, 0);
}

static int refused(void) {
    unsigned long number = atomic_fetch_add(requests, 1) + 1;
    if (number != at && (!from || number < from)) return 0;
    errno = ENOMEM;
    return 1;
}

void *malloc(size_t size) { return refused() ? NULL : __libc_malloc(size); }

void *calloc(size_t count, size_t size) { return refused() ? NULL : __libc_calloc(count, size); }

void *realloc(void *old, size_t size) { return refused() ? NULL : __libc_realloc(old, size); }

void *aligned_alloc(size_t alignment, size_t size) { return refused() ? NULL : __libc_memalign(alignment, size); }

void *memalign(size_t alignment, size_t size) { return refused() ? NULL : __libc_memalign(alignment, size); }

int posix_memalign(void **at_address, size_t alignment, size_t size) {
    if (refused()) return ENOMEM;
    *at_address = __libc_memalign(alignment, size);
    return *at_address ? 0 : ENOMEM;
}
