/* Preloaded into a program, it counts the calls that ask the C library for memory, and refuses one of them: the one whose
 * number, from 1, stands in REFUSE. The count stands in the file that REFUSE_COUNT names, eight bytes, also where the
 * program leaves without a word to its libraries. */
#include <errno.h>
#include <fcntl.h>
#include <stdatomic.h>
#include <stddef.h>
#include <stdlib.h>
#include <sys/mman.h>
#include <unistd.h>

extern void *__libc_malloc(size_t);
extern void *__libc_calloc(size_t, size_t);
extern void *__libc_realloc(void *, size_t);
extern void *__libc_memalign(size_t, size_t);

static _Atomic long uncounted;
static _Atomic long *calls = &uncounted;
static long refused;

__attribute__((constructor)) static void begin(void) {
    const char *number = getenv("REFUSE");
    const char *name = getenv("REFUSE_COUNT");
    refused = number ? atol(number) : 0;
    int file = name ? open(name, O_RDWR) : -1;
    if (file < 0) return;
    void *shared = mmap(NULL, sizeof(long), PROT_READ | PROT_WRITE, MAP_SHARED, file, 0);
    close(file);
    if (shared != MAP_FAILED) calls = shared;
}

static int is_refused(void) {
    if (atomic_fetch_add(calls, 1) + 1 != refused) return 0;
    errno = ENOMEM;
    return 1;
}

void *malloc(size_t size) { return is_refused() ? NULL : __libc_malloc(size); }
void *calloc(size_t count, size_t size) { return is_refused() ? NULL : __libc_calloc(count, size); }
void *realloc(void *block, size_t size) { return is_refused() ? NULL : __libc_realloc(block, size); }
void *memalign(size_t align, size_t size) { return is_refused() ? NULL : __libc_memalign(align, size); }
void *aligned_alloc(size_t align, size_t size) { return is_refused() ? NULL : __libc_memalign(align, size); }

int posix_memalign(void **block, size_t align, size_t size) {
    void *found = is_refused() ? NULL : __libc_memalign(align, size);
    if (!found) return ENOMEM;
    *block = found;
    return 0;
}
