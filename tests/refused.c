// Refuses chosen allocations of a program, which it is loaded into by LD_PRELOAD.
//
// REFUSED says which call is refused, counted from 1 over malloc, calloc, realloc, aligned_alloc and posix_memalign; `N-` refuses that
// call and all behind it. Where one is refused it writes a byte to the descriptor that TOLD says, so the caller knows that there was
// such a call.
#include <errno.h>
#include <stdatomic.h>
#include <stdlib.h>
#include <unistd.h>

extern void *__libc_malloc(size_t);
extern void *__libc_calloc(size_t, size_t);
extern void *__libc_realloc(void *, size_t);
extern void *__libc_memalign(size_t, size_t);

static atomic_ulong calls;
static unsigned long first, last;
static int told = -1;

__attribute__((constructor)) static void begin(void) {
    const char *words = getenv("REFUSED");
    const char *descriptor = getenv("TOLD");
    if (words == NULL || descriptor == NULL)
        return;
    told = atoi(descriptor);
    char *end;
    last = first = strtoul(words, &end, 10);
    if (*end == '-')
        last = -1UL;
}

static int is_refused(void) {
    unsigned long call = atomic_fetch_add(&calls, 1) + 1;
    if (first == 0 || call < first || last < call)
        return 0;
    if (call == first && write(told, "!", 1) != 1)
        _exit(99);
    errno = ENOMEM;
    return 1;
}

void *malloc(size_t size) { return is_refused() ? NULL : __libc_malloc(size); }
void *calloc(size_t count, size_t size) { return is_refused() ? NULL : __libc_calloc(count, size); }
void *realloc(void *old, size_t size) { return is_refused() ? NULL : __libc_realloc(old, size); }
void *aligned_alloc(size_t align, size_t size) { return is_refused() ? NULL : __libc_memalign(align, size); }

int posix_memalign(void **into, size_t align, size_t size) {
    if (is_refused())
        return ENOMEM;
    *into = __libc_memalign(align, size);
    return *into == NULL ? ENOMEM : 0;
}
