/* Stands before the C library's allocator and refuses memory, for scripts/refused_memory: all calls from the one of a
 * number on, or that one alone. Calls are counted from 1. REFUSE_FROM or REFUSE_ONLY has the number, 0 or none of them for
 * never; REFUSE_TOLD names a file of 16 bytes, into which the calls that were made and those that were refused are told as
 * two words of 64 bits. The program is a stranger to all of this: it is loaded before it by LD_PRELOAD. */
#define _GNU_SOURCE
#include <errno.h>
#include <fcntl.h>
#include <stdatomic.h>
#include <stddef.h>
#include <stdlib.h>
#include <sys/mman.h>
#include <unistd.h>

extern void *__libc_malloc(size_t);
extern void *__libc_calloc(size_t, size_t);
extern void *__libc_realloc(void *, size_t);
extern void *__libc_memalign(size_t, size_t);

struct told {
    atomic_ulong made;
    atomic_ulong refused;
};

static struct told own;
static struct told *told = &own;
static unsigned long from;
static unsigned long only;
static int counts;

static unsigned long number_of(const char *name)
{
    const char *text = getenv(name);
    return text == NULL ? 0 : strtoul(text, NULL, 10);
}

__attribute__((constructor)) static void begin(void)
{
    const char *name = getenv("REFUSE_TOLD");
    int file = name == NULL ? -1 : open(name, O_RDWR | O_CLOEXEC);
    if (file >= 0) {
        void *shared = mmap(NULL, sizeof(struct told), PROT_READ | PROT_WRITE, MAP_SHARED, file, 0);
        if (shared != MAP_FAILED)
            told = shared;
        close(file);
    }
    from = number_of("REFUSE_FROM");
    only = number_of("REFUSE_ONLY");
    counts = 1;
}

/* Whether this call is refused. What is called before `begin` is the loader's. */
static int refuses(void)
{
    if (!counts)
        return 0;
    unsigned long number = atomic_fetch_add(&told->made, 1) + 1;
    if ((from == 0 || number < from) && number != only)
        return 0;
    atomic_fetch_add(&told->refused, 1);
    errno = ENOMEM;
    return 1;
}

void *malloc(size_t size)
{
    return refuses() ? NULL : __libc_malloc(size);
}

void *calloc(size_t count, size_t size)
{
    return refuses() ? NULL : __libc_calloc(count, size);
}

void *realloc(void *block, size_t size)
{
    return refuses() ? NULL : __libc_realloc(block, size);
}

void *memalign(size_t align, size_t size)
{
    return refuses() ? NULL : __libc_memalign(align, size);
}

void *aligned_alloc(size_t align, size_t size)
{
    return refuses() ? NULL : __libc_memalign(align, size);
}

int posix_memalign(void **block, size_t align, size_t size)
{
    if (refuses())
        return ENOMEM;
    void *made = __libc_memalign(align, size);
    if (made == NULL)
        return ENOMEM;
    *block = made;
    return 0;
}
