/* The allocations of a program, counted, and some of them refused. bin/refuse_allocations compiles this file and has it loaded before the C library.

   The environment's REFUSE names a file of four numbers of eight bytes each: the first and the last allocation that is refused, counted from 1,
   and then how many allocations there were and how many of them were refused, which are written as the program runs. */
#include <errno.h>
#include <fcntl.h>
#include <stddef.h>
#include <stdint.h>
#include <stdlib.h>
#include <sys/mman.h>

extern void *__libc_malloc(size_t);
extern void *__libc_calloc(size_t, size_t);
extern void *__libc_realloc(void *, size_t);
extern void *__libc_memalign(size_t, size_t);

struct counts {
    uint64_t first, last, made, refused;
};

static struct counts *counts;

__attribute__((constructor)) static void begin(void)
{
    const char *name = getenv("REFUSE");
    int file = name ? open(name, O_RDWR | O_CLOEXEC) : -1;
    void *page = file < 0 ? MAP_FAILED : mmap(NULL, sizeof *counts, PROT_READ | PROT_WRITE, MAP_SHARED, file, 0);
    if (page == MAP_FAILED)
        abort();
    counts = page;
}

/* Counts an allocation, and says whether it is refused. */
static int is_refused(void)
{
    if (!counts)
        return 0;
    uint64_t number = __atomic_add_fetch(&counts->made, 1, __ATOMIC_SEQ_CST);
    if (number < counts->first || number > counts->last)
        return 0;
    __atomic_add_fetch(&counts->refused, 1, __ATOMIC_SEQ_CST);
    errno = ENOMEM;
    return 1;
}

void *malloc(size_t size)
{
    return is_refused() ? NULL : __libc_malloc(size);
}

void *calloc(size_t count, size_t size)
{
    return is_refused() ? NULL : __libc_calloc(count, size);
}

void *realloc(void *block, size_t size)
{
    return is_refused() ? NULL : __libc_realloc(block, size);
}

void *memalign(size_t alignment, size_t size)
{
    return is_refused() ? NULL : __libc_memalign(alignment, size);
}

void *aligned_alloc(size_t alignment, size_t size)
{
    return is_refused() ? NULL : __libc_memalign(alignment, size);
}

int posix_memalign(void **block, size_t alignment, size_t size)
{
    void *made = is_refused() ? NULL : __libc_memalign(alignment, size);
    if (!made)
        return ENOMEM;
    *block = made;
    return 0;
}
