/* Preloaded into a program, this makes an allocation find no memory.

   FAIL_ALLOC=N       the call that fails, from 1 on; calls for no bytes aren't counted
   FAIL_ALLOC_ON=1    each later call fails too
   FAIL_ALLOC_TELL=F  when that call comes, a byte is written to the file descriptor F

   It needs glibc, whose own allocator has second names. */
#include <errno.h>
#include <stdlib.h>
#include <unistd.h>

extern void *__libc_malloc(size_t);
extern void *__libc_calloc(size_t, size_t);
extern void *__libc_realloc(void *, size_t);
extern void *__libc_memalign(size_t, size_t);

static unsigned long calls, failing;
static int on, tell = -1;

static unsigned long number(const char *name)
{
    const char *text = getenv(name);
    return text ? strtoul(text, NULL, 10) : 0;
}

__attribute__((constructor)) static void read_environment(void)
{
    failing = number("FAIL_ALLOC");
    on = number("FAIL_ALLOC_ON") != 0;
    if (getenv("FAIL_ALLOC_TELL"))
        tell = (int)number("FAIL_ALLOC_TELL");
}

/* Counts a call, and says whether it fails. Before the program's start nothing is counted. */
static int fails(size_t size)
{
    if (failing == 0 || size == 0)
        return 0;
    calls++;
    if (calls == failing && tell >= 0 && write(tell, "x", 1) != 1)
        _exit(99);
    if (calls < failing || (calls > failing && !on))
        return 0;
    errno = ENOMEM;
    return 1;
}

void *malloc(size_t size)
{
    return fails(size) ? NULL : __libc_malloc(size);
}

void *calloc(size_t number, size_t size)
{
    return fails(number && size) ? NULL : __libc_calloc(number, size);
}

void *realloc(void *old, size_t size)
{
    return fails(size) ? NULL : __libc_realloc(old, size);
}

void *aligned_alloc(size_t alignment, size_t size)
{
    return fails(size) ? NULL : __libc_memalign(alignment, size);
}

int posix_memalign(void **out, size_t alignment, size_t size)
{
    void *made = fails(size) ? NULL : __libc_memalign(alignment, size);
    if (made == NULL)
        return ENOMEM;
    *out = made;
    return 0;
}
