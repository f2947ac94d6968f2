/* Refuses memory to a program that this is loaded into (LD_PRELOAD): the call number REFUSE_CALL of those that ask for memory, counted
   from 1 and from the program's own start, and where REFUSE_ALL is set each one behind it as well. At the end the number of calls is
   written to the descriptor REFUSE_TELL. The functions that really give memory are the C library's (glibc). */
#include <errno.h>
#include <stdio.h>
#include <stdlib.h>
#include <unistd.h>

extern void *__libc_malloc(size_t size);
extern void *__libc_calloc(size_t count, size_t size);
extern void *__libc_realloc(void *old, size_t size);
extern void *__libc_memalign(size_t align, size_t size);

static unsigned long calls, first_refused;
static int refuses_all, tell = -1;

static unsigned long number(const char *name)
{
    const char *text = getenv(name);
    return text ? strtoul(text, NULL, 10) : 0;
}

__attribute__((constructor)) static void begin(void)
{
    first_refused = number("REFUSE_CALL");
    refuses_all = getenv("REFUSE_ALL") != NULL;
    tell = getenv("REFUSE_TELL") ? (int)number("REFUSE_TELL") : -1;
    calls = 0;
}

__attribute__((destructor)) static void end(void)
{
    char text[32];
    int length = snprintf(text, sizeof text, "%lu", calls);
    if (tell >= 0 && write(tell, text, length) != length)
        _exit(99);
}

/* Counts a call, and answers whether it is refused. */
static int is_refused(void)
{
    calls++;
    if (!first_refused || calls < first_refused || (calls > first_refused && !refuses_all))
        return 0;
    errno = ENOMEM;
    return 1;
}

void *malloc(size_t size) { return is_refused() ? NULL : __libc_malloc(size); }

void *calloc(size_t count, size_t size) { return is_refused() ? NULL : __libc_calloc(count, size); }

void *realloc(void *old, size_t size) { return is_refused() ? NULL : __libc_realloc(old, size); }

void *memalign(size_t align, size_t size) { return is_refused() ? NULL : __libc_memalign(align, size); }

void *aligned_alloc(size_t align, size_t size) { return memalign(align, size); }

int posix_memalign(void **made, size_t align, size_t size)
{
    void *found = memalign(align, size);
    if (!found)
        return ENOMEM;
    *made = found;
    return 0;
}
