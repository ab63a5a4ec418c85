/* Spoils one call of the program into which it is loaded ahead of the C library; checks/hostile.py compiles it and says how.

   HOSTILE_CALL    which calls are counted, from 1: "allocate" (malloc, calloc and realloc), "open", "read", "write" or, for writes to
                   standard error, "tell"
   HOSTILE_NUMBER  the number of the call that is spoilt; 0 for none
   HOSTILE_ERROR   the number of the error with which it fails
   HOSTILE_PIECE   the most bytes that a read or a write takes; 0 for as many as are asked
   HOSTILE_TOLD    the number of a descriptor to which one byte is written when the call is spoilt
*/
#define _GNU_SOURCE
#include <errno.h>
#include <fcntl.h>
#include <stdarg.h>
#include <stdlib.h>
#include <string.h>
#include <sys/syscall.h>
#include <unistd.h>

extern void *__libc_malloc(size_t size);
extern void *__libc_calloc(size_t count, size_t size);
extern void *__libc_realloc(void *old, size_t size);

static const char *counted = "";
static long spoilt, made, error, piece, told = -1;

static long number_in(const char *name)
{
    const char *text = getenv(name);
    return text ? strtol(text, NULL, 10) : 0;
}

/* What the loader and the C library did before isn't counted. */
__attribute__((constructor)) static void begin(void)
{
    const char *call = getenv("HOSTILE_CALL");
    spoilt = number_in("HOSTILE_NUMBER");
    error = number_in("HOSTILE_ERROR");
    piece = number_in("HOSTILE_PIECE");
    told = getenv("HOSTILE_TOLD") ? number_in("HOSTILE_TOLD") : -1;
    counted = call ? call : "";
}

static int is_spoilt(const char *call)
{
    if (strcmp(call, counted) != 0 || ++made != spoilt)
        return 0;
    if (told >= 0)
        syscall(SYS_write, told, "!", 1);
    errno = error;
    return 1;
}

static size_t taken(size_t count)
{
    return piece > 0 && count > (size_t)piece ? (size_t)piece : count;
}

void *malloc(size_t size)
{
    return is_spoilt("allocate") ? NULL : __libc_malloc(size);
}

void *calloc(size_t count, size_t size)
{
    return is_spoilt("allocate") ? NULL : __libc_calloc(count, size);
}

void *realloc(void *old, size_t size)
{
    return is_spoilt("allocate") ? NULL : __libc_realloc(old, size);
}

static int opened(int folder, const char *name, int flags, va_list more)
{
    int mode = flags & O_CREAT ? va_arg(more, int) : 0;
    return is_spoilt("open") ? -1 : (int)syscall(SYS_openat, folder, name, flags, mode);
}

int open(const char *name, int flags, ...)
{
    va_list more;
    va_start(more, flags);
    int descriptor = opened(AT_FDCWD, name, flags, more);
    va_end(more);
    return descriptor;
}

int openat(int folder, const char *name, int flags, ...)
{
    va_list more;
    va_start(more, flags);
    int descriptor = opened(folder, name, flags, more);
    va_end(more);
    return descriptor;
}

ssize_t read(int descriptor, void *bytes, size_t count)
{
    return is_spoilt("read") ? -1 : syscall(SYS_read, descriptor, bytes, taken(count));
}

ssize_t write(int descriptor, const void *bytes, size_t count)
{
    return is_spoilt(descriptor == STDERR_FILENO ? "tell" : "write") ? -1 : syscall(SYS_write, descriptor, bytes, taken(count));
}
