/* Loaded before a program (LD_PRELOAD), this library makes requests for memory fail. With REFUSE_AT, only the request
   with that number fails, counted from 1 (0: none). Without it, every request fails once REFUSE_COUNT pieces of
   REFUSE_SIZE bytes were given. With FAIL_WRITE_AT, only the write to standard output with that number fails, counted
   from 1.

   When the program exits, the library reports on standard error how many requests it met and how many it refused. With
   REFUSE_AT it also reports who made the refused request: the C library itself, or the program; and whether the next
   request of the program was for as much or less. */
#define _GNU_SOURCE
#include <dlfcn.h>
#include <errno.h>
#include <stddef.h>
#include <stdio.h>
#include <stdlib.h>
#include <string.h>
#include <sys/syscall.h>
#include <unistd.h>

extern void *__libc_malloc(size_t);
extern void *__libc_calloc(size_t, size_t);
extern void *__libc_realloc(void *, size_t);
extern void *__libc_memalign(size_t, size_t);

static size_t size, left = 1, at, met, refused;
static size_t write_at, writes_made;
static size_t wanted, next_wanted;
static int one;
static const void *asker;

__attribute__((constructor)) static void begin(void)
{
    const char *text = getenv("REFUSE_AT");
    one = text != NULL;
    at = text ? strtoul(text, NULL, 10) : 0;
    text = getenv("FAIL_WRITE_AT");
    write_at = text ? strtoul(text, NULL, 10) : 0;
    text = getenv("REFUSE_SIZE");
    size = text ? strtoul(text, NULL, 10) : 0;
    text = getenv("REFUSE_COUNT");
    left = text ? strtoul(text, NULL, 10) : 1;
}

/* Returns the name of the file whose code is at an address. */
static const char *file_of(const void *place)
{
    Dl_info info;
    return place && dladdr(place, &info) && info.dli_fname ? info.dli_fname : "";
}

__attribute__((destructor)) static void end(void)
{
    char line[160];
    const char *asks = !refused ? "nobody"
        : !strcmp(file_of(asker), file_of((const void *)strtoul)) ? "the C library"
        : next_wanted && next_wanted <= wanted ? "the program, which asked again" : "the program";
    int n = one ? snprintf(line, sizeof line, "%zu met, %zu refused to %s\n", met, refused, asks)
                : snprintf(line, sizeof line, "%s: %zu met, %zu refused\n", left ? "never reached" : "reached", met, refused);
    if (write(2, line, (size_t)n) < 0)
        _exit(9);
}

static void *refuse(const void *place)
{
    refused++;
    asker = place;
    errno = ENOMEM;
    return NULL;
}

/* Whether a request for `bytes` bytes is met. */
static int may(size_t bytes)
{
    if (one && refused && !next_wanted)
        next_wanted = bytes;
    if (one ? met + refused + 1 == at : left == 0) {
        wanted = bytes;
        return 0;
    }
    met++;
    if (!one && bytes == size)
        left--;
    return 1;
}

#define ASKER __builtin_return_address(0)

void *malloc(size_t bytes) { return may(bytes) ? __libc_malloc(bytes) : refuse(ASKER); }
void *calloc(size_t count, size_t each) { return may(count * each) ? __libc_calloc(count, each) : refuse(ASKER); }
void *realloc(void *old, size_t bytes) { return may(bytes) ? __libc_realloc(old, bytes) : refuse(ASKER); }
void *memalign(size_t step, size_t bytes) { return may(bytes) ? __libc_memalign(step, bytes) : refuse(ASKER); }
void *aligned_alloc(size_t step, size_t bytes) { return may(bytes) ? __libc_memalign(step, bytes) : refuse(ASKER); }

int posix_memalign(void **place, size_t step, size_t bytes)
{
    void *given = may(bytes) ? __libc_memalign(step, bytes) : refuse(ASKER);
    if (given == NULL)
        return ENOMEM;
    *place = given;
    return 0;
}

ssize_t write(int file, const void *bytes, size_t count)
{
    if (file == 1 && write_at && ++writes_made == write_at) {
        errno = EIO;
        return -1;
    }
    return syscall(SYS_write, file, bytes, count);
}
