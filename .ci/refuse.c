/* Refuses one allocation of a process that is started with this library preloaded: that of the number REFUSE, counted from 1. How
   many were asked for stands in the file REFUSE_COUNT, as one word of the machine. */
#define _GNU_SOURCE
#include <dlfcn.h>
#include <errno.h>
#include <fcntl.h>
#include <stdatomic.h>
#include <stdlib.h>
#include <sys/mman.h>
#include <unistd.h>

static atomic_ulong alone;
static atomic_ulong *asked = &alone;
static unsigned long refused;

__attribute__((constructor)) static void begin(void)
{
    const char *which = getenv("REFUSE");
    const char *path = getenv("REFUSE_COUNT");
    int file = path == NULL ? -1 : open(path, O_RDWR | O_CREAT | O_TRUNC, 0600);
    if (file >= 0 && ftruncate(file, sizeof *asked) == 0) {
        void *place = mmap(NULL, sizeof *asked, PROT_READ | PROT_WRITE, MAP_SHARED, file, 0);
        if (place != MAP_FAILED)
            asked = place;
    }
    refused = which == NULL ? 0 : strtoul(which, NULL, 10);
}

static int is_refused(void)
{
    if (atomic_fetch_add(asked, 1) + 1 != refused)
        return 0;
    errno = ENOMEM;
    return 1;
}

void *malloc(size_t size)
{
    static void *(*real)(size_t);
    if (real == NULL)
        real = (void *(*)(size_t))dlsym(RTLD_NEXT, "malloc");
    return is_refused() ? NULL : real(size);
}

void *realloc(void *old, size_t size)
{
    static void *(*real)(void *, size_t);
    if (real == NULL)
        real = (void *(*)(void *, size_t))dlsym(RTLD_NEXT, "realloc");
    return is_refused() ? NULL : real(old, size);
}
