/* Refuses one allocation of the program before which this library is loaded: the one whose number, from 1, the variable
   REFUSED has. It then makes the file that the variable NOTED names, so that one can see whether there was one. */
#define _GNU_SOURCE
#include <dlfcn.h>
#include <fcntl.h>
#include <stdlib.h>
#include <unistd.h>

static unsigned long count, refused;
static void *(*real_malloc)(size_t), *(*real_realloc)(void *, size_t);

__attribute__((constructor)) static void begin(void) {
    const char *number = getenv("REFUSED");
    real_malloc = dlsym(RTLD_NEXT, "malloc");
    real_realloc = dlsym(RTLD_NEXT, "realloc");
    refused = number ? strtoul(number, NULL, 10) : 0;
    count = 0;
}

static int is_refused(void) {
    if (++count != refused)
        return 0;
    close(open(getenv("NOTED"), O_CREAT | O_WRONLY, 0600));
    return 1;
}

void *malloc(size_t size) {
    if (!real_malloc)
        real_malloc = dlsym(RTLD_NEXT, "malloc");
    return is_refused() ? NULL : real_malloc(size);
}

void *realloc(void *old, size_t size) {
    if (!real_realloc)
        real_realloc = dlsym(RTLD_NEXT, "realloc");
    return is_refused() ? NULL : real_realloc(old, size);
}
