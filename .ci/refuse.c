/* Refuses the growth of the heap whose number REFUSE has, counted from 1 over all threads:
   LD_PRELOAD=refuse.so REFUSE=N PROGRAM. Only what the program itself asks for is counted (by malloc and realloc, which are
   all that the kit calls), not what the C library asks for within itself. Where a growth is refused, a line goes to
   descriptor 9. (A program with threads ends by _exit, which runs no destructor, so nothing can be reported at the end.) */
#define _GNU_SOURCE
#include <dlfcn.h>
#include <errno.h>
#include <link.h>
#include <stdatomic.h>
#include <stdio.h>
#include <stdlib.h>

static void *(*real_malloc)(size_t);
static void *(*real_realloc)(void *, size_t);
static atomic_long seen;
static long nth;
static char *low, *high;

/* Where the program's own code is: in the first object that is loaded. */
static int note(struct dl_phdr_info *object, size_t size, void *data) {
    (void)size, (void)data;
    for (int k = 0; k < object->dlpi_phnum; k++)
        if (object->dlpi_phdr[k].p_type == PT_LOAD) {
            char *from = (char *)object->dlpi_addr + object->dlpi_phdr[k].p_vaddr;
            char *to = from + object->dlpi_phdr[k].p_memsz;
            if (!low || from < low) low = from;
            if (to > high) high = to;
        }
    return 1;
}

__attribute__((constructor)) static void begin(void) {
    real_malloc = dlsym(RTLD_NEXT, "malloc");
    real_realloc = dlsym(RTLD_NEXT, "realloc");
    const char *number = getenv("REFUSE");
    nth = number ? atol(number) : 0;
    dl_iterate_phdr(note, 0);
}

static int is_refused(void *caller) {
    if ((char *)caller < low || (char *)caller >= high) return 0;
    if (atomic_fetch_add(&seen, 1) + 1 != nth) return 0;
    dprintf(9, "refused\n");
    errno = ENOMEM;
    return 1;
}

void *malloc(size_t size) {
    if (!real_malloc) real_malloc = dlsym(RTLD_NEXT, "malloc");
    return is_refused(__builtin_return_address(0)) ? 0 : real_malloc(size);
}

void *realloc(void *old, size_t size) {
    if (!real_realloc) real_realloc = dlsym(RTLD_NEXT, "realloc");
    return is_refused(__builtin_return_address(0)) ? 0 : real_realloc(old, size);
}
