/* Refuses one allocation of the program that it is loaded into before the C library: the one with the number that REFUSE
   says, counted from 1, and with REFUSE_ON those behind it too. How many there were is counted in the file that
   REFUSE_COUNT names, of eight bytes, so that it is known however the program ends. */
#include <errno.h>
#include <fcntl.h>
#include <stdatomic.h>
#include <stdlib.h>
#include <sys/mman.h>
#include <unistd.h>

/* The C library's own, under the names that it keeps for it. */
void *__libc_malloc(size_t);
void *__libc_calloc(size_t, size_t);
void *__libc_realloc(void *, size_t);
void *__libc_memalign(size_t, size_t);

static _Atomic unsigned long *count;
static unsigned long refused;
static int on;

__attribute__((constructor)) static void begin(void) {
    const char *name = getenv("REFUSE_COUNT"), *number = getenv("REFUSE");
    int file = name ? open(name, O_RDWR | O_CLOEXEC) : -1;
    if (file < 0) return;
    void *place = mmap(0, sizeof *count, PROT_READ | PROT_WRITE, MAP_SHARED, file, 0);
    close(file);
    refused = number ? strtoul(number, 0, 10) : 0;
    on = getenv("REFUSE_ON") != 0;
    if (place != MAP_FAILED) count = place;
}

static int is_refused(void) {
    if (!count) return 0;
    unsigned long number = atomic_fetch_add(count, 1) + 1;
    if (number != refused && !(on && refused && number > refused)) return 0;
    errno = ENOMEM;
    return 1;
}

void *malloc(size_t size) { return is_refused() ? 0 : __libc_malloc(size); }

void *calloc(size_t members, size_t size) { return is_refused() ? 0 : __libc_calloc(members, size); }

void *realloc(void *block, size_t size) { return is_refused() ? 0 : __libc_realloc(block, size); }

void *memalign(size_t alignment, size_t size) { return is_refused() ? 0 : __libc_memalign(alignment, size); }

void *aligned_alloc(size_t alignment, size_t size) { return memalign(alignment, size); }

int posix_memalign(void **block, size_t alignment, size_t size) {
    void *found = memalign(alignment, size);
    if (!found) return ENOMEM;
    *block = found;
    return 0;
}
