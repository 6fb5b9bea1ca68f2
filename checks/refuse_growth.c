/* Loaded ahead of the C library by checks/memory: refuses one growth of memory, or each from one on. The file that
   GROWTHS names is two counters: the growths that were asked for, and those that were refused. REFUSE is the first to
   be refused, counted from 1 (0: none), and REFUSE_LAST the last. */
#include <errno.h>
#include <fcntl.h>
#include <stdatomic.h>
#include <stddef.h>
#include <stdlib.h>
#include <sys/mman.h>
#include <unistd.h>

extern void *__libc_malloc(size_t size);
extern void *__libc_calloc(size_t count, size_t size);
extern void *__libc_realloc(void *block, size_t size);

struct counters {
    atomic_ulong asked;
    atomic_ulong refused;
};

static struct counters *counters;
static unsigned long first, last;

static unsigned long number(const char *name) {
    const char *text = getenv(name);
    return text ? strtoul(text, NULL, 10) : 0;
}

__attribute__((constructor)) static void begin(void) {
    const char *path = getenv("GROWTHS");
    int file = path ? open(path, O_RDWR) : -1;
    if (file < 0) _exit(125);
    void *shared = mmap(NULL, sizeof *counters, PROT_READ | PROT_WRITE, MAP_SHARED, file, 0);
    close(file);
    if (shared == MAP_FAILED) _exit(125);
    first = number("REFUSE");
    last = number("REFUSE_LAST");
    counters = shared;
}

static int refuses(void) {
    if (!counters) return 0;
    unsigned long asked = atomic_fetch_add(&counters->asked, 1) + 1;
    if (first == 0 || asked < first || asked > last) return 0;
    atomic_fetch_add(&counters->refused, 1);
    errno = ENOMEM;
    return 1;
}

void *malloc(size_t size) { return refuses() ? NULL : __libc_malloc(size); }

void *calloc(size_t count, size_t size) { return refuses() ? NULL : __libc_calloc(count, size); }

void *realloc(void *block, size_t size) { return refuses() ? NULL : __libc_realloc(block, size); }
