/* Preloaded by checks/refuse-memory: refuses one request for memory of the program's own, or fails one of its calls of read on
   standard input or of write on standard output. Requests of the C library, for its start and its threads, are let through and not
   counted. */
#define _GNU_SOURCE
#include <dlfcn.h>
#include <errno.h>
#include <fcntl.h>
#include <link.h>
#include <stdatomic.h>
#include <stddef.h>
#include <stdint.h>
#include <stdio.h>
#include <stdlib.h>
#include <sys/mman.h>
#include <unistd.h>

static uintptr_t program_start, program_end;
static long refuse_request = -1, fail_read = -1, fail_write = -1;

/* how many requests, reads and writes there were; in a file where that is named, so that it stands however the program ends */
static atomic_long own_counts[3];
static atomic_long *counts = own_counts;

static int first_object(struct dl_phdr_info *info, size_t size, void *unused) {
    (void)size;
    (void)unused;
    for (int i = 0; i < info->dlpi_phnum; i++) {
        const ElfW(Phdr) *part = &info->dlpi_phdr[i];
        if (part->p_type == PT_LOAD) {
            uintptr_t from = info->dlpi_addr + part->p_vaddr;
            if (program_end == 0 || from < program_start)
                program_start = from;
            if (from + part->p_memsz > program_end)
                program_end = from + part->p_memsz;
        }
    }
    return 1;
}

static long number(const char *name) {
    const char *text = getenv(name);
    return text ? atol(text) : -1;
}

__attribute__((constructor)) static void begin(void) {
    dl_iterate_phdr(first_object, NULL);
    refuse_request = number("REFUSE_REQUEST");
    fail_read = number("FAIL_READ");
    fail_write = number("FAIL_WRITE");
    const char *name = getenv("REFUSE_COUNTS");
    int file = name ? open(name, O_RDWR | O_CREAT | O_TRUNC, 0600) : -1;
    if (file >= 0 && ftruncate(file, sizeof own_counts) == 0) {
        void *shared = mmap(NULL, sizeof own_counts, PROT_READ | PROT_WRITE, MAP_SHARED, file, 0);
        if (shared != MAP_FAILED)
            counts = shared;
    }
}

static int is_refused(void *caller) {
    uintptr_t at = (uintptr_t)caller;
    return at >= program_start && at < program_end && atomic_fetch_add(&counts[0], 1) == refuse_request;
}

#define NEXT(name) (__extension__(__typeof__(&name)) dlsym(RTLD_NEXT, #name))

extern void *__libc_malloc(size_t size);
extern void *__libc_calloc(size_t count, size_t size);
extern void *__libc_realloc(void *old, size_t size);
extern void *__libc_memalign(size_t align, size_t size);

void *malloc(size_t size) {
    if (is_refused(__builtin_return_address(0)))
        return NULL;
    return __libc_malloc(size);
}

void *calloc(size_t count, size_t size) {
    if (is_refused(__builtin_return_address(0)))
        return NULL;
    return __libc_calloc(count, size);
}

void *realloc(void *old, size_t size) {
    if (is_refused(__builtin_return_address(0)))
        return NULL;
    return __libc_realloc(old, size);
}

void *aligned_alloc(size_t align, size_t size) {
    if (is_refused(__builtin_return_address(0)))
        return NULL;
    return __libc_memalign(align, size);
}

int posix_memalign(void **place, size_t align, size_t size) {
    if (is_refused(__builtin_return_address(0)))
        return ENOMEM;
    void *made = __libc_memalign(align, size);
    if (!made)
        return ENOMEM;
    *place = made;
    return 0;
}

ssize_t read(int number, void *into, size_t size) {
    if (number == 0 && atomic_fetch_add(&counts[1], 1) == fail_read) {
        errno = EIO;
        return -1;
    }
    return NEXT(read)(number, into, size);
}

ssize_t write(int number, const void *from, size_t size) {
    if (number == 1 && atomic_fetch_add(&counts[2], 1) == fail_write) {
        errno = EIO;
        return -1;
    }
    return NEXT(write)(number, from, size);
}
