// Stands before the C library: the Nth call for memory is refused, N by REFUSED; at the end the number of calls goes to the
// file COUNTED. For the scripts that refuse each request of a program in turn.
#define _GNU_SOURCE
#include <errno.h>
#include <stdio.h>
#include <stdlib.h>
#include <sys/syscall.h>
#include <unistd.h>
extern void *__libc_malloc(size_t), *__libc_calloc(size_t, size_t), *__libc_realloc(void *, size_t), *__libc_memalign(size_t, size_t);
static long calls, refused = -1;
static int refuses(void) {
    if (refused < 0) {
        const char *number = getenv("REFUSED");
        refused = number ? atol(number) : 0;
    }
    if (__atomic_add_fetch(&calls, 1, __ATOMIC_SEQ_CST) != refused) return 0;
    // The C library itself asks for it, where it starts a thread.
    errno = ENOMEM;
    return 1;
}
void *malloc(size_t size) { return refuses() ? NULL : __libc_malloc(size); }
void *calloc(size_t count, size_t size) { return refuses() ? NULL : __libc_calloc(count, size); }
void *realloc(void *old, size_t size) { return refuses() ? NULL : __libc_realloc(old, size); }
void *memalign(size_t align, size_t size) { return refuses() ? NULL : __libc_memalign(align, size); }
void *aligned_alloc(size_t align, size_t size) { return refuses() ? NULL : __libc_memalign(align, size); }
int posix_memalign(void **got, size_t align, size_t size) {
    *got = refuses() ? NULL : __libc_memalign(align, size);
    return *got ? 0 : ENOMEM;
}
__attribute__((destructor)) static void tell(void) {
    long made = calls;
    const char *name = getenv("COUNTED");
    FILE *file = name ? fopen(name, "w") : NULL;
    if (file) fprintf(file, "%ld\n", made), fclose(file);
}
// A program with threads ends by this call, which runs no destructor.
void _exit(int status) {
    tell();
    for (;;) syscall(SYS_exit_group, status);
}
