// A library to be loaded before a program, under which calls of the C library fail: `cc -shared -fPIC`, then LD_PRELOAD.
// FAILING says which calls:
//
//   count 0            nothing fails, and the number of allocations goes to file descriptor 9 at the end
//   count-writes 0     the same of writes to standard output
//   alloc N            the Nth allocation is refused
//   allocs N           every allocation from the Nth on is refused
//   thread N           the Nth thread can't be made
//   first-threads N    the first N threads can't be made
//   read N             the Nth read of standard input fails
//   short-read N       the Nth read of standard input gives one byte
//   interrupt-read K   standard input is interrupted K times in a row before each read that succeeds
//   full K             standard output takes K bytes, and then fails
//   nothing K          standard output takes K bytes, and then takes nothing
//   short-write N      the Nth write to standard output takes one byte
//   interrupt-write K  standard output is interrupted K times in a row before each write that succeeds
//
// A byte goes to file descriptor 9 each time that such a call is reached. Allocations count that the program's own code asks for once it is loaded:
// none of the loader, and none of the C library, as those that a new thread takes.
#define _GNU_SOURCE
#include <dlfcn.h>
#include <errno.h>
#include <link.h>
#include <pthread.h>
#include <stdatomic.h>
#include <stdint.h>
#include <stdlib.h>
#include <string.h>
#include <sys/syscall.h>
#include <unistd.h>

extern void *__libc_malloc(size_t);
extern void *__libc_calloc(size_t, size_t);
extern void *__libc_realloc(void *, size_t);
extern void *__libc_memalign(size_t, size_t);

enum kind { NONE, COUNT, COUNT_WRITES, ALLOC, ALLOCS, THREAD, FIRST_THREADS, READ, SHORT_READ, INTERRUPT_READ, FULL, NOTHING, SHORT_WRITE, INTERRUPT_WRITE };

static const char *const names[] = { "", "count", "count-writes", "alloc", "allocs", "thread", "first-threads", "read", "short-read", "interrupt-read", "full", "nothing", "short-write", "interrupt-write" };

static enum kind kind;
static long number;
static atomic_long count;
static atomic_long interrupted;

// Where the program's own code and data are.
static uintptr_t own_start, own_end;

// The program is the first object of all.
static int find_own(struct dl_phdr_info *object, size_t size, void *none) {
    (void)size, (void)none;
    for (int k = 0; k < object->dlpi_phnum; k++) {
        const ElfW(Phdr) *part = &object->dlpi_phdr[k];
        uintptr_t start = object->dlpi_addr + part->p_vaddr;
        if (part->p_type != PT_LOAD) continue;
        if (!own_end || start < own_start) own_start = start;
        if (start + part->p_memsz > own_end) own_end = start + part->p_memsz;
    }
    return 1;
}

__attribute__((constructor)) static void begin(void) {
    const char *text = getenv("FAILING");
    const char *space = text ? strchr(text, ' ') : 0;
    if (!space) return;
    dl_iterate_phdr(find_own, 0);
    for (int k = 1; k <= INTERRUPT_WRITE; k++)
        if (strlen(names[k]) == (size_t)(space - text) && !memcmp(names[k], text, space - text)) {
            number = atol(space + 1);
            kind = k;
        }
}

static void tell_count(void) {
    char digits[20];
    int at = sizeof digits;
    if (kind != COUNT && kind != COUNT_WRITES) return;
    for (long left = count; at > 0 && (left > 0 || at == sizeof digits); left /= 10) digits[--at] = '0' + left % 10;
    syscall(SYS_write, 9, digits + at, sizeof digits - at);
}

// The program ends by this, so no destructor runs.
void _exit(int status) {
    tell_count();
    for (;;) syscall(SYS_exit_group, status);
}

static void reached(void) {
    syscall(SYS_write, 9, "!", 1);
}

// Whether this is the call that fails.
static int is_it(enum kind asked) {
    if (kind != asked || atomic_fetch_add(&count, 1) + 1 != number) return 0;
    reached();
    return 1;
}

// The caller is where the call goes back to.
static int is_refused(void *caller) {
    if ((uintptr_t)caller < own_start || (uintptr_t)caller >= own_end) return 0;
    if (kind == COUNT) atomic_fetch_add(&count, 1);
    if (kind == ALLOC) return is_it(ALLOC);
    if (kind != ALLOCS || atomic_fetch_add(&count, 1) + 1 < number) return 0;
    reached();
    return 1;
}

void *malloc(size_t size) {
    if (is_refused(__builtin_return_address(0))) { errno = ENOMEM; return 0; }
    return __libc_malloc(size);
}

void *calloc(size_t items, size_t size) {
    if (is_refused(__builtin_return_address(0))) { errno = ENOMEM; return 0; }
    return __libc_calloc(items, size);
}

void *realloc(void *old, size_t size) {
    if (is_refused(__builtin_return_address(0))) { errno = ENOMEM; return 0; }
    return __libc_realloc(old, size);
}

void *aligned_alloc(size_t align, size_t size) {
    if (is_refused(__builtin_return_address(0))) { errno = ENOMEM; return 0; }
    return __libc_memalign(align, size);
}

int posix_memalign(void **out, size_t align, size_t size) {
    if (is_refused(__builtin_return_address(0))) return ENOMEM;
    *out = __libc_memalign(align, size);
    return *out ? 0 : ENOMEM;
}

ssize_t read(int file, void *into, size_t size) {
    if (file == 0) {
        if (is_it(READ)) { errno = EIO; return -1; }
        if (is_it(SHORT_READ) && size > 1) size = 1;
        if (kind == INTERRUPT_READ) {
            if (atomic_fetch_add(&interrupted, 1) < number) { reached(); errno = EINTR; return -1; }
            interrupted = 0;
        }
    }
    return syscall(SYS_read, file, into, size);
}

ssize_t write(int file, const void *from, size_t size) {
    if (file == 1) {
        if (kind == COUNT_WRITES) atomic_fetch_add(&count, 1);
        if (is_it(SHORT_WRITE) && size > 1) size = 1;
        if (kind == FULL || kind == NOTHING) {
            long left = number - count;
            if (left <= 0) {
                reached();
                if (kind == NOTHING) return 0;
                errno = ENOSPC;
                return -1;
            }
            if (size > (size_t)left) size = left;
            count += size;
        }
        if (kind == INTERRUPT_WRITE) {
            if (atomic_fetch_add(&interrupted, 1) < number) { reached(); errno = EINTR; return -1; }
            interrupted = 0;
        }
    }
    return syscall(SYS_write, file, from, size);
}

ssize_t __write(int file, const void *from, size_t size) {
    return write(file, from, size);
}

int pthread_create(pthread_t *thread, const pthread_attr_t *attributes, void *(*start)(void *), void *argument) {
    static int (*real)(pthread_t *, const pthread_attr_t *, void *(*)(void *), void *);
    if (is_it(THREAD)) return EAGAIN;
    if (kind == FIRST_THREADS && atomic_fetch_add(&count, 1) < number) { reached(); return EAGAIN; }
    if (!real) real = dlsym(RTLD_NEXT, "pthread_create");
    return real(thread, attributes, start, argument);
}
