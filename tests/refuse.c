// A library that a test loads before the C library's: it refuses one call of the program, chosen by its number, and counts
// calls. It is built and used by tests/in_turn.py.
//
//     REFUSE=KIND:N,..  the calls to refuse: the Nth of its kind, counted from 1, and with a '+' after N each later one too.
//                       The kinds are memory, open, read, seek, write (standard output), say (standard error) and thread
//     REFUSE_PIECE=N    each read, and each write to a file or a pipe, takes at most N bytes
//     REFUSE_REPORT=F   at the end the counts are written to this file, a line 'KIND NUMBER' each
//
// Only calls of the program itself count, not those that the C library makes on its own.
#define _GNU_SOURCE
#include <dlfcn.h>
#include <errno.h>
#include <fcntl.h>
#include <limits.h>
#include <link.h>
#include <pthread.h>
#include <stdarg.h>
#include <stdatomic.h>
#include <stdio.h>
#include <stdlib.h>
#include <string.h>
#include <sys/syscall.h>
#include <unistd.h>

enum kind { MEMORY, OPEN, READ, SEEK, WRITE, SAY, THREAD, OPENED, CLOSED, KINDS };

static const char *const names[KINDS] = {"memory", "open", "read", "seek", "write", "say", "thread", "opened", "closed"};
static atomic_ulong counts[KINDS];
static unsigned long first[KINDS], last[KINDS], piece;
static uintptr_t low, high;
static atomic_int ready;

// The first object is the program: where its code lies in memory.
static int program(struct dl_phdr_info *info, size_t size, void *data) {
    (void)size, (void)data;
    for (int i = 0; i < info->dlpi_phnum; i++) {
        const ElfW(Phdr) *part = &info->dlpi_phdr[i];
        if (part->p_type == PT_LOAD && (part->p_flags & PF_X)) {
            low = info->dlpi_addr + part->p_vaddr;
            high = low + part->p_memsz;
        }
    }
    return 1;
}

static unsigned long number(const char *name) {
    const char *text = getenv(name);
    return text ? strtoul(text, NULL, 10) : 0;
}

__attribute__((constructor)) static void begin(void) {
    const char *text = getenv("REFUSE");
    dl_iterate_phdr(program, NULL);
    piece = number("REFUSE_PIECE");
    while (text && *text) {
        size_t size = strcspn(text, ":");
        for (int i = 0; i < KINDS; i++) {
            if (size != strlen(names[i]) || strncmp(text, names[i], size)) continue;
            first[i] = last[i] = strtoul(text + size + 1, NULL, 10);
            if (text[strcspn(text, ",+")] == '+') last[i] = ULONG_MAX;
        }
        text += strcspn(text, ",");
        text += *text == ',';
    }
    ready = 1;
}

// The program ends by this call.
void _exit(int status) {
    const char *path = getenv("REFUSE_REPORT");
    int file = path ? syscall(SYS_openat, AT_FDCWD, path, O_WRONLY | O_CREAT | O_TRUNC, 0666) : -1;
    for (int i = 0; file >= 0 && i < KINDS; i++) {
        char line[64];
        int size = snprintf(line, sizeof line, "%s %lu\n", names[i], (unsigned long)counts[i]);
        syscall(SYS_write, file, line, size);
    }
    syscall(SYS_exit_group, status);
    __builtin_unreachable();
}

// Whether this call, by its address in the program, is to be refused.
static int refuses(enum kind kind, void *caller) {
    if (!ready || (uintptr_t)caller < low || (uintptr_t)caller >= high) return 0;
    unsigned long now = atomic_fetch_add(&counts[kind], 1) + 1;
    return first[kind] && first[kind] <= now && now <= last[kind];
}

#define CALLER __builtin_return_address(0)

void *__libc_malloc(size_t size);
void *__libc_realloc(void *old, size_t size);

static void *no_memory(void) {
    errno = ENOMEM;
    return NULL;
}

void *malloc(size_t size) { return refuses(MEMORY, CALLER) ? no_memory() : __libc_malloc(size); }
void *realloc(void *old, size_t size) { return refuses(MEMORY, CALLER) ? no_memory() : __libc_realloc(old, size); }

static int failed(int error) {
    errno = error;
    return -1;
}

int open(const char *path, int flags, ...) {
    va_list rest;
    va_start(rest, flags);
    mode_t mode = flags & O_CREAT ? va_arg(rest, mode_t) : 0;
    va_end(rest);
    if (refuses(OPEN, CALLER)) return failed(EIO);
    long file = syscall(SYS_openat, AT_FDCWD, path, flags, mode);
    if (file >= 0) refuses(OPENED, CALLER);
    return file < 0 ? failed(errno) : file;
}

int close(int file) {
    refuses(CLOSED, CALLER);
    long done = syscall(SYS_close, file);
    return done < 0 ? failed(errno) : done;
}

ssize_t read(int file, void *into, size_t size) {
    if (refuses(READ, CALLER)) return failed(EIO);
    long done = syscall(SYS_read, file, into, piece && size > piece ? piece : size);
    return done < 0 ? failed(errno) : done;
}

static ssize_t writes(int file, const void *from, size_t size, void *caller) {
    if (refuses(file == 2 ? SAY : WRITE, caller)) return failed(EIO);
    long done = syscall(SYS_write, file, from, piece && size > piece ? piece : size);
    return done < 0 ? failed(errno) : done;
}

ssize_t write(int file, const void *from, size_t size) { return writes(file, from, size, CALLER); }
ssize_t __write(int file, const void *from, size_t size) { return writes(file, from, size, CALLER); }

off_t lseek(int file, off_t offset, int from) {
    if (refuses(SEEK, CALLER)) return failed(EIO);
    long done = syscall(SYS_lseek, file, offset, from);
    return done < 0 ? failed(errno) : done;
}

int pthread_create(pthread_t *made, const pthread_attr_t *how, void *(*run)(void *), void *given) {
    int (*next)(pthread_t *, const pthread_attr_t *, void *(*)(void *), void *);
    if (refuses(THREAD, CALLER)) return EAGAIN;
    *(void **)&next = dlsym(RTLD_NEXT, "pthread_create");
    return next(made, how, run, given);
}
