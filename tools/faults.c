// faults: preloaded into a program (LD_PRELOAD), it makes chosen calls of the system fail there. `./conform` has it for the `$ fail` lines of transcripts, `./hostile`
// and `./refuse-memory` for their cases.
//
// FAULTS has a line for each fault: CALL FIRST LAST HOW [PATH]. Of the calls of this kind, and where a PATH is named of those on it, the ones with the numbers FIRST to LAST
// are met; a LAST of 0 means all from FIRST on, and a FIRST of 0 none. A PATH is resolved, and a file that is made as PATH.new counts as PATH. FAULTS_TOLD names a file that
// then holds how many such calls there were, eight bytes for each line. A program that is started by another one goes on with its numbers. FAULTS_STARTS names a file
// that gets a line at each thread that is asked for: how many calls the first fault has counted by then.
#include <dlfcn.h>
#include <errno.h>
#include <fcntl.h>
#include <limits.h>
#include <pthread.h>
#include <signal.h>
#include <stdarg.h>
#include <stdio.h>
#include <stdlib.h>
#include <string.h>
#include <sys/file.h>
#include <sys/mman.h>
#include <sys/syscall.h>
#include <sys/uio.h>
#include <unistd.h>

enum call { OPEN, LOCK, LENGTH, READ, WRITE, SYNC, RENAME, REMOVE, INPUT, OUTPUT, ERRORS, THREADS, MEMORY, DEVICE, CALLS };
// `device` is each read and write at a place, each fsync and each length, on any file.
static const char *const call_names[CALLS] = {"open", "lock", "length", "read", "write", "sync", "rename", "remove", "input", "output", "errors", "threads", "memory", "device"};

enum how { FAILS, FULL, INTERRUPTED, HALF, LAST, HALF_LAST, CUT, HOWS };
static const char *const how_names[HOWS] = {"fails", "full", "interrupted", "half", "last", "half-last", "cut:"};

enum { MOST_FAULTS = 16 };
struct fault {
    enum call call;
    enum how how;
    unsigned long first, last;
    long cut;
    char path[PATH_MAX];
};
static struct fault faults[MOST_FAULTS];
static int fault_count;
static unsigned long own_counts[MOST_FAULTS], *counts = own_counts;
static int starts = -1;

typedef int start_thread(pthread_t *, const pthread_attr_t *, void *(*)(void *), void *);
static start_thread *real_start_thread;

_Noreturn static void stop(const char *text) {
    fprintf(stderr, "faults: %s\n", text);
    _exit(3);
}

static int place_of(const char *word, const char *const *names, int count) {
    for (int place = 0; place < count; place++)
        if (!strcmp(word, names[place])) return place;
    return -1;
}

static void read_fault(const char *line) {
    char call[16], how[32];
    struct fault *fault = &faults[fault_count];
    int behind = 0, call_place, how_place;
    if (fault_count == MOST_FAULTS) stop("there are too many faults");
    if (sscanf(line, "%15s %lu %lu %31s %n", call, &fault->first, &fault->last, how, &behind) != 4 || !behind) stop("a fault isn't understood");
    if (!strncmp(how, "cut:", 4)) {
        fault->cut = atol(how + 4);
        how[4] = 0;
    }
    call_place = place_of(call, call_names, CALLS);
    how_place = place_of(how, how_names, HOWS);
    if (call_place < 0 || how_place < 0 || strlen(line + behind) >= sizeof fault->path) stop("a fault isn't understood");
    fault->call = (enum call)call_place;
    fault->how = (enum how)how_place;
    strcpy(fault->path, line + behind);
    fault_count++;
}

// The numbers that all processes of a command share.
static void share_counts(const char *told) {
    size_t size = sizeof own_counts;
    int file = open(told, O_RDWR | O_CREAT | O_CLOEXEC, 0600);
    void *shared = MAP_FAILED;
    if (file >= 0 && !ftruncate(file, (off_t)size)) shared = mmap(NULL, size, PROT_READ | PROT_WRITE, MAP_SHARED, file, 0);
    if (shared == MAP_FAILED || close(file)) stop("FAULTS_TOLD can't be used");
    counts = shared;
}

// Until it has run nothing is counted.
__attribute__((constructor)) static void begin(void) {
    const char *text = getenv("FAULTS"), *told = getenv("FAULTS_TOLD"), *started = getenv("FAULTS_STARTS");
    void *found = dlsym(RTLD_NEXT, "pthread_create");
    memcpy(&real_start_thread, &found, sizeof found);
    if (told) share_counts(told);
    if (started && (starts = open(started, O_WRONLY | O_CREAT | O_APPEND | O_CLOEXEC, 0600)) < 0) stop("FAULTS_STARTS can't be used");
    while (text && *text) {
        char line[PATH_MAX + 128];
        size_t length = strcspn(text, "\n");
        if (length >= sizeof line) stop("a fault is too long");
        memcpy(line, text, length);
        line[length] = 0;
        if (length) read_fault(line);
        text += length + (text[length] == '\n');
    }
}

// ---- which file it is

// The path of a descriptor's file, as it was when the file was there.
static int path_of(int file, char *path) {
    static const char gone[] = " (deleted)";
    char link[48];
    size_t length, end = sizeof gone - 1;
    ssize_t got;
    snprintf(link, sizeof link, "/proc/self/fd/%d", file);
    got = readlink(link, path, PATH_MAX - 1);
    if (got < 0) return 0;
    path[got] = 0;
    length = (size_t)got;
    if (length > end && !strcmp(path + length - end, gone)) path[length - end] = 0;
    return 1;
}

// The path of a name: of the file that is there, else of its folder with the name behind it.
static int resolved(int folder, const char *name, int flags, char *path) {
    char above[PATH_MAX];
    const char *last = strrchr(name, '/');
    size_t length = last ? (size_t)(last - name) + 1 : 0;
    int file = (int)syscall(SYS_openat, folder, name, O_PATH | O_CLOEXEC | flags), known;
    if (file < 0) {
        if (length >= sizeof above) return 0;
        memcpy(above, length ? name : ".", length ? length : 1);
        above[length ? length : 1] = 0;
        file = (int)syscall(SYS_openat, folder, above, O_PATH | O_CLOEXEC);
        known = file >= 0 && path_of(file, path) && strlen(path) + strlen(name + length) + 2 <= PATH_MAX;
        if (known) strcat(strcmp(path, "/") ? strcat(path, "/") : path, name + length);
    } else {
        known = path_of(file, path);
    }
    if (file >= 0) close(file);
    return known;
}

static int is_path_of(const struct fault *fault, const char *path) {
    size_t length = strlen(fault->path);
    return !strncmp(path, fault->path, length) && (!path[length] || !strcmp(path + length, ".new"));
}

static int is_met(enum call call) {
    for (int place = 0; place < fault_count; place++)
        if (faults[place].call == call) return 1;
    return 0;
}

// ---- what becomes of a call

// Counts a call of this kind, on this path where it is one on a file, and finds the fault that meets it.
static const struct fault *met_at(enum call call, const char *path) {
    const struct fault *found = NULL;
    for (int place = 0; place < fault_count; place++) {
        const struct fault *fault = &faults[place];
        unsigned long number;
        if (fault->call != call || (*fault->path && (!path || !is_path_of(fault, path)))) continue;
        number = __atomic_add_fetch(&counts[place], 1, __ATOMIC_SEQ_CST);
        if (!found && fault->first && number >= fault->first && (!fault->last || number <= fault->last)) found = fault;
    }
    return found;
}

static const struct fault *met(enum call call, int file) {
    char path[PATH_MAX];
    int error = errno, known;
    const struct fault *found;
    if (!is_met(call)) return NULL;
    known = path_of(file, path);
    errno = error;
    found = met_at(call, known ? path : NULL);
    return found;
}

static const struct fault *met_by_name(enum call call, int folder, const char *name, int flags) {
    char path[PATH_MAX];
    int error = errno, known;
    if (!is_met(call)) return NULL;
    known = resolved(folder, name, flags, path);
    errno = error;
    return met_at(call, known ? path : NULL);
}

// Whether the call fails, with its error set; or ends the program; or finds its file cut.
static int fails(const struct fault *fault, int file) {
    char link[48];
    if (!fault) return 0;
    switch (fault->how) {
    case FAILS: errno = EIO; return 1;
    case FULL: errno = ENOSPC; return 1;
    case INTERRUPTED: errno = EINTR; return 1;
    case LAST: raise(SIGKILL); return 1;
    case CUT:
        snprintf(link, sizeof link, "/proc/self/fd/%d", file);
        if (truncate(link, fault->cut) && errno != EISDIR) stop("the file can't be cut");
        return 0;
    default: return 0;
    }
}

static size_t part_of(const struct fault *fault, size_t size) { return fault && (fault->how == HALF || fault->how == HALF_LAST) ? (size + 1) / 2 : size; }

static ssize_t ended(const struct fault *fault, ssize_t moved) {
    if (fault && fault->how == HALF_LAST) raise(SIGKILL);
    return moved;
}

// A read or write of a descriptor: of a stream, or of a file, where it may be one at a place.
static const struct fault *moved(enum call call, int file, int is_placed) {
    const struct fault *found = met(call, file);
    if (!found && is_placed) found = met_at(DEVICE, NULL);
    if (!found && call == READ && file == STDIN_FILENO) found = met_at(INPUT, NULL);
    if (!found && call == WRITE && file == STDOUT_FILENO) found = met_at(OUTPUT, NULL);
    if (!found && call == WRITE && file == STDERR_FILENO) found = met_at(ERRORS, NULL);
    return found;
}

ssize_t read(int file, void *bytes, size_t size) {
    const struct fault *fault = moved(READ, file, 0);
    return fails(fault, file) ? -1 : ended(fault, syscall(SYS_read, file, bytes, part_of(fault, size)));
}

ssize_t pread(int file, void *bytes, size_t size, off_t at) {
    const struct fault *fault = moved(READ, file, 1);
    return fails(fault, file) ? -1 : ended(fault, syscall(SYS_pread64, file, bytes, part_of(fault, size), at));
}

ssize_t write(int file, const void *bytes, size_t size) {
    const struct fault *fault = moved(WRITE, file, 0);
    return fails(fault, file) ? -1 : ended(fault, syscall(SYS_write, file, bytes, part_of(fault, size)));
}

ssize_t pwrite(int file, const void *bytes, size_t size, off_t at) {
    const struct fault *fault = moved(WRITE, file, 1);
    return fails(fault, file) ? -1 : ended(fault, syscall(SYS_pwrite64, file, bytes, part_of(fault, size), at));
}

// Half of a row of pieces is half of its first one.
static ssize_t moved_in_pieces(long number, enum call call, int file, const struct iovec *pieces, int count) {
    const struct fault *fault = moved(call, file, 0);
    struct iovec first = count > 0 ? pieces[0] : (struct iovec){0};
    if (fails(fault, file)) return -1;
    if (count <= 0 || part_of(fault, first.iov_len) == first.iov_len) return ended(fault, syscall(number, file, pieces, count));
    first.iov_len = part_of(fault, first.iov_len);
    return ended(fault, syscall(number, file, &first, 1));
}

ssize_t readv(int file, const struct iovec *pieces, int count) { return moved_in_pieces(SYS_readv, READ, file, pieces, count); }
ssize_t writev(int file, const struct iovec *pieces, int count) { return moved_in_pieces(SYS_writev, WRITE, file, pieces, count); }

// ---- other calls on a descriptor

static int on_file(enum call call, int file, int is_device) {
    const struct fault *found = met(call, file);
    if (!found && is_device) found = met_at(DEVICE, NULL);
    return fails(found, file);
}

int fsync(int file) { return on_file(SYNC, file, 1) ? -1 : (int)syscall(SYS_fsync, file); }
int fdatasync(int file) { return on_file(SYNC, file, 0) ? -1 : (int)syscall(SYS_fdatasync, file); }
int ftruncate(int file, off_t size) { return on_file(LENGTH, file, 1) ? -1 : (int)syscall(SYS_ftruncate, file, size); }
int fallocate(int file, int mode, off_t at, off_t size) { return on_file(LENGTH, file, 0) ? -1 : (int)syscall(SYS_fallocate, file, mode, at, size); }
int posix_fallocate(int file, off_t at, off_t size) { return on_file(LENGTH, file, 0) || syscall(SYS_fallocate, file, 0, at, size) ? errno : 0; }
int flock(int file, int how) { return on_file(LOCK, file, 0) ? -1 : (int)syscall(SYS_flock, file, how); }

// ---- calls by a name

static int opened(int folder, const char *name, int flags, mode_t mode) {
    if (fails(met_by_name(OPEN, folder, name, flags & O_NOFOLLOW), -1)) return -1;
    return (int)syscall(SYS_openat, folder, name, flags, mode);
}

static mode_t mode_of(int flags, va_list rest) { return flags & O_CREAT || (flags & O_TMPFILE) == O_TMPFILE ? va_arg(rest, mode_t) : 0; }

int open(const char *name, int flags, ...) {
    va_list rest;
    mode_t mode;
    va_start(rest, flags);
    mode = mode_of(flags, rest);
    va_end(rest);
    return opened(AT_FDCWD, name, flags, mode);
}

int openat(int folder, const char *name, int flags, ...) {
    va_list rest;
    mode_t mode;
    va_start(rest, flags);
    mode = mode_of(flags, rest);
    va_end(rest);
    return opened(folder, name, flags, mode);
}

int creat(const char *name, mode_t mode) { return opened(AT_FDCWD, name, O_CREAT | O_WRONLY | O_TRUNC, mode); }

static int by_name(enum call call, int folder, const char *name) { return fails(met_by_name(call, folder, name, O_NOFOLLOW), -1); }

int renameat2(int folder, const char *name, int other, const char *new_name, unsigned flags) {
    return by_name(RENAME, folder, name) ? -1 : (int)syscall(SYS_renameat2, folder, name, other, new_name, flags);
}
int renameat(int folder, const char *name, int other, const char *new_name) { return renameat2(folder, name, other, new_name, 0); }
int rename(const char *name, const char *new_name) { return renameat2(AT_FDCWD, name, AT_FDCWD, new_name, 0); }
int linkat(int folder, const char *name, int other, const char *new_name, int flags) {
    return by_name(RENAME, folder, name) ? -1 : (int)syscall(SYS_linkat, folder, name, other, new_name, flags);
}
int link(const char *name, const char *new_name) { return linkat(AT_FDCWD, name, AT_FDCWD, new_name, 0); }
int unlinkat(int folder, const char *name, int flags) { return by_name(REMOVE, folder, name) ? -1 : (int)syscall(SYS_unlinkat, folder, name, flags); }
int unlink(const char *name) { return unlinkat(AT_FDCWD, name, 0); }

// ---- threads and memory

int pthread_create(pthread_t *restrict thread, const pthread_attr_t *restrict attributes, void *(*run)(void *), void *restrict with) {
    if (starts >= 0) {
        char line[32];
        int length = snprintf(line, sizeof line, "%lu\n", __atomic_load_n(&counts[0], __ATOMIC_SEQ_CST));
        if (syscall(SYS_write, starts, line, length) != length) stop("FAULTS_STARTS can't be written");
    }
    return met_at(THREADS, NULL) ? EAGAIN : real_start_thread(thread, attributes, run, with);
}

extern void *__libc_malloc(size_t), *__libc_calloc(size_t, size_t), *__libc_realloc(void *, size_t), *__libc_memalign(size_t, size_t);

static int is_refused(void) {
    if (!met_at(MEMORY, NULL)) return 0;
    errno = ENOMEM;
    return 1;
}
void *malloc(size_t size) { return is_refused() ? NULL : __libc_malloc(size); }
void *calloc(size_t count, size_t size) { return is_refused() ? NULL : __libc_calloc(count, size); }
void *realloc(void *old, size_t size) { return is_refused() ? NULL : __libc_realloc(old, size); }
void *aligned_alloc(size_t align, size_t size) { return is_refused() ? NULL : __libc_memalign(align, size); }
int posix_memalign(void **out, size_t align, size_t size) {
    if (is_refused()) return ENOMEM;
    *out = __libc_memalign(align, size);
    return *out ? 0 : ENOMEM;
}

// ---- the same calls under the names that have 64 in them

int open64(const char *, int, ...) __attribute__((alias("open")));
int openat64(int, const char *, int, ...) __attribute__((alias("openat")));
int creat64(const char *, mode_t) __attribute__((alias("creat")));
ssize_t pread64(int, void *, size_t, off_t) __attribute__((alias("pread")));
ssize_t pwrite64(int, const void *, size_t, off_t) __attribute__((alias("pwrite")));
int ftruncate64(int, off_t) __attribute__((alias("ftruncate")));
