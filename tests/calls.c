/* Stands between a program and the C library: it makes one call fail, and tells what was called.
   `tests/edge` and `bench/faults` compile it and load it before the program's own libraries.

   FAULT       which calls count: alloc, fail (opens, questions about a file, reads, writes, syncs, locks,
               new access, new owners, renames and closes), kill (the same, and the program is killed
               there), short (reads and writes of several bytes, of which one is moved), interrupt (reads
               and writes, which a signal interrupts), or disk (the bytes written to files); else none
   FAULT_AT    which of these fails, from 1 on, and of a disk how many bytes it has left
   FAULT_TOLD  the descriptor to which a byte is written when the fault comes
   CALLS_TOLD  the descriptor to which a line is written for each call that opens, writes, syncs, sets
               the access, renames or removes
   REFUSED     which calls always fail: rename (where a name is a mount point), own (a new owner or group),
               lock (where files can't be locked), or remove
   GROWS       where it is set, an open file is said to hold one byte */
#define _GNU_SOURCE
#include <errno.h>
#include <fcntl.h>
#include <signal.h>
#include <stdarg.h>
#include <stdio.h>
#include <stdlib.h>
#include <string.h>
#include <sys/file.h>
#include <sys/stat.h>
#include <sys/syscall.h>
#include <unistd.h>

static const char *fault = "", *refused = "";
static long left;
static int told = -1, calls = -1;

static long number_of(const char *name, long none) {
    const char *text = getenv(name);
    return text ? atol(text) : none;
}

__attribute__((constructor)) static void begin(void) {
    const char *text = getenv("FAULT");
    fault = text ? text : "";
    text = getenv("REFUSED");
    refused = text ? text : "";
    left = number_of("FAULT_AT", 0);
    told = number_of("FAULT_TOLD", -1);
    calls = number_of("CALLS_TOLD", -1);
}

static void tell_fault(void) {
    if (told >= 0) syscall(SYS_write, told, "!", 1);
}

static int is_due(const char *asked) {
    if (strcmp(fault, asked) || --left) return 0;
    tell_fault();
    errno = strcmp(fault, "alloc") ? EIO : ENOMEM;
    return 1;
}

/* Whether the call is to fail, as one of a kind that does always, or the one that is asked for. */
static int fails(const char *kind, int error) {
    if (is_due("kill")) kill(getpid(), SIGKILL);
    if (is_due("fail")) return 1;
    if (strcmp(refused, kind)) return 0;
    errno = error;
    return 1;
}

/* A line with the call, what the file is known by, and a number. */
static void tell(const char *call, unsigned long file, unsigned long number) {
    char line[96];
    if (calls < 0) return;
    int length = snprintf(line, sizeof line, "%s %lu %lu\n", call, file, number);
    syscall(SYS_write, calls, line, length);
}

static unsigned long file_of(int descriptor) {
    struct stat found;
    return fstat(descriptor, &found) ? 0 : found.st_ino;
}

static unsigned long file_under(const char *path) {
    struct stat found;
    return lstat(path, &found) ? 0 : found.st_ino;
}

void *__libc_malloc(size_t size);
void *__libc_realloc(void *old, size_t size);

void *malloc(size_t size) { return is_due("alloc") ? NULL : __libc_malloc(size); }
void *realloc(void *old, size_t size) { return is_due("alloc") ? NULL : __libc_realloc(old, size); }

static int is_on_disk(int descriptor) {
    struct stat found;
    return descriptor > 2 && !fstat(descriptor, &found) && S_ISREG(found.st_mode);
}

/* How many of the bytes there is room for, on a disk that fills up. */
static long room_for(int descriptor, size_t count) {
    if (strcmp(fault, "disk") || !is_on_disk(descriptor)) return count;
    long room = (long)count < left ? (long)count : left;
    left -= room;
    if (room < (long)count) tell_fault();
    return room;
}

static ssize_t move(long call, int descriptor, void *bytes, size_t count) {
    if (fails("move", EIO)) return -1;
    if (is_due("interrupt")) {
        errno = EINTR;
        return -1;
    }
    if (count > 1 && is_due("short")) count = 1;
    return syscall(call, descriptor, bytes, count);
}

ssize_t read(int descriptor, void *bytes, size_t count) { return move(SYS_read, descriptor, bytes, count); }

ssize_t write(int descriptor, const void *bytes, size_t count) {
    long room = room_for(descriptor, count);
    tell(descriptor == 1 ? "print" : "write", file_of(descriptor), count);
    if (count && !room) {
        errno = ENOSPC;
        return -1;
    }
    return move(SYS_write, descriptor, (void *)bytes, room);
}

ssize_t __write(int descriptor, const void *bytes, size_t count) { return write(descriptor, bytes, count); }

static int sync_by(long call, int descriptor) {
    if (fails("sync", EIO)) return -1;
    tell("sync", file_of(descriptor), 0);
    return syscall(call, descriptor);
}

int fsync(int descriptor) { return sync_by(SYS_fsync, descriptor); }
int fdatasync(int descriptor) { return sync_by(SYS_fdatasync, descriptor); }

int fchmod(int descriptor, mode_t mode) {
    if (fails("access", EPERM)) return -1;
    tell("access", file_of(descriptor), mode);
    return syscall(SYS_fchmod, descriptor, mode);
}

int fchown(int descriptor, uid_t owner, gid_t group) {
    if (fails("own", EPERM)) return -1;
    tell("own", file_of(descriptor), group);
    return syscall(SYS_fchown, descriptor, owner, group);
}

int flock(int descriptor, int how) {
    if (fails("lock", ENOLCK)) return -1;
    return syscall(SYS_flock, descriptor, how);
}

int statx(int descriptor, const char *path, int flags, unsigned wanted, struct statx *found) {
    if (fails("stat", EIO)) return -1;
    int status = syscall(SYS_statx, descriptor, path, flags, wanted, found);
    if (!status && flags & AT_EMPTY_PATH && getenv("GROWS")) found->stx_size = 1;
    return status;
}

int close(int descriptor) {
    int failed = fails("close", EIO);
    syscall(SYS_close, descriptor);
    if (failed) errno = EIO;
    return failed ? -1 : 0;
}

int open(const char *path, int flags, ...) {
    mode_t mode = 0;
    if (fails("open", EACCES)) return -1;
    if (flags & O_CREAT) {
        va_list rest;
        va_start(rest, flags);
        mode = va_arg(rest, mode_t);
        va_end(rest);
    }
    int descriptor = syscall(SYS_openat, AT_FDCWD, path, flags, mode);
    if (descriptor >= 0 && flags & O_CREAT) tell("make", file_of(descriptor), mode);
    return descriptor;
}

int rename(const char *from, const char *to) {
    if (fails("rename", EBUSY)) return -1;
    tell("rename", file_under(from), 0);
    return syscall(SYS_renameat2, AT_FDCWD, from, AT_FDCWD, to, 0);
}

int unlink(const char *path) {
    if (fails("remove", EACCES)) return -1;
    tell("remove", file_under(path), 0);
    return syscall(SYS_unlinkat, AT_FDCWD, path, 0);
}
