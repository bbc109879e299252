/*
 * Faults for the tests of the programs: a library to preload (LD_PRELOAD). The environment says what happens to calls of the process.
 *
 *   FAULT_CALL   the call that is counted: read, write, lseek, fsync, close or rename. A write on standard error is not counted
 *   FAULT_AT     the number of the call that the fault meets, from 1 on; odd: the first, the third, and so on
 *   FAULT_ERROR  that call fails with this errno and does nothing, but that a close closes
 *   FAULT_RUN    before that call a shell runs this command
 *   FAULT_ADD    that lseek does what it does, and answers a place so many bytes behind
 *   FAULT_LOG    a file that gets a byte for each fault, so that a test can tell that it happened
 *   FAULT_MOST   every read and write moves at most so many bytes
 */
#define _GNU_SOURCE
#include <errno.h>
#include <fcntl.h>
#include <stdio.h>
#include <stdlib.h>
#include <string.h>
#include <sys/syscall.h>
#include <unistd.h>

static const char *counted = "", *command, *logged;
static long met, count;
static int error;
static off_t added;
static size_t most = (size_t)-1;

static const char *setting(const char *name, const char *otherwise) {
    const char *value = getenv(name);
    return value == NULL ? otherwise : value;
}

/* The commands that are run get no faults of their own. */
__attribute__((constructor)) static void configure(void) {
    const char *at = setting("FAULT_AT", "0");
    counted = setting("FAULT_CALL", "");
    met = strcmp(at, "odd") == 0 ? -1 : atol(at);
    error = atoi(setting("FAULT_ERROR", "0"));
    added = atol(setting("FAULT_ADD", "0"));
    command = getenv("FAULT_RUN");
    logged = getenv("FAULT_LOG");
    if (getenv("FAULT_MOST") != NULL) most = (size_t)atol(getenv("FAULT_MOST"));
    unsetenv("LD_PRELOAD");
}

static void note(void) {
    int fd = logged == NULL ? -1 : open(logged, O_WRONLY | O_CREAT | O_APPEND, 0666);
    if (fd < 0 || syscall(SYS_write, fd, "x", (size_t)1) != 1) abort();
    syscall(SYS_close, fd);
}

/* Counts the call. Does the fault meet it? */
static int meets(const char *name) {
    if (strcmp(name, counted) != 0) return 0;
    count++;
    if (met == -1 ? count % 2 == 0 : count != met) return 0;
    note();
    if (command != NULL && system(command) == -1) abort();
    errno = error;
    return 1;
}

/* Is the call to fail? Then errno is set. */
static int fails(const char *name) { return meets(name) && error != 0; }

static size_t at_most(size_t n) { return n < most ? n : most; }

ssize_t read(int fd, void *buf, size_t n) { return fails("read") ? -1 : syscall(SYS_read, fd, buf, at_most(n)); }

ssize_t write(int fd, const void *buf, size_t n) {
    if (fd == STDERR_FILENO) return syscall(SYS_write, fd, buf, n);
    return fails("write") ? -1 : syscall(SYS_write, fd, buf, at_most(n));
}

off_t lseek(int fd, off_t offset, int whence) {
    int met_here = meets("lseek");
    if (met_here && error != 0) return -1;
    off_t at = syscall(SYS_lseek, fd, offset, whence);
    return met_here && at >= 0 ? at + added : at;
}

int fsync(int fd) { return fails("fsync") ? -1 : (int)syscall(SYS_fsync, fd); }

int close(int fd) {
    int failed = fails("close"), reason = errno, answer = (int)syscall(SYS_close, fd);
    if (failed) errno = reason;
    return failed ? -1 : answer;
}

int rename(const char *from, const char *to) { return fails("rename") ? -1 : (int)syscall(SYS_rename, from, to); }
