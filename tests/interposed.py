"""A library between the program and the system's, made by the C compiler that is there: it counts the program's calls, and lets them fail, come to less than they were asked for, or find no memory."""

import errno
import os
import shutil
import subprocess

import harness
from drawn_lines import Known, drawn, log_of
from harness import read, write

SOURCE = r"""
#define _GNU_SOURCE
#include <dlfcn.h>
#include <errno.h>
#include <fcntl.h>
#include <signal.h>
#include <stdarg.h>
#include <stdio.h>
#include <stdlib.h>
#include <string.h>
#include <sys/stat.h>
#include <sys/syscall.h>
#include <unistd.h>

/* which call fails, counted from 1, and up to which; by which error, or for 0 by a kill; and which allocation */
static long first_call, last_call, first_memory, last_memory, calls, memories;
static int error, log_to = -1;
/* where it isn't 0, reads and writes come to drawn lengths, and some are interrupted */
static unsigned long drawn;

static long number(const char *name) {
    const char *text = getenv(name);
    return text ? strtol(text, 0, 10) : 0;
}

__attribute__((constructor)) static void begin(void) {
    first_call = number("FIRST_CALL");
    last_call = number("LAST_CALL");
    first_memory = number("FIRST_MEMORY");
    last_memory = number("LAST_MEMORY");
    error = number("CALL_ERROR");
    drawn = number("DRAWN_LENGTHS");
    const char *path = getenv("CALL_LOG");
    if (path) {
        int low = syscall(SYS_open, path, O_WRONLY | O_CREAT | O_APPEND, 0600);
        log_to = syscall(SYS_fcntl, low, F_DUPFD_CLOEXEC, 900);
        syscall(SYS_close, low);
    }
    memories = 0;
}

__attribute__((destructor)) static void end(void) {
    char line[64];
    if (log_to >= 0) {
        int length = snprintf(line, sizeof line, "memory %ld -\n", memories);
        syscall(SYS_write, log_to, line, length);
    }
}

/* counts a call, tells it, and says whether it fails */
static int fails(const char *name, int fd, const char *path) {
    calls++;
    int is_failing = first_call && first_call <= calls && calls <= last_call;
    if (log_to >= 0) {
        char line[8192];
        int length = snprintf(line, sizeof line, "%s %d %s\n", name, fd, path ? path : "-");
        syscall(SYS_write, log_to, line, length);
    }
    if (is_failing && !error)
        syscall(SYS_kill, getpid(), SIGKILL);
    if (is_failing)
        errno = error;
    return is_failing;
}

static unsigned long draw(void) {
    drawn = drawn * 6364136223846793005UL + 1442695040888963407UL;
    return drawn >> 33;
}

/* whether a read or a write is interrupted before its first byte, and else how much it is asked for */
static int is_interrupted(size_t *count) {
    if (!drawn)
        return 0;
    if (draw() % 8 == 0) {
        errno = EINTR;
        return 1;
    }
    if (*count > 1)
        *count = draw() % 2 ? 1 : 1 + draw() % *count;
    return 0;
}

#define CALL(type, name, given, fd, path, carried)   \
    type name given {                                \
        if (fails(#name, fd, path)) return -1;       \
        return carried;                              \
    }
#define MOVE(name, given, carried)                               \
    ssize_t name given {                                         \
        if (fails(#name, fd, 0) || is_interrupted(&count)) return -1; \
        return carried;                                          \
    }

MOVE(read, (int fd, void *into, size_t count), syscall(SYS_read, fd, into, count))
MOVE(write, (int fd, const void *from, size_t count), syscall(SYS_write, fd, from, count))
MOVE(pread, (int fd, void *into, size_t count, off_t at), syscall(SYS_pread64, fd, into, count, at))
MOVE(pwrite, (int fd, const void *from, size_t count, off_t at), syscall(SYS_pwrite64, fd, from, count, at))
ssize_t __write(int fd, const void *from, size_t count) { return write(fd, from, count); }
CALL(int, fsync, (int fd), fd, 0, syscall(SYS_fsync, fd))
CALL(int, fdatasync, (int fd), fd, 0, syscall(SYS_fdatasync, fd))
CALL(int, ftruncate, (int fd, off_t size), fd, 0, syscall(SYS_ftruncate, fd, size))
CALL(int, flock, (int fd, int how), fd, 0, syscall(SYS_flock, fd, how))
CALL(int, fchmod, (int fd, mode_t mode), fd, 0, syscall(SYS_fchmod, fd, mode))
CALL(int, fchown, (int fd, uid_t user, gid_t group), fd, 0, syscall(SYS_fchown, fd, user, group))
CALL(int, close, (int fd), fd, 0, syscall(SYS_close, fd))
CALL(int, unlink, (const char *path), -1, path, syscall(SYS_unlink, path))
CALL(int, rename, (const char *from, const char *to), -1, from, syscall(SYS_rename, from, to))
CALL(int, statx, (int fd, const char *path, int flags, unsigned mask, struct statx *into), fd, path && *path ? path : 0, syscall(SYS_statx, fd, path, flags, mask, into))

int open(const char *path, int flags, ...) {
    va_list rest;
    va_start(rest, flags);
    int mode = va_arg(rest, int);
    va_end(rest);
    return fails("open", -1, path) ? -1 : syscall(SYS_open, path, flags, mode);
}

int fcntl(int fd, int command, ...) {
    va_list rest;
    va_start(rest, command);
    long word = va_arg(rest, long);
    va_end(rest);
    return fails("fcntl", fd, 0) ? -1 : syscall(SYS_fcntl, fd, command, word);
}

char *realpath(const char *path, char *into) {
    char *(*carried)(const char *, char *) = dlsym(RTLD_NEXT, "realpath");
    return fails("realpath", -1, path) ? 0 : carried(path, into);
}

static int is_refused(void) {
    memories++;
    return first_memory && first_memory <= memories && memories <= last_memory;
}

extern void *__libc_malloc(size_t), *__libc_realloc(void *, size_t);

void *malloc(size_t size) {
    if (!is_refused()) return __libc_malloc(size);
    errno = ENOMEM;
    return 0;
}

void *realloc(void *old, size_t size) {
    if (!is_refused()) return __libc_realloc(old, size);
    errno = ENOMEM;
    return 0;
}
"""
FOR_GOOD = 2**62
KILL = "KILL"


class Call:
    """A call that a run made: its name, the descriptor that it is on or -1, and the path that it is given or "-"."""

    def __init__(self, line):
        self.name, fd, self.path = line.decode().split(" ", 2)
        self.fd = int(fd)

    def __repr__(self):
        return f"{self.name}({self.fd if self.path == '-' else os.path.basename(self.path)})"


class Interposed:
    """The library, made once for a suite."""

    def __init__(self, suite):
        self.suite = suite
        self.path, self.log = f"{suite.room}/between.so", f"{suite.room}/calls"

    def why_not(self):
        """What keeps the library from being made or loaded, if anything does."""
        compiler = next(filter(shutil.which, ("cc", "gcc", "clang")), None)
        if compiler is None:
            return "there is no C compiler here"
        made = subprocess.run([compiler, "-O1", "-w", "-shared", "-fPIC", "-o", self.path, "-x", "c", "-"], input=SOURCE.encode(), capture_output=True, check=False)
        if made.returncode:
            return f"{compiler} doesn't make it: {made.stderr[-300:]!r}"
        ran, calls, _ = self.run(b"", f"{self.suite.folder()}/S")
        return None if ran.status == 0 and calls else f"the program doesn't take it: {ran}"

    def run(self, given, store, **how):
        """Runs the program on these lines. Tells how it ended, the calls that it made, and how often it asked for memory."""
        if os.path.exists(self.log):
            os.remove(self.log)
        settings = {name.upper(): str(value) for name, value in how.items()}
        env = os.environ | {"LD_PRELOAD": self.path, "CALL_LOG": self.log} | settings
        # from a pipe the lines would come in pieces that differ from run to run
        write(f"{self.log}.lines", given)
        with open(f"{self.log}.lines", "rb") as lines:
            ran = self.suite.run("run", store, stdin=lines, env=env)
        told = read(self.log).splitlines() if os.path.exists(self.log) else []
        memories = int(told.pop().split()[1]) if told and told[-1].startswith(b"memory ") else None
        return ran, [Call(line) for line in told], memories


def failing(first, last, error):
    """The settings that let these calls fail by an error of this name, or have the program killed at the first."""
    return {"first_call": first, "last_call": last, "call_error": 0 if error == KILL else getattr(errno, error)}


class Part:
    """The rest of a run's lines over a store that holds the first of them, as a run left it that ended well or didn't."""

    def __init__(self, between, name, known, held, is_marked):
        suite = between.suite
        self.suite, self.name, self.known, self.held, self.is_marked = suite, name, known, held, is_marked
        self.rest = b"".join(known.lines[held:])
        self.before = f"{suite.folder()}/S"
        if held:
            suite.run("run", self.before, given=b"".join(known.lines[:held]))
        self.store = f"{suite.folder()}/S"
        self.put()
        ran, self.calls, self.memories = between.run(self.rest, self.store)
        is_well = (ran.status, ran.said) == (0, b"".join(known.replies[held:]))
        suite.case(f"{name}: {len(known.lines) - held} lines are answered by {len(self.calls)} calls", is_well, str(ran)[:500])

    def put(self):
        """Puts the store as it was before the rest of the lines."""
        at = os.path.dirname(self.store)
        shutil.rmtree(at)
        os.mkdir(at)
        for number in (0, 1) if self.held else ():
            write(f"{self.store}.{number}", read(f"{self.before}.{number}"))
            os.chmod(f"{self.store}.{number}", 0o1600 if self.is_marked else 0o600)

    def trouble_after(self, least):
        """What is wrong with the store, which has to hold so many lines, and to take the rest."""
        held, trouble = self.known.opened(self.store, least)
        if trouble:
            return trouble
        ran = self.suite.run("run", self.store, given=b"".join(self.known.lines[held:]))
        if (ran.status, ran.said) != (0, b"".join(self.known.replies[held:])):
            return f"the lines behind {held} get {ran}"
        if log_of(f"{self.store}.0") != self.known.log:
            return "its log is another one in the end"
        beside = sorted(os.listdir(os.path.dirname(self.store)))
        return None if beside == ["S.0", "S.1"] else f"beside the store there is {beside}"


def parts(between, chance, count, kind):
    """The examples on new stores and on ones that a kill left, and so many drawn lines also on one that is there."""
    suite = between.suite
    for name, lines, _ in harness.examples():
        known = Known(suite, lines)
        yield kind(between, f"{name}, a new store", known, 0, False)
        yield kind(between, f"{name}, after a kill", known, len(lines) // 2, True)
    known = drawn(suite, chance, count)
    yield kind(between, "drawn lines, a new store", known, 0, False)
    yield kind(between, "drawn lines, a store that is there", known, len(known.lines) // 2, False)
    yield kind(between, "drawn lines, after a kill", known, len(known.lines) // 2, True)
