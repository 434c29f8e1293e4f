"""Functions of the C library that are replaced in a program's process, by a library that is loaded
before it. A C compiler makes it."""
import errno
import os
import shutil
import subprocess

# Only one thread of the program reads, writes and syncs at places of a file. Of all such calls the
# one of the number FAILING_CALL fails, a write when half of it is written, and in that of the
# number KILLING_CALL the program is killed, in the middle of a write, too. If ALL_CALLS is 1, these
# count too: reads and writes of a file or device with no place given, syncs of all of a file or a
# folder, and renamings. The first SLOW_SYNCS syncs take SLOW_MS and SLOW_MICROS longer. While
# another program has the folder HELD_SYNCS locked, syncs wait. Each of these that succeeds is added
# to the file CALL_LOG: its kind, its place (8 bytes) and length (4) in the machine's order, its
# bytes. The kind is w for a write at a place, s for a sync of what a file holds; if all of it is
# synced, f for a file and d for a folder; r for a renaming; and for the removal of a file u, or x
# if nobody has it locked.
CALLS = r"""
#define _GNU_SOURCE
#include <errno.h>
#include <fcntl.h>
#include <signal.h>
#include <stdint.h>
#include <stdio.h>
#include <stdlib.h>
#include <string.h>
#include <sys/file.h>
#include <sys/stat.h>
#include <sys/syscall.h>
#include <unistd.h>

static long number(const char *name) { const char *it = getenv(name); return it ? atol(it) : 0; }

static int is_killed;

static int fails(void) {
    static long calls;
    is_killed = ++calls == number("KILLING_CALL");
    if (!is_killed && calls != number("FAILING_CALL")) return 0;
    errno = EIO;
    return 1;
}

static int failed(void) {
    if (is_killed) kill(getpid(), SIGKILL);
    return -1;
}

static int is_file(int file) {
    struct stat it;
    return !fstat(file, &it) && (S_ISREG(it.st_mode) || S_ISCHR(it.st_mode));
}

static int also_fails(void) { return number("ALL_CALLS") && fails(); }

static int transfer_fails(int file) { return number("ALL_CALLS") && is_file(file) && fails(); }

static void put(int log, const void *bytes, size_t length) {
    while (length) {
        ssize_t written = syscall(SYS_write, log, bytes, length);
        if (written <= 0) abort();
        bytes = (const char *)bytes + written;
        length -= written;
    }
}

static void note(char kind, int64_t place, const void *bytes, uint32_t length) {
    static int log = -1;
    const char *name = getenv("CALL_LOG");
    if (!name) return;
    if (log < 0) log = open(name, O_WRONLY | O_CREAT | O_APPEND, 0600);
    put(log, &kind, 1);
    put(log, &place, 8);
    put(log, &length, 4);
    put(log, bytes, length);
}

ssize_t pread64(int file, void *bytes, size_t length, off64_t place) {
    return fails() ? failed() : syscall(SYS_pread64, file, bytes, length, place);
}

ssize_t pwrite64(int file, const void *bytes, size_t length, off64_t place) {
    if (fails()) {
        syscall(SYS_pwrite64, file, bytes, length / 2, place);
        errno = EIO;
        return failed();
    }
    ssize_t written = syscall(SYS_pwrite64, file, bytes, length, place);
    if (written > 0) note('w', place, bytes, written);
    return written;
}

static void await_lock(void) {
    const char *name = getenv("HELD_SYNCS");
    int lock = name ? open(name, O_RDONLY | O_CLOEXEC) : -1;
    if (lock < 0) return;
    flock(lock, LOCK_SH);
    close(lock);
}

int fdatasync(int file) {
    static long syncs;
    if (fails()) return failed();
    await_lock();
    if (++syncs <= number("SLOW_SYNCS")) usleep(1000 * number("SLOW_MS") + number("SLOW_MICROS"));
    int status = syscall(SYS_fdatasync, file);
    if (!status) note('s', 0, "", 0);
    return status;
}

int fsync(int file) {
    struct stat it;
    if (also_fails()) return failed();
    await_lock();
    int status = syscall(SYS_fsync, file);
    if (!status && !fstat(file, &it)) note(S_ISDIR(it.st_mode) ? 'd' : 'f', 0, "", 0);
    return status;
}

ssize_t read(int file, void *bytes, size_t length) {
    if (transfer_fails(file)) return failed();
    return syscall(SYS_read, file, bytes, length);
}

ssize_t write(int file, const void *bytes, size_t length) {
    if (transfer_fails(file)) {
        syscall(SYS_write, file, bytes, length / 2);
        errno = EIO;
        return failed();
    }
    return syscall(SYS_write, file, bytes, length);
}

int rename(const char *from, const char *to) {
    int status = also_fails() ? failed() : syscall(SYS_rename, from, to);
    if (!status) note('r', 0, "", 0);
    return status;
}

int unlink(const char *path) {
    int file = open(path, O_RDONLY | O_CLOEXEC);
    if (file >= 0) note(flock(file, LOCK_EX | LOCK_NB) ? 'u' : 'x', 0, "", 0);
    close(file);
    return syscall(SYS_unlink, path);
}

ssize_t pread(int file, void *bytes, size_t length, off_t place) {
    return pread64(file, bytes, length, place);
}

ssize_t pwrite(int file, const void *bytes, size_t length, off_t place) {
    return pwrite64(file, bytes, length, place);
}
"""

# The program's monotonic clock stands still: another program writes it to the file CLOCK, in
# nanoseconds. While that is 0, it is the system's clock. The times after which reads and writes of
# sockets give up are by this clock, too. The signal SIGURG has a thread look at it. Then the file
# has the program's number, what each such read and write has seen of the clock, and its thread.
CLOCK = r"""
#define _GNU_SOURCE
#include <errno.h>
#include <fcntl.h>
#include <signal.h>
#include <stdint.h>
#include <stdlib.h>
#include <sys/mman.h>
#include <sys/socket.h>
#include <sys/syscall.h>
#include <sys/time.h>
#include <time.h>
#include <unistd.h>

enum { FILES = 1024, NANO = 1000000000 };

static struct { volatile int64_t now, program, seen[2 * FILES], threads[2 * FILES]; } *it;
static int64_t times[2 * FILES], last_ends[2 * FILES];

static void wake(int number) {}

__attribute__((constructor)) static void map_clock(void) {
    const char *name = getenv("CLOCK");
    struct sigaction waking = {.sa_handler = wake, .sa_flags = SA_RESTART};
    if (!name) return;
    int file = open(name, O_RDWR | O_CLOEXEC);
    void *there = mmap(NULL, sizeof *it, PROT_READ | PROT_WRITE, MAP_SHARED, file, 0);
    if (there == MAP_FAILED || sigaction(SIGURG, &waking, NULL)) abort();
    close(file);
    it = there;
    it->program = getpid();
}

int clock_gettime(clockid_t clock, struct timespec *time) {
    int64_t now = it && clock == CLOCK_MONOTONIC ? it->now : 0;
    if (!now) return syscall(SYS_clock_gettime, clock, time);
    time->tv_sec = now / NANO;
    time->tv_nsec = now % NANO;
    return 0;
}

static int64_t moment(void) {
    struct timespec now;
    clock_gettime(CLOCK_MONOTONIC, &now);
    return now.tv_sec * NANO + now.tv_nsec;
}

int setsockopt(int file, int level, int name, const void *value, socklen_t length) {
    int is_time = level == SOL_SOCKET && (name == SO_RCVTIMEO || name == SO_SNDTIMEO);
    if (is_time && file >= 0 && file < FILES) {
        const struct timeval *time = value;
        int place = name == SO_SNDTIMEO ? FILES + file : file;
        times[place] = time->tv_sec * NANO + time->tv_usec * 1000;
        last_ends[place] = 0;
    }
    return syscall(SYS_setsockopt, file, level, name, value, length);
}

// If one gives up, the next one's time begins where that of this one ended: of a clock that moves
// far, each has its share.
static ssize_t timed(int call, int file, void *bytes, size_t length, int flags) {
    int place = call == SYS_sendto ? FILES + file : file;
    if (!it || file < 0 || file >= FILES || !times[place])
        return syscall(call, file, bytes, length, flags, NULL, 0);
    it->threads[place] = gettid();
    it->seen[place] = 1;
    int64_t now = moment(), end = (last_ends[place] ? last_ends[place] : now) + times[place];
    for (;;) {
        it->seen[place] = now;
        int is_over = now >= end;
        int how = is_over ? flags | MSG_DONTWAIT : flags;
        ssize_t done = syscall(call, file, bytes, length, how, NULL, 0);
        int has_woken = done < 0 && (errno == EAGAIN || errno == EINTR);
        if (!has_woken || is_over) {
            last_ends[place] = has_woken ? end : 0;
            it->seen[place] = 0;
            return done;
        }
        now = moment();
    }
}

ssize_t recv(int file, void *bytes, size_t length, int flags) {
    return timed(SYS_recvfrom, file, bytes, length, flags);
}

ssize_t send(int file, const void *bytes, size_t length, int flags) {
    return timed(SYS_sendto, file, (void *)bytes, length, flags);
}
"""

# The program's request for memory of the number REFUSED_REQUEST is refused, or none if that is 0.
# Their count is printed after the last line of standard error; and is in the first 8 bytes of the
# file REQUESTS, in the machine's order, for a program that may end without what ends it.
REQUESTS = r"""
#define _GNU_SOURCE
#include <fcntl.h>
#include <stdio.h>
#include <stdlib.h>
#include <sys/mman.h>
#include <unistd.h>

void *__libc_malloc(size_t size);
void *__libc_realloc(void *block, size_t size);

static long here, *requests = &here, refused;

__attribute__((constructor)) static void begin(void) {
    const char *it = getenv("REFUSED_REQUEST"), *name = getenv("REQUESTS");
    refused = it ? atol(it) : 0;
    if (!name) return;
    int file = open(name, O_RDWR | O_CREAT, 0600);
    if (file < 0 || ftruncate(file, sizeof *requests)) abort();
    void *there = mmap(NULL, sizeof *requests, PROT_READ | PROT_WRITE, MAP_SHARED, file, 0);
    if (there == MAP_FAILED) abort();
    *(long *)there = here;
    requests = there;
}

__attribute__((destructor)) static void end(void) { dprintf(2, "%ld requests\n", *requests); }

static int is_refused(void) { return __sync_add_and_fetch(requests, 1) == refused; }

void *malloc(size_t size) { return is_refused() ? NULL : __libc_malloc(size); }

void *realloc(void *block, size_t size) {
    return is_refused() ? NULL : __libc_realloc(block, size);
}
"""


class NoCompiler(OSError):
    """There is no C compiler, so nothing can be replaced."""

    def __init__(self):
        super().__init__(errno.ENOENT, "no C compiler is there: apt-get install gcc", "cc")


def made(source, folder):
    """The library of a C source, made in a folder."""
    compiler = shutil.which("cc")
    if not compiler:
        raise NoCompiler
    file = os.path.join(folder, "preload.c")
    with open(file, "w", encoding="utf-8") as code:
        code.write(source)
    library = f"{file}.so"
    subprocess.run([compiler, "-shared", "-fPIC", "-o", library, file, "-ldl"], check=True)
    return library


def environment(library, **settings):
    """The environment of a program in which the library replaces what it replaces."""
    return {**os.environ, "LD_PRELOAD": library, **{name: str(to) for name, to in settings.items()}}
