"""Runs programs with some of their calls of files failing, with what the system keeps of a file in a file of its own, or with
another program trying for their file's lock. It needs a C compiler, and the C library of Linux."""

import os
import shutil
import subprocess

# Replaces calls of the C library. If another kind of call than a write is to fail, reads and syncs pass.
CALLS = r"""
#include <errno.h>
#include <fcntl.h>
#include <stdlib.h>
#include <string.h>
#include <sys/syscall.h>
#include <unistd.h>

static int is(const char *kind) { return !strcmp(getenv("FAILING_KIND"), kind); }

static void tell(const char *call) {
    int file = open(getenv("FAILING_TOLD"), O_CREAT | O_WRONLY | O_TRUNC, 0600);
    if (write(file, call, strlen(call)) < 0) abort();
    close(file);
}

static int fails(const char *call, int is_write) {
    static long made = 0;
    const char *number = getenv("FAILING");
    if (!number || (!is("once") && !is_write)) return 0;
    long due = atol(number);
    if (++made < due || (made > due && !is("full"))) return 0;
    if (made == due) tell(call);
    return 1;
}

static int is_lost(off_t at) {
    const char *sector = getenv("LOST");
    if (!sector || at / 4096 != atol(sector)) return 0;
    tell("pread");
    return 1;
}

static long failed(void) {
    errno = is("full") ? ENOSPC : EIO;
    return -1;
}

ssize_t pread(int file, void *bytes, size_t count, off_t at) {
    return fails("pread", 0) || is_lost(at) ? failed() : syscall(SYS_pread64, file, bytes, count, at);
}

ssize_t pwrite(int file, const void *bytes, size_t count, off_t at) {
    if (!fails("pwrite", 1)) return syscall(SYS_pwrite64, file, bytes, count, at);
    if (is("torn")) syscall(SYS_pwrite64, file, bytes, count / 2, at);
    return failed();
}

int ftruncate(int file, off_t length) { return fails("ftruncate", 1) ? failed() : syscall(SYS_ftruncate, file, length); }
int fsync(int file) { return fails("fsync", 0) ? failed() : syscall(SYS_fsync, file); }
int fdatasync(int file) { return fails("fdatasync", 0) ? failed() : syscall(SYS_fdatasync, file); }
"""

# Replaces calls of the C library. A separate file has the system's cache of one file, up to a number of sectors, and
# survives the program. A sync that fails marks all of it as written, though nothing was.
CACHE = r"""
#define _GNU_SOURCE
#include <errno.h>
#include <fcntl.h>
#include <stdlib.h>
#include <string.h>
#include <sys/mman.h>
#include <sys/stat.h>
#include <sys/syscall.h>
#include <unistd.h>

enum { SECTOR = 4096, SECTORS = 64 };
enum state { ABSENT, CLEAN, DIRTY };

struct cache {
    unsigned char state[SECTORS], stuck[SECTORS];
    unsigned char bytes[SECTORS][SECTOR];
};

static struct cache *kept(void) {
    static struct cache *cache;
    if (cache) return cache;
    int file = open(getenv("CACHE"), O_RDWR | O_CREAT, 0600);
    if (file < 0 || syscall(SYS_ftruncate, file, sizeof *cache)) abort();
    cache = mmap(0, sizeof *cache, PROT_READ | PROT_WRITE, MAP_SHARED, file, 0);
    if (cache == MAP_FAILED) abort();
    close(file);
    return cache;
}

static int is_due(const char *name, long number) { return getenv(name) && atol(getenv(name)) == number; }

/* Whether this is the file that is kept, and not an empty one beside it, or a folder. */
static int is_kept(int file) {
    struct stat is;
    return !fstat(file, &is) && S_ISREG(is.st_mode) && is.st_size;
}

/* Whether the drive has never taken this sector. */
static int is_hole(int file, int sector) {
    unsigned char bytes[SECTOR], zeros[SECTOR] = {0};
    return syscall(SYS_pread64, file, bytes, SECTOR, (off_t)sector * SECTOR) == SECTOR && !memcmp(bytes, zeros, SECTOR);
}

static int synced(int file) {
    static long made = 0;
    int ends = is_due("ENDING_SYNC", ++made), fails = ends || is_due("FAILING_SYNC", made);
    fails = fails || (getenv("FAILING_FROM") && atol(getenv("FAILING_FROM")) <= made);
    if (is_due("UNMADE_SYNC", made)) _exit(0);
    for (int sector = 0; sector < SECTORS; sector++) {
        if (kept()->state[sector] != DIRTY) continue;
        kept()->state[sector] = CLEAN;
        if (fails) kept()->stuck[sector] |= getenv("HOLES_STAY") && is_hole(file, sector);
        else if (!kept()->stuck[sector]) syscall(SYS_pwrite64, file, kept()->bytes[sector], SECTOR, (off_t)sector * SECTOR);
    }
    if (ends || is_due("LAST_SYNC", made)) _exit(0);
    if (fails) errno = EIO;
    return -fails;
}

ssize_t pread(int file, void *bytes, size_t count, off_t at) {
    long sector = at / SECTOR;
    if (kept()->state[sector] == ABSENT) {
        if (syscall(SYS_pread64, file, kept()->bytes[sector], SECTOR, at) != SECTOR) abort();
        kept()->state[sector] = CLEAN;
    }
    memcpy(bytes, kept()->bytes[sector], count);
    return count;
}

ssize_t pwrite(int file, const void *bytes, size_t count, off_t at) {
    long sector = at / SECTOR;
    int is_same = kept()->state[sector] == CLEAN && !memcmp(kept()->bytes[sector], bytes, count);
    if (is_same && getenv("SAME_BYTES_STAY_CLEAN")) return count;
    memcpy(kept()->bytes[sector], bytes, count);
    kept()->state[sector] = DIRTY;
    return count;
}

/* The system lets go of what it holds of the file, but for what isn't written yet. */
static int dropped(int file, int advice) {
    if (advice != POSIX_FADV_DONTNEED || !is_kept(file) || getenv("PAGES_STAY")) return 0;
    for (int sector = 0; sector < SECTORS; sector++)
        if (kept()->state[sector] == CLEAN) kept()->state[sector] = ABSENT, kept()->stuck[sector] = 0;
    return 0;
}

int posix_fadvise(int file, off_t at, off_t count, int advice) { return dropped(file, advice); }
int posix_fadvise64(int file, off64_t at, off64_t count, int advice) { return dropped(file, advice); }

int fdatasync(int file) { return synced(file); }
int fsync(int file) { return is_kept(file) ? synced(file) : syscall(SYS_fsync, file); }
"""

# Stands before the C library's own calls, and tells the name of each during which another program could lock the file, and
# how many were made.
LOCKS = r"""
#include <fcntl.h>
#include <stdio.h>
#include <stdlib.h>
#include <sys/file.h>
#include <sys/syscall.h>
#include <unistd.h>

static void tried(const char *call) {
    FILE *told = fopen(getenv("LOCKS_TOLD"), "a");
    int other = open(getenv("LOCKED"), O_RDWR);
    if (!told || other < 0) abort();
    fprintf(told, "%s %s\n", flock(other, LOCK_EX | LOCK_NB) ? "held" : "free", call);
    fclose(told);
    close(other);
}

ssize_t pread(int file, void *bytes, size_t count, off_t at) { return tried("pread"), syscall(SYS_pread64, file, bytes, count, at); }
ssize_t pwrite(int file, const void *bytes, size_t count, off_t at) { return tried("pwrite"), syscall(SYS_pwrite64, file, bytes, count, at); }
int ftruncate(int file, off_t length) { return tried("ftruncate"), syscall(SYS_ftruncate, file, length); }
int fsync(int file) { return tried("fsync"), syscall(SYS_fsync, file); }
int fdatasync(int file) { return tried("fdatasync"), syscall(SYS_fdatasync, file); }
"""

# One call fails; one write fails, after half of its bytes; all writes fail from one on.
KINDS = ("once", "torn", "full")


class Calls:
    """Replacements for calls of the C library, compiled to a library in the folder."""

    def __init__(self, folder, name, text):
        source, self.library = folder / f"{name}.c", folder / f"{name}.so"
        source.write_text(text)
        subprocess.run(["cc", "-O1", "-shared", "-fPIC", "-o", self.library, source], check=True)

    @staticmethod
    def can_be_made():
        return shutil.which("cc") is not None

    def run_with(self, words, given, added):
        """Runs the words with these in the environment: the status and the output."""
        # By its name in the folder that it is run in: a path with a space would be read as two.
        environment = {**os.environ, "LD_PRELOAD": f"./{self.library.name}", **{name: str(value) for name, value in added.items()}}
        done = subprocess.run(words, input=given, stdout=subprocess.PIPE, cwd=self.library.parent, env=environment, timeout=60)
        return done.returncode, done.stdout


class FaultyCalls(Calls):
    """Fails calls of a program's files: reads and writes at a place, syncs, and changes of a length, which count as writes."""

    def __init__(self, folder):
        super().__init__(folder, "calls", CALLS)
        self.told = folder / "failing"

    def run(self, words, given, kind, number):
        """Runs the words with the call of this number failing, counted from 1: the status, the output, and the name of
        that call, or none if there are fewer calls."""
        return self.told_with(words, given, {"FAILING": number, "FAILING_KIND": kind})

    def run_losing(self, words, given, sector):
        """Runs the words with each read of this sector failing: the status, the output, and whether it was read."""
        *found, call = self.told_with(words, given, {"LOST": sector, "FAILING_KIND": "once"})
        return *found, call is not None

    def told_with(self, words, given, added):
        self.told.unlink(missing_ok=True)
        found = self.run_with(words, given, {"FAILING_TOLD": self.told, **added})
        return *found, self.told.read_text() if self.told.exists() else None


class CachedCalls(Calls):
    """Keeps the system's cache of a program's file in a separate file, so that the program's file has only what was
    synced."""

    def __init__(self, folder):
        super().__init__(folder, "cache", CACHE)
        self.cache = folder / "cache"

    def run(self, words, given, **added):
        """Runs the words. FAILING_SYNC is the number of a sync that fails, and leaves what it should have written as written;
        ENDING_SYNC that of one in which the program is killed, once it has failed so; LAST_SYNC of one behind which the program
        ends, UNMADE_SYNC of one before which it does. From FAILING_FROM on each sync fails. With HOLES_STAY a sector that the
        drive never took before a failed sync isn't written by later ones, until the system lets go of it, as on ext4. With
        PAGES_STAY the system doesn't let go of the file when it is asked. With SAME_BYTES_STAY_CLEAN a write of the bytes
        that are there already is none."""
        return self.run_with(words, given, {"CACHE": self.cache, **added})

    def cut_power(self):
        """Drops the system's cache. The file stays unchanged."""
        self.cache.unlink(missing_ok=True)


class TriedLocks(Calls):
    """Tries for the lock of a program's file at each of its calls of the file."""

    def __init__(self, folder):
        super().__init__(folder, "locks", LOCKS)
        self.told = folder / "tried"

    def run(self, words, given, path):
        """Runs the words: the status, the output, and for each call its name and whether the file was locked."""
        self.told.unlink(missing_ok=True)
        found = self.run_with(words, given, {"LOCKED": path, "LOCKS_TOLD": self.told})
        return *found, self.told.read_text().splitlines()
