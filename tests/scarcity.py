"""Runs programs with one of their requests for memory refused. It needs a C compiler, and the C library of Linux."""

import os
import subprocess

# Replaces calls of the C library, and refuses one of the program's requests for memory.
MEMORY = r"""
#include <fcntl.h>
#include <stddef.h>
#include <stdlib.h>
#include <unistd.h>

void *__libc_malloc(size_t);
void *__libc_realloc(void *, size_t);

static int is_refused(void) {
    static long asked = 0;
    const char *number = getenv("REFUSED"), *told = getenv("REFUSED_TOLD");
    if (!number || !told || ++asked != atol(number)) return 0;
    close(open(told, O_CREAT | O_WRONLY, 0600));
    return 1;
}

void *malloc(size_t bytes) { return is_refused() ? 0 : __libc_malloc(bytes); }
void *realloc(void *old, size_t bytes) { return is_refused() ? 0 : __libc_realloc(old, bytes); }
"""


class ScarceMemory:
    """Refuses a program one of its requests for memory. Its library is made in the folder."""

    def __init__(self, folder):
        source, self.library, self.told = (folder / name for name in ("memory.c", "memory.so", "told"))
        self.refused = 0
        source.write_text(MEMORY)
        subprocess.run(["cc", "-O1", "-fno-builtin", "-shared", "-fPIC", "-o", self.library, source], check=True)

    def run(self, words, given=b"", number=0):
        """Runs the words with the request of this number refused, counted from 1, or none for 0: the status, the output,
        and whether there were as many requests."""
        self.told.unlink(missing_ok=True)
        # By its name in the folder that it is run in: a path with a space would be read as two.
        added = {"LD_PRELOAD": f"./{self.library.name}", "REFUSED": str(number), "REFUSED_TOLD": str(self.told)} if number else {}
        environment = {**os.environ, **added}
        done = subprocess.run(words, input=given, stdout=subprocess.PIPE, stderr=subprocess.STDOUT, cwd=self.library.parent, env=environment, timeout=60)
        met = self.told.exists()
        self.refused += met
        return done.returncode, done.stdout, met
