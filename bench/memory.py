#!/usr/bin/env python3
"""Refuses `metaedit` its memory, one request at a time, in runs that edit a WAVE file in place and by rewriting, an AVI file with
OpenDML indexes, and a movie, and in a run that applies a table: the n-th call of malloc, calloc or realloc of the run answers that
there is none. What is left is settled by `recover`, and must be what the status says: at 12 the old file; at 9, where the device
counted the refusal as a fault, the old file or the new one; at 10 the old one; at 11 the new one; else the run's own status and the
new file. It prints a table of how often each came, and ends with status 1 where a run ends otherwise. It is a test of some runs and no
proof: no promise ties an answer to a refused request.

  bench/memory.py [FOLDER]     else in a new folder beside this clone
METAEDIT names a built program; else the script `metaedit` builds it. It needs a C compiler.
"""

import collections
import os
import shutil
import subprocess
import sys
import tempfile

from crash import FORMAT, TOP, built, chunk, read, wave, write
from random_files import avis, movies

REFUSING = r"""
#include <errno.h>
#include <fcntl.h>
#include <stdlib.h>
#include <unistd.h>
extern void *__libc_malloc(size_t), *__libc_calloc(size_t, size_t), *__libc_realloc(void *, size_t);
static long asked, refused = -1;
static int is_refused(void) {
    if (refused < 0) {
        const char *word = getenv("REFUSED");
        refused = word ? atol(word) : 0;
    }
    if (++asked != refused)
        return 0;
    int told = open(getenv("TOLD"), O_CREAT | O_WRONLY, 0600); /* the run came so far */
    if (told >= 0)
        close(told);
    errno = ENOMEM;
    return 1;
}
void *malloc(size_t size) { return is_refused() ? 0 : __libc_malloc(size); }
void *calloc(size_t count, size_t size) { return is_refused() ? 0 : __libc_calloc(count, size); }
void *realloc(void *held, size_t size) { return is_refused() ? 0 : __libc_realloc(held, size); }
"""

MOST = 5000

STATUSES = [0, 9, 10, 11, 12]


class Wrong(Exception):
    pass


class Runs:
    def __init__(self, folder):
        self.program = built()
        self.folder = folder
        self.refusing = os.path.join(folder, "refusing.so")
        code = os.path.join(folder, "refusing.c")
        with open(code, "w", encoding="utf-8") as file:
            file.write(REFUSING)
        subprocess.run(["cc", "-O1", "-shared", "-fPIC", "-o", self.refusing, code], check=True)

    def run(self, words, table, refused):
        """A run whose request of this number is refused, none at 0: its status, and whether it asked so often."""
        told = os.path.join(self.folder, "told")
        env = {"LD_PRELOAD": self.refusing, "REFUSED": str(refused), "TOLD": told}
        child = subprocess.run([self.program, *words], cwd=self.folder, env=env, input=table, capture_output=True)
        was_refused = os.path.exists(told)
        if was_refused:
            os.remove(told)
        return child.returncode, was_refused

    def lay(self, name, content):
        path = os.path.join(self.folder, name)
        for companion in (path + ".mej", path + ".met"):
            if os.path.exists(companion):
                os.remove(companion)
        write(path, content)

    def settled(self, name):
        path = os.path.join(self.folder, name)
        child = subprocess.run([self.program, "recover", path], stdin=subprocess.DEVNULL, capture_output=True)
        if child.returncode != 0:
            raise Wrong(f"recover answers {child.stderr.decode().strip()}")
        return read(path)

    def edit(self, what, name, old, words, table=b""):
        """All the runs of an edit; prints its line of the table."""
        self.lay(name, old)
        status, _ = self.run(words, table, 0)
        if status != 0:
            raise Wrong(f"{what}: the run answers {status}")
        new, counts = self.settled(name), collections.Counter()
        for refused in range(1, MOST):
            self.lay(name, old)
            status, was_refused = self.run(words, table, refused)
            if not was_refused:
                break
            counts[status] += 1
            allowed = {0: [new], 12: [old], 9: [old, new], 10: [old], 11: [new]}.get(status)
            if allowed is None or self.settled(name) not in allowed:
                raise Wrong(f"{what}: request {refused} refused, the run answers {status}, and the file is another than may be then")
        else:
            raise Wrong(f"{what}: more than {MOST} requests")
        print(f"| {what} | {sum(counts.values())} | " + " | ".join(str(counts[it]) for it in STATUSES) + " |", flush=True)


def main():
    parent = sys.argv[1] if len(sys.argv) > 1 else TOP
    os.makedirs(parent, exist_ok=True)
    folder = tempfile.mkdtemp(prefix=".bench.", dir=parent)
    plain = wave(FORMAT, chunk(b"data", b"\1\2\3\4"))
    table = b"FileName,INAM\r\nf.wav,Hi\r\n"
    try:
        runs = Runs(folder)
        print("| run | requests | " + " | ".join(f"status {it}" for it in STATUSES) + " |")
        print("|---" * (2 + len(STATUSES)) + "|")
        runs.edit("a title in a WAVE file, in place", "f.wav", plain, ["set", "f.wav", "INAM=Hi"])
        runs.edit("a description in a WAVE file, by rewriting", "f.wav", plain, ["set", "f.wav", "Description=" + "x" * 256])
        runs.edit("a table with a title", "f.wav", plain, ["apply", "f.wav", "--as", "csv"], table)
        runs.edit("a title in an AVI file with OpenDML indexes", "a.avi", list(avis())[-1][1], ["set", "a.avi", "INAM=Hi"])
        runs.edit("a title in a movie", "m.mov", list(movies())[0][1], ["set", "m.mov", "@nam=A title"])
    except Wrong as fault:
        print(f"WRONG {fault}")
        return 1
    finally:
        shutil.rmtree(folder)
    return 0


if __name__ == "__main__":
    sys.exit(main())
