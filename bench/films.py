#!/usr/bin/env python3
"""Times `metaedit` on large movies and AVI files, each beside the plainest program that does the same and is as safe (bench/plain.c): a
title in a movie of a million chunks with `moov` first, and in an AVI file of 100,000 frames with `idx1`, of 16 MiB and of 1 GiB of
essence, beside a plain copy with fsync and rename; `show` of them with every place and every entry tested; and hostile files: a
million chunks in a thousand `mdat`s, and a million entries beside 65,536 index chunks. After each edit the essence must be as it was,
and every place must be moved. It prints medians, ratios and the most memory. Figures of one machine and one disk, and no proof; what
the program doesn't edit yet is skipped with a line.

  bench/films.py [FOLDER]     FOLDER is on the disk to be measured and has 3 GiB free; else a new one beside this clone
METAEDIT names a built program; else the script `metaedit` builds it. ROUNDS (5) says how often each is timed.
"""

import array
import os
import shutil
import subprocess
import sys
import tempfile

from crash import TOP, built
from random_files import atom, big, chunk, little

ROUNDS = int(os.environ.get("ROUNDS", "5"))
ROWS = 1000000
FRAMES = 100000


def numbers(values, order):
    found = array.array("I", values)
    if sys.byteorder != order:
        found.byteswap()
    return found.tobytes()


# ---- movies


def table(starts, size):
    return atom(b"stbl", atom(b"stsd", big(0, 1), big(12), b"raw "), atom(b"stts", big(0, 1, len(starts), 1)),
                atom(b"stsc", big(0, 1, 1, 1, 1)), atom(b"stsz", big(0, size, len(starts))),
                atom(b"stco", big(0, len(starts)), numbers(starts, "big")))


def moov(starts, size):
    track = atom(b"trak", atom(b"tkhd", bytes(84)), atom(b"mdia", atom(b"mdhd", bytes(24)), atom(b"minf", table(starts, size))))
    return atom(b"moov", atom(b"mvhd", bytes(100)), track, atom(b"udta", atom(b"\xa9nam", (4).to_bytes(2, "big"), bytes(2), b"Reel"), bytes(4)))


def movie(path, media, mdats=1):
    """A movie of a million chunks of one sample each, with `moov` first, in so many `mdat`s: where its essence begins."""
    kind, size, each = atom(b"ftyp", b"qt  ", big(0), b"qt  "), media // ROWS, ROWS // mdats
    first = len(kind) + len(moov([0] * ROWS, size))
    starts = [first + 8 * (k // each + 1) + k * size for k in range(ROWS)]
    block = bytes(range(256)) * 4096
    with open(path, "wb") as file:
        file.write(kind + moov(starts, size))
        for _ in range(mdats):
            left = each * size
            file.write(big(8 + left) + b"mdat")
            while left:
                file.write(block[:left])
                left -= min(left, len(block))
    return first


# ---- AVI


def avi(path, media):
    """An AVI file of 100,000 frames and an `idx1` that counts from the start of the file: where its `movi` begins."""
    size = media // FRAMES // 2 * 2
    stream = chunk(b"LIST", b"strl" + chunk(b"strh", b"vids" + bytes(52)) + chunk(b"strf", bytes(40)))
    front = b"AVI " + chunk(b"LIST", b"hdrl" + chunk(b"avih", bytes(56)) + stream)
    first = 8 + len(front)
    frame = b"00dc" + little(size) + bytes(size)
    rows = b"".join(b"00dc" + little(16, first + 12 + k * len(frame), size) for k in range(FRAMES))
    inside = 4 + FRAMES * len(frame)
    with open(path, "wb") as file:
        file.write(b"RIFF" + little(len(front) + 8 + inside + 8 + len(rows)) + front + b"LIST" + little(inside) + b"movi")
        for _ in range(0, FRAMES, 1000):
            file.write(frame * 1000)
        file.write(b"idx1" + little(len(rows)) + rows)
    return first


def hostile_avi(path):
    """65,536 parts, nearly all of them index chunks outside any super index's order, and a million entries in `idx1`."""
    count = 60000
    indexes = b"".join(chunk(b"ix00", b"\2\0\0\1" + little(0) + b"00dc" + bytes(12)) for _ in range(count))
    rows_of = lambda at: b"\4\0\0\0" + little(count) + b"00dc" + bytes(12) + b"".join((at + k * 32).to_bytes(8, "little") + little(32, 0) for k in range(count))
    def front(at):
        stream = chunk(b"LIST", b"strl" + chunk(b"strh", b"vids" + bytes(52)) + chunk(b"strf", bytes(40)) + chunk(b"indx", rows_of(at)))
        return b"AVI " + chunk(b"LIST", b"hdrl" + chunk(b"avih", bytes(56)) + stream)
    first = 8 + len(front(0))
    movi = chunk(b"LIST", b"movi" + chunk(b"00dc", bytes(16)))
    rows = (b"00dc" + little(16, 4, 16)) * ROWS
    body = front(first + len(movi)) + movi + indexes + chunk(b"idx1", rows)
    with open(path, "wb") as file:
        file.write(chunk(b"RIFF", body))


# ---- runs


class Bench:
    def __init__(self, program, folder):
        self.program, self.folder, self.most = program, folder, 0
        self.plain = os.path.join(folder, "plain")
        subprocess.run(["cc", "-O2", "-o", self.plain, os.path.join(TOP, "bench", "plain.c")], check=True)

    def timed(self, *words):
        """What a run prints, its seconds and its KiB."""
        os.sync()
        done = subprocess.run([self.plain, "run", *words], cwd=self.folder, stdin=subprocess.DEVNULL, capture_output=True, text=True)
        lines = done.stderr.strip().split("\n")
        seconds, memory = lines[-1].split()[:2]
        return done.stdout + "\n".join(lines[:-1]), float(seconds), int(memory)

    def median(self, *words):
        runs = sorted(self.timed(*words)[1:] for _ in range(ROUNDS))
        return runs[len(runs) // 2][0]

    def ours(self, *words):
        said, seconds, memory = self.timed(self.program, *words)
        self.most = max(self.most, memory)
        return said, seconds

    def show(self, name, path, goal):
        said, seconds = min((self.ours("show", path) for _ in range(ROUNDS)), key=lambda it: it[1])
        if "NotBuilt" in said:
            print("%s: skipped, the program doesn't read it yet" % name)
            return False
        print("%s: show %.4f s (goal %s): %s" % (name, seconds, goal, said.strip().replace("\n", ", ")[:120]), flush=True)
        return True

    def edits(self, name, path, field, essence):
        """Titles of growing length, each a rewrite, beside plain copies."""
        was = essence(path)
        copies, ours = [], []
        for k in range(ROUNDS):
            copies.append(self.timed(self.plain, "copy", path, "copy")[1])
            said, seconds = self.ours("set", path, field + "=" + "x" * (2000 * (k + 1)))
            if "NotBuilt" in said:
                print("%s: edits skipped, the program doesn't edit it yet" % name)
                return
            if not said.startswith("done changed rewrite"):
                raise SystemExit("WRONG %s: %s" % (name, said))
            ours.append(seconds)
        if essence(path) != was:
            raise SystemExit("WRONG %s: another essence" % name)
        middle = lambda runs: sorted(runs)[len(runs) // 2]
        print("%s: a longer title %.3f s, plain copy %.3f s, ratio %.2f (goal 1.15)" % (name, middle(ours), middle(copies), middle(ours) / middle(copies)), flush=True)


def chunks_of(path):
    """What the places of a movie's `stco` find: a checksum of the first bytes of each thousandth chunk, and where they lie apart."""
    with open(path, "rb") as file:
        head = file.read(6 << 20)
        at = head.index(b"stco") + 12
        starts = array.array("I", head[at:at + 4 * ROWS])
        if sys.byteorder == "little":
            starts.byteswap()
        found = []
        for k in range(0, ROWS, 1000):
            file.seek(starts[k])
            found.append(file.read(8))
        return found, [it - starts[0] for it in starts[::1000]]


def frames_of(path):
    with open(path, "rb") as file:
        file.seek(-16 * FRAMES, os.SEEK_END)
        rows = file.read()
        found = []
        starts = [int.from_bytes(rows[k * 16 + 8:k * 16 + 12], "little") for k in range(0, FRAMES, 100)]
        for it in starts:
            file.seek(it)
            found.append(file.read(8))
        return found, [it - starts[0] for it in starts]


def main():
    program = built()
    folder = tempfile.mkdtemp(prefix=".bench.", dir=sys.argv[1] if len(sys.argv) > 1 else TOP)
    try:
        bench = Bench(program, folder)
        path = os.path.join(folder, "f.mov")
        for name, media in (("movie of 16 MiB", 16 << 20), ("movie of 1 GiB", 1 << 30)):
            movie(path, media)
            if bench.show(name, path, "0.03 s"):
                bench.edits(name, path, "@nam", chunks_of)
        movie(path, 16 << 20, 1000)
        bench.show("movie of a thousand mdats", path, "well under 1 s")
        os.remove(path)
        path = os.path.join(folder, "f.avi")
        for name, media in (("AVI of 16 MiB", 16 << 20), ("AVI of 1 GiB", 1 << 30)):
            avi(path, media)
            if bench.show(name, path, "0.02 s"):
                bench.edits(name, path, "INAM", frames_of)
        hostile_avi(path)
        bench.show("hostile AVI", path, "seconds")
        print("most memory of the editor: %d KiB (goal under 8192, and a page of a table)" % bench.most)
    finally:
        shutil.rmtree(folder)
    return 0


if __name__ == "__main__":
    sys.exit(main())
