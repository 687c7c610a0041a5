#!/usr/bin/env python3
"""Kills `metaedit` (SIGKILL) at random moments of edits in place, of rewrites, of recoveries and of batches on the real disk, runs
`recover`, and compares each file with its old one and its new one, byte for byte. It ends with status 1 where a file is neither.

It is a test and no proof: some hundred moments of all there are, and a killed process leaves what it wrote in the system's cache,
so nothing is shown of a loss of power. (The tests of the crate `power_rows` cut it, over a folder in memory.)

  bench/crash.py [RUNS] [FOLDER]     RUNS of each kind, else 100; FOLDER is on the disk to be used, else a new one beside this clone
METAEDIT names a built program; else the script `metaedit` builds it.
"""

import os
import random
import shutil
import subprocess
import sys
import tempfile
import time

TOP = os.path.dirname(os.path.dirname(os.path.abspath(__file__)))


def built():
    """The path of the program, built where it isn't yet."""
    named = os.environ.get("METAEDIT")
    if named:
        return os.path.abspath(named)
    build = subprocess.Popen(
        [os.path.join(TOP, "metaedit")], stdin=subprocess.DEVNULL, stdout=subprocess.PIPE, stderr=subprocess.STDOUT, text=True)
    for line in build.stdout:
        if not line.startswith("refused"):  # without words the editor refuses and touches no file
            print(line, end="", file=sys.stderr, flush=True)
    build.wait()
    return os.path.join(TOP, "crates", "metaedit", "out", "metaedit")


def chunk(name, body):
    return name + len(body).to_bytes(4, "little") + body + b"\0" * (len(body) % 2)


def wave(*chunks):
    return chunk(b"RIFF", b"WAVE" + b"".join(chunks))


def wide(form, *chunks):
    """A file whose sizes stand in `ds64`; the last chunk is its sound."""
    sound = chunks[-1][8:]
    body = b"".join(chunks[:-1]) + b"data" + b"\xff" * 4 + sound
    sizes = [(4 + 36 + len(body)).to_bytes(8, "little"), len(sound).to_bytes(8, "little"), (len(sound) // 2).to_bytes(8, "little"), bytes(4)]
    return form + b"\xff" * 4 + b"WAVE" + chunk(b"ds64", b"".join(sizes)) + body


FORMAT = chunk(b"fmt ", bytes.fromhex("0100010044ac00008858010002001000"))


def read(path):
    with open(path, "rb") as file:
        return file.read()


def write(path, content):
    with open(path, "wb") as file:
        file.write(content)
        file.flush()
        os.fsync(file.fileno())


class Mismatch(Exception):
    pass


class Bench:
    def __init__(self, program, folder):
        self.program = program
        self.file = os.path.join(folder, "f.wav")
        self.journal = self.file + ".mej"
        self.work = self.file + ".met"

    def start(self, command, words=()):
        return subprocess.Popen(
            [self.program, command, self.file, *words],
            stdin=subprocess.DEVNULL, stdout=subprocess.PIPE, stderr=subprocess.STDOUT)

    def whole(self, command, words=()):
        """A run that nobody kills: what it prints, and its seconds."""
        begin = time.monotonic()
        child = self.start(command, words)
        printed = child.communicate()[0].decode()
        if child.returncode != 0:
            raise Mismatch(f"{command} answers {child.returncode} {printed!r}")
        return printed.strip(), time.monotonic() - begin

    def killed(self, command, words, seconds):
        """Kills a run so long after its start; whether it hadn't ended."""
        begin = time.monotonic()
        child = self.start(command, words)
        time.sleep(max(0.0, begin + seconds - time.monotonic()))
        child.kill()
        child.communicate()
        return child.returncode == -9

    def lay(self, main, journal=None):
        for path in (self.journal, self.work):
            if os.path.exists(path):
                os.remove(path)
        write(self.file, main)
        if journal is not None:
            write(self.journal, journal)

    def runs(self, name, count, command, words, main, journal, allowed):
        """Kills `count` runs; `allowed` names the files that may stand after `recover`.
        The first state where a journal has work left is given back."""
        durations = []
        for _ in range(5):
            self.lay(main, journal)
            durations.append(self.whole(command, words)[1])
        longest = sorted(durations)[2] * 1.1
        tally = dict.fromkeys(["killed", "journal", "old", "new", "redone", "nothing"], 0)
        kept = None
        for _ in range(count):
            self.lay(main, journal)
            tally["killed"] += self.killed(command, words, random.uniform(0.0, longest))
            if os.path.exists(self.journal):
                tally["journal"] += 1
                left = read(self.file)
                if kept is None and left != allowed["new"]:
                    kept = left, read(self.journal)
            printed = self.whole("recover")[0]
            if printed not in ("recovered redone", "recovered nothing"):
                raise Mismatch(f"{name}: recover prints {printed!r}")
            tally[printed.split()[1]] += 1
            self.compare(name, allowed, tally)
        print(f"{name}: {count} runs of {longest * 1000 / 1.1:.0f} ms, {tally['killed']} killed before the end, "
              f"{tally['journal']} with a journal left; recover: {tally['redone']} redone, {tally['nothing']} nothing; "
              f"then {tally['old']} old, {tally['new']} new", flush=True)
        return kept

    def compare(self, name, allowed, tally):
        after = read(self.file)
        for path in (self.journal, self.work):
            if os.path.exists(path):
                raise Mismatch(f"{name}: {path} is left after recover")
        for word, content in allowed.items():
            if after == content:
                tally[word] += 1
                return
        lengths = ", ".join(f"{word} {len(content)}" for word, content in allowed.items())
        raise Mismatch(f"{name}: the file is none of those allowed: {len(after)} bytes ({lengths})")

    def edit(self, name, count, old, words, how):
        self.lay(old)
        printed = self.whole("set", words)[0]
        if not printed.startswith(f"done changed {how} essence "):
            raise Mismatch(f"{name}: prints {printed!r}")
        new = read(self.file)
        return new, self.runs(name, count, "set", words, old, None, {"old": old, "new": new})


class Batch:
    """Batches of 64 files that get one title: WAVE files in place and rewritten, with RF64, BW64 and AVI files among them, or movies. No field is one
    of all kinds, so movies have a batch of their own."""

    def __init__(self, program, folder, field, made):
        self.program = program
        self.folder = folder
        self.words = ["batch", field + "=" + "x" * 256]
        self.olds = []
        if field == "INAM":
            listed = chunk(b"LIST", b"INFO" + chunk(b"INAM", b"Hi\0"))
            sound = chunk(b"data", random.randbytes(40_000))
            self.add("in-place", wave(FORMAT, listed, chunk(b"JUNK", bytes(1016)), sound))
            self.add("rewrite", wave(FORMAT, listed, sound))
            for form in (b"RF64", b"BW64"):
                self.add("rewrite", wide(form, FORMAT, listed, sound))
        for number in made[1:]:
            self.add_made(made[0], number)

    def add(self, how, old):
        self.olds.append((how, old))

    def add_made(self, kind, number):
        path = os.path.join(self.folder, "made." + kind)
        child = subprocess.run([self.program, "make", path, kind, number], stdin=subprocess.DEVNULL, capture_output=True)
        if child.returncode != 0:
            raise Mismatch(f"make {kind} {number} answers {child.stderr.decode().strip()}")
        self.add("any", read(path))
        os.remove(path)

    def paths(self):
        return [os.path.join(self.folder, f"b{k}.file") for k in range(64)]

    def old(self, k):
        return self.olds[k % len(self.olds)][1]

    def lay(self):
        for k, path in enumerate(self.paths()):
            for companion in (path + ".mej", path + ".met"):
                if os.path.exists(companion):
                    os.remove(companion)
            with open(path, "wb") as file:
                file.write(self.old(k))
        os.sync()

    def start(self):
        return subprocess.Popen(
            [self.program, *self.words, *self.paths()], stdin=subprocess.DEVNULL, stdout=subprocess.PIPE, stderr=subprocess.STDOUT)

    def whole(self):
        """A batch that nobody kills: its seconds. The new files are kept."""
        self.lay()
        begin = time.monotonic()
        child = self.start()
        printed = child.communicate()[0].decode().splitlines()
        seconds = time.monotonic() - begin
        if child.returncode != 0 or printed[-1] != "files 64 done 64":
            raise Mismatch(f"batch answers {child.returncode} {printed[-1]!r}")
        for k, line in enumerate(printed[:-1]):
            how = self.olds[k % len(self.olds)][0]
            if how != "any" and f" done changed {how} essence " not in line:
                raise Mismatch(f"batch prints {line!r}")
        self.news = [read(path) for path in self.paths()]
        return seconds

    def recovered(self, k, path):
        child = subprocess.run([self.program, "recover", path], stdin=subprocess.DEVNULL, capture_output=True)
        if child.returncode != 0:
            raise Mismatch(f"batch: recover of {path} answers {child.returncode}")
        after = read(path)
        if after not in (self.old(k), self.news[k]):
            raise Mismatch(f"batch: {path} is neither its old file nor its new one")
        return after == self.news[k], child.stdout == b"recovered redone\n"

    def runs(self, count):
        longest = sorted(self.whole() for _ in range(3))[1] * 1.1
        tally = dict.fromkeys(["killed", "new", "old", "redone"], 0)
        for _ in range(count):
            self.lay()
            begin = time.monotonic()
            child = self.start()
            time.sleep(max(0.0, begin + random.uniform(0.0, longest) - time.monotonic()))
            child.kill()
            child.communicate()
            tally["killed"] += child.returncode == -9
            for k, path in enumerate(self.paths()):
                new, redone = self.recovered(k, path)
                tally["new" if new else "old"] += 1
                tally["redone"] += redone
        print(f"batch of 64 files, {self.words[1][:4]}: {count} runs of {longest * 1000 / 1.1:.0f} ms, {tally['killed']} killed before the end; "
              f"of all files {tally['redone']} redone; then {tally['old']} old, {tally['new']} new", flush=True)


def all_runs(bench, count):
    sound = random.randbytes(4_000_000)
    description = ["Description=" + "x" * 256]
    title = ["INAM=" + "x" * 256]
    listed = chunk(b"LIST", b"INFO" + chunk(b"INAM", b"Hi\0"))
    room = wave(FORMAT, listed, chunk(b"JUNK", bytes(1016)), chunk(b"data", sound))
    bench.edit("in place, into JUNK", count, room, title, "in-place")
    plain = wave(FORMAT, chunk(b"data", sound))
    new, kept = bench.edit("in place, at the end", count, plain, title, "in-place")
    bench.edit("rewrite", count, plain, description, "rewrite")
    if kept is None:
        print("recover of such a journal: skipped, no run left one over a file that isn't the new one")
    else:
        bench.runs("recover of such a journal", count, "recover", [], kept[0], kept[1], {"new": new})


def main():
    count = int(sys.argv[1]) if len(sys.argv) > 1 else 100
    program = built()
    if len(sys.argv) > 2:
        os.makedirs(sys.argv[2], exist_ok=True)
    folder = tempfile.mkdtemp(prefix=".bench.", dir=sys.argv[2] if len(sys.argv) > 2 else TOP)
    try:
        all_runs(Bench(program, folder), count)
        if b"UnknownCommand" in subprocess.run([program, "batch"], stdin=subprocess.DEVNULL, capture_output=True).stderr:
            print("batch: skipped, the program doesn't know it yet")
        else:
            Batch(program, folder, "INAM", ["avi", "8", "2000"]).runs(count)
            Batch(program, folder, "@nam", ["mov", "8", "2000"]).runs(count)
    except Mismatch as fault:
        print(f"MISMATCH {fault}")
        return 1
    finally:
        shutil.rmtree(folder)
    print("each file is the old one or the new one, byte for byte, with no journal and no work file beside it")
    return 0


if __name__ == "__main__":
    sys.exit(main())
