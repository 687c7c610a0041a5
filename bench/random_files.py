#!/usr/bin/env python3
"""Makes random files by flipping, cutting, repeating and overwriting bytes of good ones of every kind, some with a random journal beside
them, and runs every command on each under a limit of memory (64 MiB) and of time (2 seconds).

Wrong is: a signal, a wait, a status that the program doesn't have, another line than its status has, a file that isn't as it was
where the answer isn't `done` (or a redone journal), a companion that is left, and an edit that is done whose file isn't supported
again. It is a test and no proof. The last line is `N files, M runs, W wrong`; the status is 1 where W isn't 0.

  bench/random_files.py [FILES] [SEED] [FOLDER]     else 10,000 files of the seed 1, in a new folder beside this clone
METAEDIT names a built program; else the script `metaedit` builds it.
"""

import collections
import os
import random
import resource
import shutil
import subprocess
import sys
import tempfile

from crash import built, chunk, read, wave

MEMORY, SECONDS = 64 * 1024 * 1024, 2
FORMAT = chunk(b"fmt ", bytes.fromhex("0100010044ac00008858010002001000"))


# ---- good files


def info(*items):
    return chunk(b"LIST", b"INFO" + b"".join(chunk(name, text + b"\0") for name, text in items))


def waves():
    bext = chunk(b"bext", b"Interview".ljust(256, b"\0") + b"Archive".ljust(64, b"\0") + b"2024-06-01" + b"12:00:00" + bytes(264) + b"A=PCM\r\n")
    yield "wav", wave(FORMAT, chunk(b"data", b"\1\2\3\4"))
    yield "wav", wave(bext, FORMAT, chunk(b"data", bytes(range(64))), info((b"INAM", b"Hi"), (b"IART", b"A. Author")), chunk(b"JUNK", bytes(40)))
    yield "wav", wave(FORMAT, info((b"INAM", b"One")), chunk(b"data", b"abc"), info((b"ICMT", b"Two")), chunk(b"axml", b"<a/>"), chunk(b"iXML", b"<b/>"))
    for name in (b"RF64", b"BW64"):
        sizes = (96).to_bytes(8, "little") + (8).to_bytes(8, "little") + bytes(8) + bytes(4)
        body = b"WAVE" + chunk(b"ds64", sizes) + FORMAT + b"data" + b"\xff" * 4 + b"12345678" + info((b"INAM", b"Hi"))
        yield "wav", name + b"\xff" * 4 + body.replace((96).to_bytes(8, "little"), len(body).to_bytes(8, "little"), 1)


def little(*numbers):
    return b"".join(it.to_bytes(4, "little") for it in numbers)


def avis():
    header = chunk(b"avih", bytes(56))
    stream = lambda *more: chunk(b"LIST", b"strl" + chunk(b"strh", b"vids" + bytes(52)) + chunk(b"strf", bytes(40)) + b"".join(more))
    frames = chunk(b"00dc", b"frame one") + chunk(b"00dc", b"second")
    movi = chunk(b"LIST", b"movi" + frames)
    index = lambda base: chunk(b"idx1", b"00dc" + little(16, base, 9) + b"00dc" + little(16, base + 18, 6))
    named = stream(chunk(b"strn", b"camera\0"), chunk(b"JUNK", bytes(12)))
    yield "avi", chunk(b"RIFF", b"AVI " + chunk(b"LIST", b"hdrl" + header + stream()) + movi)
    yield "avi", chunk(b"RIFF", b"AVI " + chunk(b"LIST", b"hdrl" + header + named) + info((b"INAM", b"Film")) + movi + index(4))
    front = b"AVI " + chunk(b"LIST", b"hdrl" + header + named + stream()) + chunk(b"JUNK", bytes(64))
    yield "avi", chunk(b"RIFF", front + movi + index(8 + len(front) + 12))
    # an OpenDML index in a super index
    def opendml(at):
        entries = b"".join(little(*it) for it in ((at + 20, 9), (at + 38, 6)))
        standard = chunk(b"ix00", (2).to_bytes(2, "little") + b"\0\1" + little(2) + b"00dc" + bytes(12) + entries)
        above = (4).to_bytes(2, "little") + b"\0\0" + little(1) + b"00dc" + bytes(12) + (at + 12 + len(frames)).to_bytes(8, "little")
        head = b"AVI " + chunk(b"LIST", b"hdrl" + header + stream(chunk(b"indx", above + little(len(standard), 2))))
        return head, chunk(b"RIFF", head + chunk(b"LIST", b"movi" + frames + standard) + index(4))
    at = 0
    for _ in range(2):
        head, made = opendml(at)
        at = 8 + len(head)
    yield "avi", made


def big(*numbers):
    return b"".join(it.to_bytes(4, "big") for it in numbers)


def atom(name, *bodies):
    body = b"".join(bodies)
    return big(8 + len(body)) + name + body


def movies():
    kind = atom(b"ftyp", b"qt  ", big(0), b"qt  ")
    def track(at, name=b"stco", wide=4):
        rows = b"".join(it.to_bytes(wide, "big") for it in (at, at + 16))
        entry = big(1) + big(12) + b"raw " + bytes(0)
        table = atom(b"stbl", atom(b"stsd", big(0), entry), atom(b"stts", big(0, 1, 2, 1)), atom(b"stsc", big(0, 1, 1, 1, 1)),
                     atom(b"stsz", big(0, 16, 2)), atom(name, big(0, 2), rows))
        return atom(b"trak", atom(b"tkhd", bytes(84)), atom(b"mdia", atom(b"mdhd", bytes(24)), atom(b"minf", table)))
    texts = atom(b"udta", atom(b"\xa9nam", (4).to_bytes(2, "big") + (0).to_bytes(2, "big") + b"Film"), big(0))
    keys = atom(b"meta", atom(b"hdlr", big(0, 0), b"mdta", bytes(13)), atom(b"keys", big(0, 1), atom(b"mdta", b"com.apple.quicktime.title")),
                atom(b"ilst", big(24 + 4) + big(1) + atom(b"data", big(1, 0), b"Film")))
    media = atom(b"mdat", bytes(range(32)))
    for more in (b"", texts, texts + keys):
        for name, wide in ((b"stco", 4), (b"co64", 8)):
            at = 0
            for _ in range(2):
                moov = atom(b"moov", atom(b"mvhd", bytes(100)), track(at, name, wide), more)
                at = len(kind) + len(moov) + 8
            yield "mov", kind + moov + media
            yield "mov", kind + media + atom(b"moov", atom(b"mvhd", bytes(100)), track(len(kind) + 8, name, wide), more) + atom(b"free", bytes(64))


# ---- random ones


def words_at(content):
    """The places where a size, a count or an identifier may stand."""
    return [it for it in range(0, max(len(content) - 3, 1)) if it % 2 == 0]


def changed(content, chance):
    content = bytearray(content)
    for _ in range(chance.choice((1, 1, 1, 2, 3, 8))):
        if not content:
            return bytes(content)
        at = chance.randrange(len(content))
        end = min(len(content), at + chance.choice((1, 2, 4, 8, 12, 64)))
        way = chance.randrange(8)
        if way == 0:
            content[at] ^= 1 << chance.randrange(8)
        elif way == 1:
            content[at] = chance.randrange(256)
        elif way == 2:
            del content[at:]
        elif way == 3:
            del content[at:end]
        elif way == 4:
            content[at:at] = content[at:end] * chance.choice((1, 2, 30))
        elif way == 5:
            number = chance.choice((0, 1, 7, 8, 0x7FFFFFFF, 0x80000000, 0xFFFFFFFF, 0xFFFFFFFE, len(content), len(content) - at, chance.randrange(300)))
            place = chance.choice(words_at(content))
            content[place:place + 4] = number.to_bytes(4, chance.choice(("little", "big")))
        elif way == 6:
            other = chance.randrange(len(content))
            content[at:end] = content[other:other + end - at]
        else:
            content += bytes(chance.randrange(256) for _ in range(chance.randrange(40)))
    return bytes(content)


def journal(content, chance):
    """A sound journal of the first version over the content, or nearly one."""
    if not content:
        return b"MEJ1"
    at = chance.randrange(len(content))
    patch = bytes(chance.randrange(256) for _ in range(chance.randrange(1, 9)))[:len(content) - at] or b"x"
    at = min(at, len(content) - len(patch))
    body = b"MEJ1" + len(content).to_bytes(8, "little") + len(content).to_bytes(8, "little") + little(1)
    body += at.to_bytes(8, "little") + little(len(patch)) + patch
    return body if chance.random() < 0.5 else changed(body, chance)


# ---- runs


STATUSES = {0: "", 1: "", **{it: "refused %d " % it for it in (2, 3, 4, 5, 7, 8, 9, 10, 11, 12, 13, 14)}}


def limit():
    resource.setrlimit(resource.RLIMIT_AS, (MEMORY, MEMORY))
    resource.setrlimit(resource.RLIMIT_CORE, (0, 0))


def commands(kind, name, chance):
    names = {"wav": ["INAM=Hi", "Description=A new description of some length", "INAM=", "XMP=<x/>"],
             "avi": ["INAM=Hi", "strn:0=second camera", "ICMT=" + "long " * 40, "INAM="],
             "mov": ["@nam=Hi", "key:com.apple.quicktime.title=Hi", "@nam=" + "long " * 40, "@nam="]}[kind]
    edit = chance.choice(names)
    table = ("FileName,%s\r\n%s,%s\r\n" % (edit.partition("=")[0], name, edit.partition("=")[2])).encode()
    yield ["show", name], b""
    yield ["validate", name], b""
    yield ["md5", name], b""
    yield ["export", name, "csv"], b""
    yield ["recover", name], b""
    yield ["apply", name, "csv"], table
    yield ["set", name, edit], b""


def main():
    files = int(sys.argv[1]) if len(sys.argv) > 1 else 10000
    seed = int(sys.argv[2]) if len(sys.argv) > 2 else 1
    parent = sys.argv[3] if len(sys.argv) > 3 else TOP
    program, chance = built(), random.Random(seed)
    good = [*waves(), *avis(), *movies()]
    os.makedirs(parent, exist_ok=True)
    folder = tempfile.mkdtemp(prefix=".bench.", dir=parent)
    wrong, runs, ends = 0, 0, collections.Counter()

    def tell(number, words, why):
        nonlocal wrong
        wrong += 1
        print("WRONG file %d of seed %d: %s: %s" % (number, seed, " ".join(words), why), flush=True)

    def run(words, table=b""):
        return subprocess.run([program, *words], cwd=folder, input=table, capture_output=True, timeout=SECONDS, preexec_fn=limit)

    try:
        for number in range(files):
            kind, content = good[number % len(good)]
            if number >= len(good):
                content = changed(content, chance)
            beside = journal(content, chance) if number >= len(good) and chance.random() < 0.1 else None
            name = "f." + kind
            for words, table in commands(kind, name, chance):
                for it in os.listdir(folder):
                    os.remove(os.path.join(folder, it))
                with open(os.path.join(folder, name), "wb") as file:
                    file.write(content)
                if beside is not None:
                    with open(os.path.join(folder, name + ".mej"), "wb") as file:
                        file.write(beside)
                runs += 1
                try:
                    done = run(words, table)
                except subprocess.TimeoutExpired:
                    tell(number, words, "no end in %d seconds" % SECONDS)
                    continue
                status, said = done.returncode, done.stderr.decode(errors="replace")
                ends[words[0], status] += 1
                if status not in STATUSES or not said.startswith(STATUSES[status]):
                    tell(number, words, "status %d, %r" % (status, said))
                    continue
                left = {it: read(os.path.join(folder, it)) for it in sorted(os.listdir(folder))}
                was = {name: content} if beside is None else {name: content, name + ".mej": beside}
                if left == was:
                    is_edited = done.stdout.startswith(b"done") or "NotBuilt" in said
                    if number < len(good) and words[0] == "set" and not is_edited:
                        tell(number, words, "a good file isn't edited: %r" % said)
                    continue
                if sorted(left) != [name]:
                    tell(number, words, "left %s" % ", ".join(left))
                elif beside is None and not (words[0] in ("set", "apply") and status == 0 and done.stdout.startswith(b"done changed")):
                    tell(number, words, "status %d, and the file is another" % status)
                elif words[0] in ("set", "apply") and status == 0:
                    again = run(["validate", name])
                    if again.returncode not in (0, 1):
                        tell(number, words, "the new file: %r" % again.stderr)
    finally:
        shutil.rmtree(folder)
    for (command, status), count in sorted(ends.items()):
        print("%-9s status %2d: %6d" % (command, status, count))
    print("%d files, %d runs, %d wrong" % (files, runs, wrong))
    return 1 if wrong else 0


TOP = os.path.dirname(os.path.dirname(os.path.abspath(__file__)))

if __name__ == "__main__":
    sys.exit(main())
