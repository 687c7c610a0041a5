#!/usr/bin/env python3
"""Gives the same edit, a title, to this program and to each peer that is installed, on copies of the same files, and prints a table: the
time and the memory of the edit, which parts of the file are still there, whether what decodes is the same, and what stands after
kills at random moments. What is compared is what happened on one machine; docs/COMPARISON.md has such a table.

  bench/peers.py [MIB] [KILLS] [FOLDER]     files of MIB (else 64) of essence, KILLS (else 20) of each; FOLDER on the disk to be used
Needs ffmpeg, for the files and for decoding. METAEDIT names a built program; else the script `metaedit` builds it.
"""

import collections
import hashlib
import os
import random
import re
import shutil
import subprocess
import sys
import tempfile
import time

from crash import TOP, built, chunk, read

TITLE = "A new title, longer than the one before"

# what an edit of a title may change: fields, padding, and numbers that follow the essence
LOOSE = {b"JUNK", b"PAD ", b"FLLR", b"free", b"skip", b"wide", b"LIST/INFO", b"udta", b"meta", b"id3 ", b"ID3 ", b"_PMX", b"uuid",
         b"stco", b"co64", b"idx1", b"indx", b"ds64", b"bext"}
OPENED = {b"moov", b"trak", b"mdia", b"minf", b"stbl", b"dinf", b"edts"}


def riff_parts(content, at, end):
    while at + 8 <= end:
        name, size = content[at:at + 4], int.from_bytes(content[at + 4:at + 8], "little")
        body = content[at + 8:min(at + 8 + size, end)]
        if name in (b"LIST", b"RIFF") and body[:4] != b"movi":
            if body[:4] == b"INFO":
                yield b"LIST/INFO", body
            else:
                yield from riff_parts(content, at + 12, at + 8 + len(body))
        else:
            yield name, body
        at += 8 + size + size % 2


def atom_parts(content, at, end):
    while at + 8 <= end:
        size, name, head = int.from_bytes(content[at:at + 4], "big"), content[at + 4:at + 8], 8
        if size == 1:
            size, head = int.from_bytes(content[at + 8:at + 16], "big"), 16
        size = end - at if size == 0 else max(size, head)
        if name in OPENED:
            yield from atom_parts(content, at + head, min(at + size, end))
        else:
            yield name, content[at + head:at + size]
        at += size


def parts(path):
    """How often each part that an edit must keep stands in a file, by its name and its bytes."""
    content = read(path)
    found = riff_parts(content, 0, len(content)) if content[:4] == b"RIFF" else atom_parts(content, 0, len(content))
    return collections.Counter((name, hashlib.md5(body).hexdigest()) for name, body in found if name not in LOOSE)


def decoded(path):
    """What each stream of a file decodes to, by ffmpeg, or None."""
    done = subprocess.run(["ffmpeg", "-v", "error", "-i", path, "-map", "0", "-f", "streamhash", "-hash", "md5", "-"], capture_output=True, text=True)
    return None if done.returncode else done.stdout


# the path of the clock, once it is built
PLAIN = []


# ---- the files


def ffmpeg(*words):
    subprocess.run(["ffmpeg", "-v", "error", "-y", *words], check=True, stdin=subprocess.DEVNULL)


def wave_file(path, mib):
    sound = random.Random(1).randbytes(1 << 20) * mib
    form = chunk(b"fmt ", bytes.fromhex("0100020080bb000000ee020004001000"))
    bext = chunk(b"bext", b"Interview".ljust(256, b"\0") + b"Archive".ljust(64, b"\0") + b"2024-06-0112:00:00" + bytes(264) + b"A=PCM\r\n")
    listed = chunk(b"LIST", b"INFO" + chunk(b"INAM", b"Old\0") + chunk(b"IARL", b"Shelf 7\0"))
    cue = chunk(b"cue ", (1).to_bytes(4, "little") + bytes(24))
    body = b"WAVE" + bext + form + cue + chunk(b"data", sound) + listed + chunk(b"axml", b"<a/>") + chunk(b"abcd", b"of another program")
    with open(path, "wb") as file:
        file.write(chunk(b"RIFF", body))


def film(path, mib):
    seconds = max(1, mib * (1 << 20) // (25 * 320 * 240 * 2))
    sources = ["-f", "lavfi", "-i", "testsrc=size=320x240:rate=25", "-f", "lavfi", "-i", "sine=frequency=440:sample_rate=48000"]
    fast = ["-movflags", "+faststart"] if path.endswith(".mov") else []
    ffmpeg(*sources, "-t", str(seconds), "-c:v", "rawvideo", "-pix_fmt", "yuyv422", "-c:a", "pcm_s16le", "-metadata", "title=Old", *fast, path)


# ---- the programs


def through(command):
    """A program that writes another file, which then takes the name, as its users do by hand."""
    return lambda path: ["sh", "-c", command + ' && mv -f "$0.out${0##*f}" "$0"', path]


def programs(program):
    own = lambda name: lambda path: [program, "set", path, name + "=" + TITLE]
    of_kid3 = lambda path: ["kid3-cli", "-c", "set title '%s'" % TITLE, path]
    # (its command line sets only plain properties, and a title is a list of languages)
    of_exempi = lambda path: ["exempi", "-w", "-s", "xmp:Label", "-v", TITLE, path]
    of_exiftool = lambda path: ["exiftool", "-q", "-overwrite_original", "-Title=" + TITLE, path]
    of_ffmpeg = through('ffmpeg -v error -y -i "$0" -map 0 -c copy -metadata title="%s" "$0.out${0##*f}" </dev/null' % TITLE)
    mutagen = "import sys,mutagen; f=mutagen.File(sys.argv[1],easy=%s); f.tags is None and f.add_tags(); %s; f.save()"
    yield "metaedit", {"wav": own("INAM"), "avi": own("INAM"), "mov": own("@nam")}, [program]
    yield "exiftool", dict.fromkeys(("wav", "avi", "mov"), of_exiftool), ["exiftool", "-ver"]
    yield "exempi", dict.fromkeys(("wav", "avi", "mov"), of_exempi), ["dpkg-query", "-W", "exempi"]
    yield "ffmpeg", dict.fromkeys(("wav", "avi", "mov"), of_ffmpeg), ["ffmpeg", "-version"]
    yield "kid3-cli", dict.fromkeys(("wav", "avi", "mov"), of_kid3), ["dpkg-query", "-W", "kid3-cli"]
    wave_text = mutagen % ("False", "from mutagen.id3 import TIT2; f.tags.add(TIT2(3,'%s'))" % TITLE)
    film_text = mutagen % ("True", "f['title']='%s'" % TITLE)
    yield "mutagen", {"wav": lambda path: ["/usr/bin/python3", "-c", wave_text, path], "mov": lambda path: ["/usr/bin/python3", "-c", film_text, path]}, \
        ["dpkg-query", "-W", "python3-mutagen"]
    yield "sndfile-metadata-set", {"wav": lambda path: ["sndfile-metadata-set", "--str-title", TITLE, path]}, ["dpkg-query", "-W", "sndfile-programs"]
    yield "sox", {"wav": through('sox "$0" --comment "Title=%s" "$0.out${0##*f}"' % TITLE)}, ["sox", "--version"]
    yield "AtomicParsley", {"mov": lambda path: ["AtomicParsley", path, "--title", TITLE, "--overWrite"]}, ["dpkg-query", "-W", "atomicparsley"]


def run(words):
    """Whether a run ends well, what it says, its seconds, and its memory in MiB (with what it starts), by the clock of bench/plain.c."""
    done = subprocess.run([PLAIN[0], "run", *words], stdin=subprocess.DEVNULL, stdout=subprocess.PIPE, stderr=subprocess.PIPE, text=True)
    lines = done.stderr.strip().split("\n")
    seconds, memory = lines[-1].split()[:2]
    return done.returncode == 0, (done.stdout + "\n".join(lines[:-1])).strip(), float(seconds), int(memory) / 1024


def killed(words, seconds):
    child = subprocess.Popen(words, stdin=subprocess.DEVNULL, stdout=subprocess.DEVNULL, stderr=subprocess.DEVNULL, start_new_session=True)
    time.sleep(seconds)
    try:
        os.killpg(child.pid, 9)
    except ProcessLookupError:
        pass
    child.wait()


def row(name, make, good, folder, program, kills):
    kind = good.rsplit(".", 1)[1]
    path = os.path.join(folder, "f." + kind)

    def lay():
        for it in os.listdir(folder):
            os.remove(os.path.join(folder, it))
        shutil.copyfile(good, path)

    lay()
    shown = decoded(good)
    is_done, said, seconds, memory = run(make(path))
    if not is_done or read(path) == read(good):
        why = re.sub(r"\s+", " ", said.replace(folder, "").replace("|", "/"))[:70] or "nothing is said"
        return "| %s | %s | no edit: %s | | | | |" % (kind, name, why)
    was, now = parts(good), parts(path)
    lost = was - now
    kept = "all %d" % sum(was.values())
    if lost:
        kept = "%d of %d, lost %s" % (sum(was.values()) - sum(lost.values()), sum(was.values()), ", ".join(sorted(it[0].decode("latin-1") for it in lost)))
    same = "the same" if decoded(path) == shown else "OTHER"
    whole, other, beside = 0, 0, 0
    for _ in range(kills):
        lay()
        killed(make(path), random.uniform(0, seconds))
        if name == "metaedit":
            run([program, "recover", path])
        is_whole = os.path.exists(path) and decoded(path) == shown
        whole += is_whole
        other += not is_whole
        beside += len(os.listdir(folder)) > 1
    left = "%d whole, %d damaged; %d with files left" % (whole, other, beside)
    return "| %s | %s | %.3f s | %.1f MiB | %s | %s | %s |" % (kind, name, seconds, memory, kept, same, left)


def main():
    mib = int(sys.argv[1]) if len(sys.argv) > 1 else 64
    kills = int(sys.argv[2]) if len(sys.argv) > 2 else 20
    program = built()
    if not shutil.which("ffmpeg"):
        print("skipped: ffmpeg isn't here")
        return 0
    top = tempfile.mkdtemp(prefix=".bench.", dir=sys.argv[3] if len(sys.argv) > 3 else TOP)
    try:
        folder = os.path.join(top, "f")
        os.mkdir(folder)
        PLAIN.append(os.path.join(top, "plain"))
        subprocess.run(["cc", "-O2", "-o", PLAIN[0], os.path.join(TOP, "bench", "plain.c")], check=True)
        goods = [os.path.join(top, "good." + it) for it in ("wav", "avi", "mov")]
        wave_file(goods[0], mib)
        film(goods[1], mib)
        film(goods[2], mib)
        print("| kind | program | time | memory | parts kept | decodes to | after %d kills |" % kills)
        print("|---|---|---|---|---|---|---|")
        versions = []
        for name, makes, version in programs(program):
            tool = {"metaedit": program, "mutagen": "mid3v2"}.get(name, name)
            if not shutil.which(tool):
                versions.append("%s isn't here" % name)
                continue
            if name != "metaedit":
                said = subprocess.run(version, capture_output=True, text=True, stdin=subprocess.DEVNULL)
                versions.append("%s: %s" % (name, (said.stdout + said.stderr).strip().split("\n")[0]))
            for good in goods:
                kind = good.rsplit(".", 1)[1]
                if kind in makes:
                    print(row(name, makes[kind], good, folder, program, kills), flush=True)
                else:
                    print("| %s | %s | doesn't edit this kind | | | | |" % (kind, name), flush=True)
        print()
        print("\n".join(versions))
    finally:
        shutil.rmtree(top)
    return 0


if __name__ == "__main__":
    sys.exit(main())
