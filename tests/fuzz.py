#!/usr/bin/env python3
"""fuzz.py [SEED]: feeds the line program what nobody would write, and holds each answer to tests/reference.py.

The program is crates/stamps/out/stamps, by tools/run-program. Lines are good ones, damaged ones, random bytes, lines of every
length from 0 to 130 and numbers around the ends of machine numbers; input comes as a file, in blocks of any size, and in
two blocks cut at every place. A reader of the answers is late once, and goes away once. The same seed gives the same bytes.
The last line says what was run; the status is 0 where all was right.
"""

import collections
import fcntl
import os
import platform
import random
import select
import signal
import socket
import struct
import subprocess
import sys
import tempfile
import termios
import time

import reference

ROOT = os.path.dirname(os.path.dirname(os.path.abspath(__file__)))
PROGRAM = [os.path.join(ROOT, "tools", "run-program"), "stamps"]
LINES = 400_000
ENDS = 0, 16, 1 << 16, 1 << 31, 1 << 32, 1 << 62, 1 << 63, 1 << 64, 10 ** 9, 10 ** 18, 10 ** 19, 10 ** 20
ODD_BYTES = b" ", b"-", b"+", b"0", b"9", b"/", b":", b"\t", b"\r", b"\0", b"\xff", b"D"
SECONDS = 60
# How far apart the memory of two runs may be. An emulator, where the machine is no x86-64, takes some of its own.
KILOBYTES_APART = 1024 if platform.machine() == "x86_64" else 4096

tally = collections.Counter()
memory = []


# ---- lines

def edge(rng):
    """A number around the end of a machine number, or of what a line may hold."""
    return rng.choice((-1, 1)) * (rng.choice(ENDS) + rng.randint(-2, 2))


def number_text(rng, n):
    """A number as a line may write it: plainly, or with leading zeros up to 19 digits and a little past them."""
    if rng.random() < 0.9:
        return b"%d" % n
    sign = b"-" if n < 0 or (n == 0 and rng.random() < 0.5) else b""
    return sign + (b"%d" % abs(n)).rjust(rng.choice((18, 19, 19, 20)), b"0")


def good_instant(rng):
    layout = rng.randint(1, 16)
    kind = rng.randrange(6)
    if layout == 16 or kind == 0:
        seconds = rng.randint(-(1 << 47), 1 << 47) if layout == 16 else rng.randint(reference.FIRST - 9, reference.LAST + 9)
    elif layout == 15:
        seconds = rng.randint(-1_770_359_300, 2_524_608_005)
    else:
        first, last = reference.YEARS[layout]
        low = reference.seconds_of(max(first, 1), 1, 1, 0, 0, 0)
        high = reference.seconds_of(min(last, 9998), 12, 31, 23, 59, 59)
        seconds = rng.choice((low, high)) + rng.randint(-2, 2) if kind == 1 else rng.randint(low, high)
    nanos = rng.choice((0, 999_999_999, rng.randrange(10 ** 9), rng.randrange(10 ** 9)))
    return layout, seconds, nanos


def word_of(rng):
    """A word of a layout: one that an instant has, that word with a bit or a zone changed, or any bits."""
    layout, seconds, nanos = good_instant(rng)
    try:
        word = reference.encode(layout, seconds, nanos)
    except reference.Refused:
        word = rng.getrandbits(rng.randint(1, 63))
    kind = rng.randrange(6)
    if layout == 14 and kind > 2:
        word = word & ~255 | rng.randrange(256)
    elif kind == 0:
        word ^= 1 << rng.randrange(63)
    elif kind == 1:
        word = rng.getrandbits(rng.randint(1, 63)) * rng.choice((1, 1, -1))
    return layout, word


def good(rng):
    if rng.random() < 0.5:
        return b"d %s %s" % tuple(number_text(rng, n) for n in word_of(rng))
    return b"e %s %s %s" % tuple(number_text(rng, n) for n in good_instant(rng))


def at_an_edge(rng):
    count = rng.choice((2, 3))
    numbers = [rng.randint(0, 17), *(rng.randint(-5, 5) for _ in range(count - 1))]
    for _ in range(rng.randint(1, count)):
        numbers[rng.randrange(count)] = edge(rng)
    return b"de"[count - 2:count - 1] + b"".join(b" " + number_text(rng, n) for n in numbers)


def damaged(rng):
    line = bytearray(good(rng))
    for _ in range(rng.choice((1, 1, 1, 2, 3))):
        place = rng.randrange(len(line) + 1)
        byte = rng.choice((*ODD_BYTES, rng.randbytes(1)))
        kind = rng.randrange(4)
        if kind == 0:
            line[place:place] = byte
        elif kind == 1:
            line[place:place + 1] = byte
        elif kind == 2:
            del line[place:place + 1]
        else:
            line += rng.choice((b" ", b"\r", b"\0", b" 0", b"0"))
    return bytes(line)


def of_length(rng, length):
    alphabet = rng.choice((b"0123456789", b"d e0123456789-", b" ", b"\0\r", bytes(range(256))))
    line = bytes(rng.choice(alphabet) for _ in range(length))
    head = rng.choice((b"d ", b"e ", b"d 1 ", b""))
    return (head + line)[:length]


def random_bytes(rng):
    return rng.randbytes(rng.randrange(131))


def lines(rng, count):
    """Lines by turns, each of which may hold an LF of its own."""
    made = [of_length(rng, length) for length in range(131) for _ in range(4)]
    while len(made) < count:
        made.append(rng.choice((good, good, good, at_an_edge, damaged, damaged, random_bytes))(rng))
    rng.shuffle(made)
    return made[:count]


# ---- runs

def blocks(rng, data):
    """Cuts data into blocks of very different sizes."""
    at = 0
    while at < len(data):
        size = rng.choice((rng.randint(1, 80), rng.randint(1, 5000), rng.randint(60_000, 70_000), 65_536))
        yield data[at:at + size]
        at += size


def drained(pipe):
    """Waits until all that was written to a pipe has been read, so that the next write is a block of its own."""
    until = time.monotonic() + SECONDS
    while struct.unpack("i", fcntl.ioctl(pipe, termios.FIONREAD, b"\0" * 4))[0]:
        if time.monotonic() > until:
            raise SystemExit("fuzz: the program does not read its input")


def most_memory(pid):
    """The most memory that a running program has had so far, in kilobytes."""
    with open(f"/proc/{pid}/status") as status:
        return next(int(line.split()[1]) for line in status if line.startswith("VmHWM:"))


def run(data, parts=None):
    """What the program writes: for data as a file, or for parts, none of them empty, as blocks that are read one by one."""
    with tempfile.TemporaryFile() as written, tempfile.TemporaryFile() as given:
        if parts is None:
            given.write(data)
            given.seek(0)
        program = subprocess.Popen(PROGRAM, stdin=given if parts is None else subprocess.PIPE, stdout=written)
        if parts is not None:
            for part in parts:
                program.stdin.write(part)
                program.stdin.flush()
                drained(program.stdin)
            memory.append(most_memory(program.pid))
            program.stdin.close()
        if program.wait(SECONDS) != 0:
            raise SystemExit(f"fuzz: the program ended with status {program.returncode}")
        written.seek(0)
        return written.read()


def hold(what, data, got):
    """Stops at the first answer that differs."""
    wanted = reference.output(data)
    if got != wanted:
        pairs = zip(data.split(b"\n"), wanted.split(b"\n"), got.split(b"\n"))
        first = next((pair for pair in pairs if pair[1] != pair[2]), ("the end", len(wanted), len(got)))
        raise SystemExit(f"fuzz: {what}: {first[0]!r}: wanted {first[1]!r}, got {first[2]!r}")
    for answer in wanted.split(b"\n")[:-1]:
        tally[answer.decode() if answer.startswith((b"bad", b"refused")) else "answered"] += 1


def short_writes(data):
    """A reader that is late: a write to a socket that has little room times out with some bytes written, and the rest of
    the answers have to follow."""
    near, far = socket.socketpair()
    near.setsockopt(socket.SOL_SOCKET, socket.SO_SNDBUF, 4096)
    near.setsockopt(socket.SOL_SOCKET, socket.SO_SNDTIMEO, struct.pack("ll", 1, 0))
    with tempfile.TemporaryFile() as given:
        given.write(data)
        given.seek(0)
        program = subprocess.Popen(PROGRAM, stdin=given, stdout=near)
        near.close()
        select.select([far], [], [], SECONDS)
        time.sleep(1.2)
        got = b"".join(iter(lambda: far.recv(1 << 20), b""))
        far.close()
        program.wait(SECONDS)
    hold("short writes", data, got)


def reader_gone(data, ignored):
    """A reader that goes away ends the program, which says nothing, by the signal or, where that is ignored, with status 1."""
    with tempfile.TemporaryFile() as given, tempfile.TemporaryFile() as said:
        given.write(data)
        given.seek(0)
        program = subprocess.Popen(PROGRAM, stdin=given, stdout=subprocess.PIPE, stderr=said, restore_signals=not ignored)
        program.stdout.read(100)
        program.stdout.close()
        status = program.wait(SECONDS)
        said.seek(0)
        if status not in ((1,) if ignored else (1, -signal.SIGPIPE)) or said.read():
            raise SystemExit(f"fuzz: a reader that goes away: status {status}")


def main():
    seed = int(sys.argv[1]) if len(sys.argv) > 1 else 20260302
    rng = random.Random(seed)
    began = time.monotonic()

    hold("no input", b"", run(b""))
    hold("an LF", b"\n", run(b"\n"))
    for length in range(131):
        line = of_length(rng, length)
        hold("one line", line, run(line, [line]) if length % 8 == 1 else run(line))

    first = b"\n".join(lines(rng, LINES // 2))
    hold("a file", first, run(first))
    second = b"\n".join(lines(rng, LINES - LINES // 2)) + b"\n"
    hold("blocks", second, run(second, blocks(rng, second)))

    chosen = b"d 1 2162688", b"", b"0" * 64, b"0" * 65, b"e 16 -2208988800 5000000", b"1" * 130
    text = b"\n".join((*chosen, *lines(rng, 40))) + b"\n"
    cuts = [part for k in range(len(text) + 1) for part in (text[:k], text[k:]) if part]
    hold("two blocks, cut at every place", text * (len(text) + 1), run(b"", cuts))
    hold("a byte at a time", text, run(b"", [text[k:k + 1] for k in range(len(text))]))

    long_line = b"7" * 8_000_000
    hold("a line of 8 MB", long_line, run(b"", [long_line]))
    short_writes(first[:200_000])
    reader_gone(first, False)
    reader_gone(first, True)

    if max(memory) - min(memory) > KILOBYTES_APART:
        raise SystemExit(f"fuzz: the program took from {min(memory)} to {max(memory)} KB of memory, by its input")
    missing = [kind for kind in ("answered", "bad line", *(f"refused {n}" for n in range(1, 10))) if not tally[kind]]
    if missing:
        raise SystemExit(f"fuzz: no line had one of these answers: {missing}")
    print("fuzz: " + ", ".join(f"{kind} {count}" for kind, count in sorted(tally.items())))
    print(
        f"fuzz: seed {seed}, {sum(tally.values())} lines right, {len(cuts)} blocks cut at every place, "
        f"{min(memory)} to {max(memory)} KB of memory, {time.monotonic() - began:.0f} s"
    )


main()
