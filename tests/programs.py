#!/usr/bin/env python3
"""programs.py [PROGRAM]..: runs the programs where reading and writing go wrong, and where there is much of both.

No proof says what a program reads and writes. The programs are crates/NAME/out/NAME, by tools/run-program: `stamps` and
`replay`, which answer lines, and `try_loss`, which reads nothing. What fails they say on standard error, and end with status 1.
The last line says what was run; the status is 0 where all was right.
"""

import contextlib
import errno
import os
import re
import resource
import signal
import socket
import struct
import subprocess
import sys
import tempfile
import threading
import time

ROOT = os.path.dirname(os.path.dirname(os.path.abspath(__file__)))
RUN = os.path.join(ROOT, "tools", "run-program")
SECONDS = 120
# What a program that answers lines is asked: a good question and its answer.
GOOD = {"stamps": (b"d 1 2162688", b"315532800 0"), "replay": (b"decode 1 2162688", b"315532800 0")}
PROGRAMS = (*GOOD, "try_loss")
IN, OUT = "standard input", "standard output"
# More blocks, of a block's size and of a few bytes, than any count that somebody might take for endless.
LINES = 600_000
PIECES = 70_000

ran = []


class Wrong(Exception):
    pass


# ---- what a run leaves

class Left:
    """What a program wrote and said, and its status."""

    def __init__(self, status, wrote, said):
        self.status, self.wrote, self.said = status, wrote, said


def need(held, what, left=None):
    if not held:
        end = "" if left is None else f": status {left.status}, wrote {left.wrote[-200:]!r}, said {left.said[-400:]!r}"
        raise Wrong(what + end)


def named(name, side, error):
    """The line that names what failed."""
    return f"{name}: {side}: {os.strerror(error)} (os error {error})\n".encode()


def needs_said(left, name, side, error):
    """The line, and once: the program said it and ended with status 1. An emulator may say something of its own."""
    need(left.said.count(named(name, side, error)) == 1, f"not said once: {side}: {os.strerror(error)}", left)
    need(left.status == 1, "it did not end with status 1", left)


def needs_quiet(left, name):
    need(not re.search(rf"^{name}: ".encode(), left.said, re.M), "something was said", left)


def start(name, **files):
    return subprocess.Popen([RUN, name], **files)


def finished(program, said, wrote=b""):
    try:
        status = program.wait(SECONDS)
    except subprocess.TimeoutExpired:
        program.kill()
        program.wait()
        raise Wrong(f"it did not end in {SECONDS} seconds") from None
    said.seek(0)
    return Left(status, wrote, said.read())


def run(name, given, **options):
    """A run on an open file, and what it left."""
    with tempfile.TemporaryFile() as wrote, tempfile.TemporaryFile() as said:
        left = finished(start(name, stdin=given, stdout=wrote, stderr=said, **options), said)
        wrote.seek(0)
        left.wrote = wrote.read()
        return left


@contextlib.contextmanager
def holding(data):
    with tempfile.TemporaryFile() as file:
        file.write(data)
        file.seek(0)
        yield file


@contextlib.contextmanager
def opened(path, flags):
    number = os.open(path, flags)
    try:
        yield number
    finally:
        os.close(number)


def asked(name, lines):
    """So many lines as a program is asked them, and the answers."""
    if name not in GOOD:
        return b"", None
    question, answer = GOOD[name]
    return (question + b"\n") * lines, (answer + b"\n") * lines


# ---- writing

def full_disk(name):
    """Nothing can be written: that is said, and the program ends, with much left to read."""
    data, _ = asked(name, 200_000)
    with holding(data) as given, opened("/dev/full", os.O_WRONLY) as full, tempfile.TemporaryFile() as said:
        left = finished(start(name, stdin=given, stdout=full, stderr=said), said)
        needs_said(left, name, OUT, errno.ENOSPC)
        # The position of the input is the program's too: it has not gone on reading.
        need(name not in GOOD or given.tell() < len(data), "it read to the end", left)


def full_at_last_line(name):
    """The same for the last line, which lacks its LF."""
    with holding(GOOD[name][0]) as given, opened("/dev/full", os.O_WRONLY) as full, tempfile.TemporaryFile() as said:
        needs_said(finished(start(name, stdin=given, stdout=full, stderr=said), said), name, OUT, errno.ENOSPC)


def full_later(name):
    """Room for some bytes: what was written before stays, and is the start of the answers. Standard error is a pipe, where
    the limit does not hold."""
    room = 100
    data, answers = asked(name, 2000)

    def limit():
        signal.signal(signal.SIGXFSZ, signal.SIG_IGN)
        resource.setrlimit(resource.RLIMIT_FSIZE, (room, room))

    with holding(data) as given, tempfile.TemporaryFile() as wrote:
        read, write = os.pipe()
        program = start(name, stdin=given, stdout=wrote, stderr=write, preexec_fn=limit)
        os.close(write)
        with os.fdopen(read, "rb") as said, holding(said.read()) as kept:
            left = finished(program, kept)
        wrote.seek(0)
        left.wrote = wrote.read()
    needs_said(left, name, OUT, errno.EFBIG)
    need(len(left.wrote) == room, "it did not write what there is room for", left)
    need(answers is None or answers.startswith(left.wrote), "what was written is not the start of the answers", left)


def no_output(name):
    """Standard output is closed."""
    data, _ = asked(name, 3)
    with holding(data) as given, tempfile.TemporaryFile() as said:
        program = start(name, stdin=given, stderr=said, preexec_fn=lambda: os.close(1))
        needs_said(finished(program, said), name, OUT, errno.EBADF)


def reader_gone(name, ignored, read_first):
    """A reader that goes away, or was gone before the first write, ends the program: by the signal, or with status 1 where
    that is ignored, which is quiet."""
    data, _ = asked(name, 200_000)
    with holding(data) as given, tempfile.TemporaryFile() as said:
        read, write = os.pipe()
        if not read_first:
            os.close(read)
        program = start(name, stdin=given, stdout=write, stderr=said, restore_signals=not ignored)
        os.close(write)
        if read_first:
            need(os.read(read, 10), "nothing was written")
            os.close(read)
        left = finished(program, said)
    need(left.status in ((1,) if ignored else (1, -signal.SIGPIPE)), "it did not end as it should", left)
    needs_quiet(left, name)


# ---- reading

def directory(name):
    """A read fails: that is said, and nothing is answered."""
    with opened("/", os.O_RDONLY) as given:
        left = run(name, given)
    needs_said(left, name, IN, errno.EISDIR)
    need(left.wrote == b"", "it answered", left)


def no_input(name):
    """Standard input is closed."""
    left = run(name, None, preexec_fn=lambda: os.close(0))
    needs_said(left, name, IN, errno.EBADF)
    need(left.wrote == b"", "it answered", left)


def read_fails_later(name):
    """A read that fails after some lines: they are answered, and a line that is cut off is not."""
    question, answer = GOOD[name]
    near, far = socket.socketpair()
    near.setsockopt(socket.SOL_SOCKET, socket.SO_RCVTIMEO, struct.pack("ll", 1, 0))
    with near, far:
        far.sendall((question + b"\n") * 3 + question[:-1])
        left = run(name, near)
    needs_said(left, name, IN, errno.EAGAIN)
    need(left.wrote == (answer + b"\n") * 3, "not the answers to what was read whole", left)


def stop_and_go(program):
    """A few times, each while the program waits."""
    for _ in range(3):
        time.sleep(0.1)
        program.send_signal(signal.SIGSTOP)
        time.sleep(0.1)
        program.send_signal(signal.SIGCONT)
    time.sleep(0.1)


def interrupted(name):
    """A read that a signal interrupts is made again. Where a time is set for it, a stop and a going on interrupt a read."""
    question, answer = GOOD[name]
    near, far = socket.socketpair()
    near.setsockopt(socket.SOL_SOCKET, socket.SO_RCVTIMEO, struct.pack("ll", SECONDS, 0))
    with tempfile.TemporaryFile() as said, near, far:
        program = start(name, stdin=near, stdout=subprocess.PIPE, stderr=said)
        near.close()
        half = len(question) // 2
        wrote = b""
        # A program that has ended takes nothing more.
        with contextlib.suppress(BrokenPipeError, ConnectionResetError):
            for _ in range(3):
                far.sendall(question + b"\n" + question[:half])
                wrote += program.stdout.readline()
                stop_and_go(program)
                far.sendall(question[half:] + b"\n")
                wrote += program.stdout.readline()
        far.close()
        wrote += program.stdout.read()
        program.stdout.close()
        left = finished(program, said, wrote)
    needs_quiet(left, name)
    need(left.status == 0 and left.wrote == (answer + b"\n") * 6, "not six answers", left)


def without_lf(name):
    """The last line may lack its LF, in a file and in a pipe, alone and behind another; no bytes are no line."""
    question, answer = GOOD[name]
    for lines in range(3):
        data = b"\n".join([question] * lines)
        ended = (question + b"\n") * lines
        for given, more in ((data, b""), (ended, b""), (ended + b"x", b"bad line\n")):
            with holding(given) as file:
                left = run(name, file)
            need(left.wrote == (answer + b"\n") * lines + more, f"not the answers to {given!r}", left)
            needs_quiet(left, name)
            need(piped(name, [given]) == left.wrote, f"not the answers to {given!r} in a pipe")


def bad_lines(name):
    """Each bad line is answered, an empty one too."""
    question, answer = GOOD[name]
    data = b"\n\nx\n" + question + b"\n \n" + question + b" \n\r\n" + b"y" * 40_000 + b"\n" + question + b"\n\0"
    bad = b"bad line\n"
    with holding(data) as given:
        left = run(name, given)
    need(left.wrote == bad * 3 + answer + b"\n" + bad * 4 + answer + b"\n" + bad, "not the answers", left)


def piped(name, pieces):
    """What a program writes to a pipe when it reads another, in pieces."""
    with tempfile.TemporaryFile() as said:
        program = start(name, stdin=subprocess.PIPE, stdout=subprocess.PIPE, stderr=said)

        def give():
            with contextlib.suppress(BrokenPipeError):
                for piece in pieces:
                    program.stdin.write(piece)
                    program.stdin.flush()
            with contextlib.suppress(BrokenPipeError):
                program.stdin.close()

        giver = threading.Thread(target=give)
        giver.start()
        wrote = program.stdout.read()
        program.stdout.close()
        giver.join()
        left = finished(program, said, wrote)
    needs_quiet(left, name)
    need(left.status == 0, "it did not end by itself", left)
    return wrote


def many_blocks(name):
    """Much input through a pipe, and very many small blocks, are answered to the end."""
    data, answers = asked(name, LINES)
    need(piped(name, [data]) == answers, f"not the answers to {LINES} lines")
    question, answer = GOOD[name]
    pieces = [question[:3], question[3:] + b"\n"] * PIECES
    need(one_by_one(name, pieces) == (answer + b"\n") * PIECES, f"not the answers to {2 * PIECES} blocks")


def one_by_one(name, pieces):
    """As `piped`, and each piece is read by itself: a packet of a socket is never read together with the next."""
    near, far = socket.socketpair(socket.AF_UNIX, socket.SOCK_SEQPACKET)
    with tempfile.TemporaryFile() as said, tempfile.TemporaryFile() as wrote:
        program = start(name, stdin=near, stdout=wrote, stderr=said)
        near.close()
        with far, contextlib.suppress(BrokenPipeError, ConnectionResetError):
            for piece in pieces:
                far.send(piece)
        left = finished(program, said)
        needs_quiet(left, name)
        wrote.seek(0)
        return wrote.read()


# ---- all

def tests(name):
    yield "a full disk", lambda: full_disk(name)
    yield "a disk that gets full", lambda: full_later(name)
    yield "no output", lambda: no_output(name)
    for ignored in (False, True):
        yield f"a reader that goes away, the signal ignored: {ignored}", lambda: reader_gone(name, ignored, True)
        yield f"no reader, the signal ignored: {ignored}", lambda: reader_gone(name, ignored, False)
    if name in GOOD:
        yield "a full disk at the last line", lambda: full_at_last_line(name)
        yield "a directory", lambda: directory(name)
        yield "no input", lambda: no_input(name)
        yield "a read that fails later", lambda: read_fails_later(name)
        yield "reads that are interrupted", lambda: interrupted(name)
        yield "a last line without its LF", lambda: without_lf(name)
        yield "bad lines", lambda: bad_lines(name)
        yield "many blocks", lambda: many_blocks(name)


def main():
    began = time.monotonic()
    names = sys.argv[1:] or PROGRAMS
    for name in names:
        for what, test in tests(name):
            try:
                test()
            except Wrong as wrong:
                raise SystemExit(f"programs: {name}: {what}: {wrong}") from None
            ran.append(what)
    print(f"programs: {', '.join(names)}: {len(ran)} runs right, {time.monotonic() - began:.0f} s")


main()
