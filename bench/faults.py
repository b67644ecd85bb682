#!/usr/bin/env python3
"""The evaluation program under faults of its input and output.

    python3 bench/faults.py PROGRAM SHIM     SHIM is bench/faults.c as a shared library

Prints a line for each case, and fails if one differs from what is expected:

    a fault of reading       nothing on standard output, one line on standard error that names the error
    a fault of writing       no whole line on standard output, one line on standard error that names the error
    standard error closed    the same, but without the line on standard error
    no fault                 the reckoner's line, however slowly, in whatever pieces and with whatever interruptions
    any word                 nothing on standard output, one line on standard error that points to standard input

The real faults come from the system; the shim adds those that it cannot be made to give at every place.
"""

import errno
import fcntl
import os
import pty
import re
import resource
import select
import signal
import socket
import struct
import subprocess
import sys
import tempfile
import termios
import threading
import time
from contextlib import contextmanager
from functools import partial
from pathlib import Path
from typing import Callable, NamedTuple

from program import field, full_pipe

sys.path.insert(0, str(Path(__file__).resolve().parent.parent / "tools"))
import reckon  # noqa: E402
import sheets  # noqa: E402

if len(sys.argv) != 3:
    sys.exit(__doc__)
PROGRAM, SHIM = map(os.path.abspath, sys.argv[1:])
LONGEST = 5  # seconds: a program that takes longer does not end

WORKED = sheets.worked_sheet()
FULL = sheets.sheet(sheets.vehicle(), (sheets.worked_runs() * 52)[:1022])  # 1,024 records
OVER = FULL + b"\0"
TRUSTED = re.compile(rb"(OK( [0-9]+){13}|REFUSED [0-9]+ [0-9]+)\n")


class Outcome(NamedTuple):
    out: bytes
    err: bytes
    status: object  # 0, less the number of the signal that ended it, or words


class Case(NamedTuple):
    name: str
    expected: Callable  # whether an outcome is as expected
    runs: list  # each starts the program and gives its outcome


# What is expected. The exit status is always 0.

def line_of(sheet):
    return reckon.line(sheet).encode() + b"\n"


def is_message(err, words):
    """Whether standard error has one line with these words."""
    return words.encode() in err and err.endswith(b"\n") and err.count(b"\n") == 1


def prints(sheet):
    """The line of a sheet and nothing else."""
    line = line_of(sheet)
    return lambda found: found == (line, b"", 0) and TRUSTED.fullmatch(found.out)


def fails(error):
    return lambda found: found.out == b"" and is_message(found.err, os.strerror(error)) and found.status == 0


def stops_within(sheet, error):
    """A line cut short, of which no reader takes a figure."""
    line = line_of(sheet)
    return lambda found: (line.startswith(found.out) and not TRUSTED.match(found.out)
                          and is_message(found.err, os.strerror(error)) and found.status == 0)


def points_to_standard_input(found):
    return found.out == b"" and is_message(found.err, "standard input") and found.status == 0


def says_nothing(found):
    return found == (b"", b"", 0)


# Starting and ending the program.

def start(stdin, words=(), stdout=subprocess.PIPE, **more):
    return subprocess.Popen([PROGRAM, *words], stdin=stdin, stdout=stdout, stderr=subprocess.PIPE, **more)


def ended(child):
    try:
        out, err = child.communicate(timeout=LONGEST)
        return Outcome(out or b"", err, child.returncode)
    except subprocess.TimeoutExpired:
        child.kill()
        out, err = child.communicate()
        return Outcome(out or b"", err, f"no end in {LONGEST} seconds")


def until(holds):
    """Waits for a condition, but no longer than a program may take."""
    limit = time.monotonic() + LONGEST
    while not holds() and time.monotonic() < limit:
        time.sleep(0.0005)


def is_waiting(child):
    """Whether a program sleeps, which it does only where it reads or writes, or has ended."""
    return field(child.pid, "State:") in "SZ"


def closed(*descriptors):
    """For a program that is started with these closed."""
    return lambda: [os.close(descriptor) for descriptor in descriptors]


def file_of(content):
    file = tempfile.TemporaryFile()
    file.write(content)
    file.seek(0)
    return file


def run(content, **more):
    with file_of(content) as file:
        return ended(start(file, **more))


@contextmanager
def opened(path, flags):
    """The descriptor of a file, opened as it is said."""
    descriptor = os.open(path, flags)
    try:
        yield descriptor
    finally:
        os.close(descriptor)


def run_on(path, flags=os.O_RDONLY, **more):
    with opened(path, flags) as descriptor:
        return ended(start(descriptor, **more))


def stepped(content, reads=(), writes=()):
    """A run under the shim: in turn so many bytes, or an error if the number is negative."""
    return run(content, env={"LD_PRELOAD": SHIM, "READ_STEPS": " ".join(map(str, reads)),
                             "WRITE_STEPS": " ".join(map(str, writes))})


# Input.

def in_pieces(content, size, pause):
    """The input by a pipe; the program must not speak before its end."""
    reader, writer = os.pipe()
    child = start(reader)
    for at in range(0, len(content), size):
        os.write(writer, content[at:at + size])
        time.sleep(pause)
    early = bool(select.select([child.stdout], [], [], 0)[0])
    os.close(writer)
    os.close(reader)
    found = ended(child)
    return found._replace(status="a line before the end of input") if early else found


def endless_pipe():
    with subprocess.Popen(["yes"], stdout=subprocess.PIPE) as source:
        found = ended(start(source.stdout))
        source.kill()
    return found


def with_ends(ends, stdin, **more):
    """A run with one of two open ends as its input."""
    found = ended(start(ends[stdin], **more))
    for end in ends:
        os.close(end)
    return found


def empty_pipe(**more):
    """A pipe that stays open and has nothing in it."""
    return with_ends(os.pipe(), 0, **more)


def empty_pipe_without_waiting():
    return empty_pipe(preexec_fn=lambda: os.set_blocking(0, False))


def terminal(**more):
    return with_ends(pty.openpty(), 1, **more)


def bytes_left(connection):
    return struct.unpack("i", fcntl.ioctl(connection, termios.FIONREAD, bytes(4)))[0]


def connected():
    with socket.create_server(("127.0.0.1", 0)) as server:
        near = socket.create_connection(server.getsockname())
        return near, server.accept()[0]


def reset(connection):
    """Closes a connection so that the other side's read fails, once, after the bytes that have arrived."""
    connection.setsockopt(socket.SOL_SOCKET, socket.SO_LINGER, struct.pack("ii", 1, 0))
    connection.close()


def reset_beforehand(content):
    """A connection that is reset before the program reads from it."""
    near, far = connected()
    with far:
        near.sendall(content)
        until(lambda: bytes_left(far) == len(content))
        reset(near)
        return ended(start(far))


def reset_while_waiting(content):
    """A connection that is reset when the program has read all and waits for more."""
    near, far = connected()
    with far:
        child = start(far)
        near.sendall(content)
        until(lambda: bytes_left(far) == 0 and is_waiting(child))
        reset(near)
        return ended(child)


# Interruptions. A call that waits on a socket with a time limit is interrupted by a stop and a continue; no handler is needed.

def stop_and_continue(child):
    os.kill(child.pid, signal.SIGSTOP)
    until(lambda: field(child.pid, "State:") == "T")
    os.kill(child.pid, signal.SIGCONT)
    until(lambda: is_waiting(child))


def pair_with_limit(option):
    """Two ends, the second with a time limit for its reads or writes."""
    near, far = socket.socketpair()
    far.setsockopt(socket.SOL_SOCKET, option, struct.pack("ll", 60, 0))
    return near, far


def interrupted_read(content, before):
    """A read is interrupted after so many bytes."""
    near, far = pair_with_limit(socket.SO_RCVTIMEO)
    with far:
        child = start(far)
        near.sendall(content[:before])
        until(lambda: bytes_left(far) == 0 and is_waiting(child))
        stop_and_continue(child)
        near.sendall(content[before:])
        near.close()
        return ended(child)


def fill(connection):
    """Writes until nothing more goes in; returns how many bytes did."""
    connection.setblocking(False)
    count = 0
    try:
        while True:
            count += connection.send(bytes(1))
    except BlockingIOError:
        connection.setblocking(True)
        return count


def all_from(read, child):
    """What a program writes, by its reader's reads, up to its end; one that takes too long is ended."""
    limit = threading.Timer(LONGEST, child.kill)
    limit.start()
    out = b"".join(iter(lambda: read(65536), b""))
    limit.cancel()
    return out


def interrupted_write():
    near, far = pair_with_limit(socket.SO_SNDTIMEO)
    filled = fill(far)
    with near, file_of(WORKED) as file:
        child = start(file, stdout=far)
        far.close()
        until(lambda: is_waiting(child))
        stop_and_continue(child)
        out = all_from(near.recv, child)[filled:]
        return ended(child)._replace(out=out)


# Output.

def into(path, flags):
    with opened(path, flags) as output:
        return run(WORKED, stdout=output)


def pipe_without_reader(**more):
    reader, writer = os.pipe()
    os.close(reader)
    with open(writer, "wb") as output:
        return run(WORKED, stdout=output, **more)


def full_pipe_without_waiting():
    reader, writer = full_pipe()
    os.set_blocking(writer, False)
    with open(reader), open(writer, "wb") as output:
        return run(WORKED, stdout=output)


def full_pipe_emptied_later():
    reader, writer = full_pipe()
    with file_of(WORKED) as file, open(reader, "rb", buffering=0) as source:
        child = start(file, stdout=writer)
        os.close(writer)
        until(lambda: is_waiting(child))
        out = all_from(source.read, child).lstrip(b"\0")
        return ended(child)._replace(out=out)


def limited_file(size):
    """A file that may not grow past a size: the write that reaches it is short, and the next one fails."""
    with tempfile.TemporaryFile() as file:
        found = run(WORKED, stdout=file, restore_signals=False,
                    preexec_fn=lambda: resource.setrlimit(resource.RLIMIT_FSIZE, (size, size)))
        file.seek(0)
        return found._replace(out=file.read())


# The cases.

def after(count, error):
    """Steps of the shim: so many bytes, then one failure."""
    return [count, -error] if count else [-error]


def at_each_place(error):
    return [partial(stepped, WORKED, after(count, error)) for count in range(len(WORKED) + 1)]


def reading_cases():
    yield Case("closed", fails(errno.EBADF), [partial(run, WORKED, preexec_fn=closed(0))])
    yield Case("open for writing only", fails(errno.EBADF), [partial(run_on, "/dev/null", os.O_WRONLY)])
    yield Case("a directory", fails(errno.EISDIR), [partial(run_on, "/")])
    yield Case("a directory, standard error closed", says_nothing, [partial(run_on, "/", preexec_fn=closed(2))])
    yield Case("an empty pipe that does not wait", fails(errno.EAGAIN), [empty_pipe_without_waiting])
    for reset_connection in (reset_beforehand, reset_while_waiting):
        for content in (b"", WORKED[:1], WORKED[:333], WORKED, FULL, OVER):
            yield Case(f"a connection {reset_connection.__name__.replace('_', ' ')}, after {len(content)} bytes",
                       prints(OVER) if content == OVER else fails(errno.ECONNRESET),
                       [partial(reset_connection, content)])
    yield Case(f"EIO once, at each of {len(WORKED) + 1} places", fails(errno.EIO), at_each_place(errno.EIO))
    for error in (errno.EAGAIN, errno.ECONNRESET, errno.ETIMEDOUT, errno.ENOMEM):
        yield Case(f"{errno.errorcode[error]} once, after 32, 333 and 704 bytes", fails(error),
                   [partial(stepped, WORKED, after(count, error)) for count in (32, 333, 704)])
    yield Case("EIO after an interruption", fails(errno.EIO),
               [partial(stepped, WORKED, (*after(333, errno.EINTR), -errno.EIO))])
    yield Case(f"EIO once, after {len(FULL)} bytes", fails(errno.EIO),
               [partial(stepped, FULL, after(len(FULL), errno.EIO))])
    yield Case(f"EIO once, after {len(OVER)} bytes", prints(OVER),
               [partial(stepped, OVER, after(len(OVER), errno.EIO))])


def patience_cases():
    yield Case("single bytes with pauses", prints(WORKED), [partial(in_pieces, WORKED, 1, 0.001)])
    yield Case("pieces of 31, 33 and 100 bytes with pauses", prints(WORKED),
               [partial(in_pieces, WORKED, size, 0.01) for size in (31, 33, 100)])
    yield Case("1,024 records in pieces of 4,097 bytes", prints(FULL), [partial(in_pieces, FULL, 4097, 0.01)])
    yield Case("reads of 1, 31, 33 and 333 bytes", prints(WORKED),
               [partial(stepped, WORKED, [size] * len(WORKED)) for size in (1, 31, 33, 333)])
    yield Case("an end after 333 bytes", prints(WORKED[:333]), [partial(in_pieces, WORKED[:333], 100, 0.01)])
    yield Case("an endless file", prints(OVER), [partial(run_on, "/dev/zero")])
    yield Case("an endless pipe", prints(OVER), [endless_pipe])
    yield Case("a read interrupted after 0, 1, 333 and 704 bytes", prints(WORKED),
               [partial(interrupted_read, WORKED, count) for count in (0, 1, 333, 704)])
    yield Case(f"EINTR once, at each of {len(WORKED) + 1} places", prints(WORKED), at_each_place(errno.EINTR))
    yield Case("EINTR before every byte, and 1,000 times", prints(WORKED),
               [partial(stepped, WORKED, (-errno.EINTR, 1) * len(WORKED)),
                partial(stepped, WORKED, (333, *[-errno.EINTR] * 1000))])


def writing_cases():
    line = line_of(WORKED)
    yield Case("closed", fails(errno.EBADF), [partial(run, WORKED, preexec_fn=closed(1))])
    yield Case("closed, standard error too", says_nothing, [partial(run, WORKED, preexec_fn=closed(1, 2))])
    yield Case("open for reading only", fails(errno.EBADF), [partial(into, "/dev/null", os.O_RDONLY)])
    yield Case("full", fails(errno.ENOSPC), [partial(into, "/dev/full", os.O_WRONLY)])
    yield Case("a pipe without a reader", fails(errno.EPIPE), [pipe_without_reader])
    yield Case("a pipe without a reader, its signal ignored", fails(errno.EPIPE),
               [partial(pipe_without_reader, restore_signals=False)])
    yield Case("a full pipe that does not wait", fails(errno.EAGAIN), [full_pipe_without_waiting])
    yield Case("a full pipe, emptied later", prints(WORKED), [full_pipe_emptied_later])
    yield Case(f"a file that may not grow past 0, 10 and {len(line) - 1} bytes", stops_within(WORKED, errno.EFBIG),
               [partial(limited_file, size) for size in (0, 10, len(line) - 1)])
    yield Case("a write interrupted", prints(WORKED), [interrupted_write])
    yield Case("writes of single bytes", prints(WORKED), [partial(stepped, WORKED, writes=[1] * len(line))])
    yield Case("EINTR before every byte", prints(WORKED),
               [partial(stepped, WORKED, writes=(-errno.EINTR, 1) * len(line))])
    for sheet in (WORKED, WORKED[:333]):
        line = line_of(sheet)
        yield Case(f"EIO once, at each of {len(line)} places of its line", stops_within(sheet, errno.EIO),
                   [partial(stepped, sheet, writes=after(count, errno.EIO)) for count in range(len(line))])


def word_cases():
    for words in (["my.sheet"], ["a", "b"], [""], ["-"], ["--help"]):
        yield Case(f"{words}", points_to_standard_input, [partial(run, WORKED, words=words)])
    for name, source in (("an empty pipe", empty_pipe), ("a terminal", terminal)):
        yield Case(f"a word, and {name}", points_to_standard_input, [partial(source, words=["my.sheet"])])
    for descriptor, name in enumerate(("input", "output")):
        yield Case(f"a word, standard {name} closed", points_to_standard_input,
                   [partial(run, WORKED, words=["my.sheet"], preexec_fn=closed(descriptor))])


PARTS = (("input", reading_cases), ("slow or interrupted input", patience_cases), ("output", writing_cases),
         ("words", word_cases))


def differences(case):
    """The outcomes that are not as expected."""
    return [found for found in (run() for run in case.runs) if not case.expected(found)]


def main():
    cases = differing = 0
    for part, cases_of in PARTS:
        for case in cases_of():
            different = differences(case)
            cases, differing = cases + 1, differing + bool(different)
            print(f"{'DIFFERS' if different else 'as expected':<13}{part}: {case.name}", flush=True)
            if different:
                print(f"{'':<13}{len(different)} of {len(case.runs)}; the first: {different[0]}", flush=True)
    print(f"{cases - differing} cases as expected, {differing} differ")
    return 1 if differing else 0


if __name__ == "__main__":
    sys.exit(main())
