#!/usr/bin/env python3
"""The evaluation program on a session, from its start to its end: the time, and the most memory that it held.

    python3 bench/program.py SHEET PROGRAM...     each program reads the sheet on standard input
"""

import os
import statistics
import sys
import time

RUNS = 300


def started(program, sheet, output):
    actions = [(os.POSIX_SPAWN_OPEN, 0, sheet, os.O_RDONLY, 0), (os.POSIX_SPAWN_DUP2, output, 1)]
    return os.posix_spawn(program, [program], os.environ, file_actions=actions)


def ended(child, program):
    _, status = os.waitpid(child, 0)
    if status != 0:
        raise SystemExit(f"{program}: status {status}")


def seconds(program, sheet, output):
    began = time.perf_counter()
    ended(started(program, sheet, output), program)
    return time.perf_counter() - began


def field(child, name):
    with open(f"/proc/{child}/status") as status:
        return next(line for line in status if line.startswith(name)).split()[1]


def full_pipe():
    """A pipe that takes no byte more, so that a program waits where it writes its line."""
    reader, writer = os.pipe()
    os.set_blocking(writer, False)
    try:
        while True:
            os.write(writer, bytes(4096))
    except BlockingIOError:
        os.set_blocking(writer, True)
    return reader, writer


def peak(program, sheet):
    """The kilobytes of the largest resident set up to where the line is written.

    The usage that a wait reports would count this process too."""
    reader, writer = full_pipe()
    child = started(program, sheet, writer)
    os.close(writer)
    while field(child, "State:") != "S":
        time.sleep(0.001)
    memory = int(field(child, "VmHWM:"))
    while os.read(reader, 65536):
        pass
    os.close(reader)
    ended(child, program)
    return memory


def main(sheet, programs):
    nowhere = os.open(os.devnull, os.O_WRONLY)
    times = {program: [] for program in programs}
    for _ in range(RUNS):
        for program in programs:
            times[program].append(seconds(program, sheet, nowhere))
    print(f"{'program':<44}{'median':>10}{'least':>10}{'memory':>12}")
    for program, found in times.items():
        print(f"{program:<44}{statistics.median(found) * 1000:>7.2f} ms{min(found) * 1000:>7.2f} ms"
              f"{peak(program, sheet):>9} KB")


if __name__ == "__main__":
    main(sys.argv[1], sys.argv[2:])
