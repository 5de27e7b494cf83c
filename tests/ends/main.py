"""Runs a program whose source breaks off after each number of bytes in turn, and whose sink takes each number of bytes and no more.

It is run on an example, and its report is checked. Where the source breaks off, be it behind the last byte, the status is 4 and nothing is
written. Where the sink is full the status is 5, and it has the beginning of what is to be written. A source that breaks is a socket that is
reset, and a sink that is full is a file that may not grow.

Ends with 1 if a run ended otherwise.
"""

import argparse
import os
import pathlib
import resource
import signal
import socket
import subprocess
import sys
import tempfile

TOP = pathlib.Path(__file__).resolve().parents[2]
EXAMPLE = TOP / "examples/two-overlapping-writes.json"
READ_FAULT, WRITE_FAULT = 4, 5
TIMEOUT = 600


def arguments():
    parser = argparse.ArgumentParser(prog="tests/ends/run", description=__doc__.split("\n", maxsplit=1)[0])
    parser.add_argument(
        "--program", default=TOP / "crates/wgsim/out/wgsim", help="runs as PROGRAM run < SCRIPT, and as PROGRAM check < REPORT"
    )
    parser.add_argument("--every", type=int, default=1, help="tries each number of bytes that is a multiple of this one, and the greatest")
    return parser.parse_args()


def broken_off(program, words, given):
    """The status and what is written where a source gives some bytes, and then a fault."""
    mine, other = socket.socketpair()
    with mine:
        # The end of a socket of which bytes are left unread is a reset, which is read behind the bytes that were given.
        mine.sendall(b"x")
        other.sendall(given)
        other.close()
        run = subprocess.run(
            [program, *words], stdin=mine.fileno(), stdout=subprocess.PIPE, stderr=subprocess.DEVNULL, timeout=TIMEOUT, check=False
        )
    return run.returncode, run.stdout


def filled(program, words, data, room):
    """The status and what was taken where a sink takes so many bytes and no more."""
    def limit():
        signal.signal(signal.SIGXFSZ, signal.SIG_IGN)
        resource.setrlimit(resource.RLIMIT_FSIZE, (room, room))

    with tempfile.TemporaryFile() as sink:
        run = subprocess.run(
            [program, *words], input=data, stdout=sink, stderr=subprocess.DEVNULL, timeout=TIMEOUT, preexec_fn=limit, check=False
        )
        sink.seek(0)
        return run.returncode, sink.read()


def tried(program, every):
    """What each run is, how it ended, and how it is to end."""
    script, report = EXAMPLE.read_bytes(), EXAMPLE.with_suffix(".report").read_bytes()
    for words, data, text in (
        (["run"], script, report),
        (["check"], report, b"agrees\n"),
        (["gen", "1", "1"], b"", b"entries 21 ops 2 faults 0 frees 8\n"),
    ):
        said = " ".join(words)
        for count in sorted({*range(0, len(data), every), len(data)}) if data else []:
            yield f"{said}, of which {count} bytes are read", broken_off(program, words, data[:count]), (READ_FAULT, b"")
        for room in sorted({*range(0, len(text), every), len(text) - 1}):
            yield f"{said}, of which {room} bytes are written", filled(program, words, data, room), (WRITE_FAULT, text[:room])
        yield f"{said}, of which all is written", filled(program, words, data, len(text)), (0, text)


def main():
    words = arguments()
    program = os.path.abspath(words.program)
    if not os.access(program, os.X_OK):
        sys.exit(f"{program} is not there: `./wgsim prove` builds it")
    count, wrong = 0, 0
    for what, found, wanted in tried(program, words.every):
        count += 1
        if found != wanted:
            wrong += 1
            print(f"{what}: the status is {found[0]} and is to be {wanted[0]}, and written is {found[1][:200]!r}")
    print(f"{count} runs with failing ends: {wrong} wrong")
    sys.exit(1 if wrong else 0)


main()
