#!/usr/bin/env python3
"""What lists of messages cost: memory where a length is a lie, and time where pieces are small.

    bench/messages.py [--size BYTES] [--program PATH] [--asked PATH]

On standard input of the program that lists messages: a good buffer message of so many bytes, and two that tell a header of
4,294,967,295 bytes and a body of 2^63, with as many bytes behind that and then an end. Each peak of memory is at most twice what
arrived and 8 MiB for the program itself. Then a message in pieces of one byte, by the conformance program, at three sizes: the time
grows as the size does. Ends with status 1 where one does not hold. Outside the gate.
"""
import argparse
import multiprocessing
import os
import struct
import subprocess
import sys
import tempfile
import time

sys.dont_write_bytecode = True
sys.path.insert(0, os.path.dirname(os.path.abspath(__file__)))
import streams  # noqa: E402

TOP = os.path.dirname(os.path.dirname(os.path.abspath(__file__)))
BUFFER_KIND = 2
UNEXPECTED_END = 7
PROGRAM_ITSELF = 8 << 20


def header(size):
    """The length and header of a buffer message whose body has so many bytes."""
    head = streams.laid_out(("table", [(1, 0), (1, BUFFER_KIND), (0, ("table", [(1, 0)])), (8, size)]))
    return struct.pack("<I", len(head)) + head


def write(path, front, size):
    """Writes a stream. In a process of its own, whose memory does not count."""
    with open(path, "wb") as stream:
        stream.write(front + bytes(size))


def run(program, path):
    """The status and the peak of memory of one run."""
    with open(path, "rb") as source:
        child = subprocess.Popen([program], stdin=source, stdout=subprocess.DEVNULL, stderr=subprocess.DEVNULL)
        _, status, usage = os.wait4(child.pid, 0)
    child.returncode = os.waitstatus_to_exitcode(status)
    return child.returncode, usage.ru_maxrss * 1024


def main():
    words = argparse.ArgumentParser()
    words.add_argument("--size", type=int, default=64 << 20)
    words.add_argument("--program", default=os.path.join(TOP, "crates/vortex_messages/out/vortex_messages"))
    words.add_argument("--asked", default=os.path.join(TOP, "crates/vortex_conformance/out/vortex_conformance"))
    given = words.parse_args()
    bad = False
    for name, front, wanted in [
        ("good", header(given.size), 0),
        ("header of 2^32 - 1", struct.pack("<I", 2**32 - 1), UNEXPECTED_END),
        ("body of 2^63", header(2**63), UNEXPECTED_END),
    ]:
        with tempfile.TemporaryDirectory() as folder:
            path = os.path.join(folder, "stream")
            writer = multiprocessing.Process(target=write, args=(path, front, given.size))
            writer.start()
            writer.join()
            status, peak = run(given.program, path)
        came = len(front) + given.size
        holds = status == wanted and peak <= 2 * came + PROGRAM_ITSELF
        bad |= not holds
        print(f"{name}: status {status}, {peak / came:.2f} bytes of memory a byte{'' if holds else ': NOT AS IT SHOULD BE'}")
    times = []
    for size in (1 << 18, 1 << 19, 1 << 20):
        question = b"messages 1 " + (header(size) + bytes(size)).hex().encode() + b"\n"
        begin = time.monotonic()
        subprocess.run([given.asked], input=question, stdout=subprocess.DEVNULL, check=True)
        times.append(time.monotonic() - begin)
        print(f"{size} bytes, one a piece: {times[-1]:.3f} s")
    bad |= times[2] > 6 * times[0]
    return bad


if __name__ == "__main__":
    sys.exit(main())
