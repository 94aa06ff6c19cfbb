#!/usr/bin/env python3
"""Runs the proved program and the yardstick over damaged streams, and compares status, output and note.

    bench/damage.py [--program PATH]

The streams are every prefix of one of two arrays, the same with each byte changed in several ways, and a few with pieces of
others put in. Outside the gate: it needs rustc. Prints each difference, and last how many streams were alike.
"""
import argparse
import os
import random
import subprocess
import sys
import tempfile

sys.dont_write_bytecode = True
sys.path.insert(0, os.path.dirname(os.path.abspath(__file__)))
import bench  # noqa: E402
import streams  # noqa: E402

WORDS = ["select", ".", "ge", "i64:2"]
SPLICES = 500


def damaged(whole):
    """Pairs of a name and a stream."""
    for length in range(len(whole) + 1):
        yield f"prefix {length}", whole[:length]
    for place in range(len(whole)):
        old = whole[place]
        for new in sorted({0, 1, 4, 255, old ^ 1, old ^ 128, (old + 4) % 256, (old - 1) % 256} - {old}):
            yield f"byte {place} {new}", whole[:place] + bytes([new]) + whole[place + 1:]
    source = random.Random(1)
    for number in range(SPLICES):
        first, second, third = (source.randrange(len(whole)) for _ in range(3))
        length = source.randrange(1, 64)
        yield f"splice {number}", whole[:first] + whole[second:second + length] + whole[third:]


def answer(program, stream):
    done = subprocess.run([program] + WORDS, input=stream, stdout=subprocess.PIPE, stderr=subprocess.PIPE, timeout=60)
    return done.returncode, done.stdout, done.stderr


def main():
    arguments = argparse.ArgumentParser(description=__doc__, formatter_class=argparse.RawDescriptionHelpFormatter)
    arguments.add_argument("--program", default=bench.PROGRAM)
    program = os.path.abspath(arguments.parse_args().program)
    if not os.access(program, os.X_OK):
        sys.exit("the program is not built: run bin/vortex once")
    alike, unlike = 0, 0
    with tempfile.TemporaryDirectory() as folder:
        yardstick = bench.build_yardstick(folder)
        if not yardstick:
            sys.exit("nothing to compare with")
        for name, stream in damaged(streams.stream([[1, 2, 3], [4]])):
            ours, plain = answer(program, stream), answer(yardstick, stream)
            if ours == plain:
                alike += 1
                continue
            unlike += 1
            print(f"{name}: status {ours[0]} and {plain[0]}, output {len(ours[1])} and {len(plain[1])} bytes, note {ours[2]} and {plain[2]}")
    print(f"{alike} streams alike, {unlike} not")
    sys.exit(1 if unlike else 0)


if __name__ == "__main__":
    main()
