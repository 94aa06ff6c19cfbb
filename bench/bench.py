#!/usr/bin/env python3
"""Times the proved program over streams of growing size, beside the yardstick in plain Rust.

    bench/bench.py [--sizes 1000,10000,..] [--repeat N] [--program PATH]

For each size it prints rows per second, the growth of the time from the size before, the peak memory, and the ratio of the
program's time to the yardstick's: the best of N runs each, taken in turns on the same bytes, whose outputs must be equal. Where
valgrind is at hand it prints the instructions per row of both. The yardstick is left out where there is no rustc.
"""
import argparse
import filecmp
import os
import random
import re
import shutil
import subprocess
import sys
import tempfile
import time
from array import array

sys.dont_write_bytecode = True
HERE = os.path.dirname(os.path.abspath(__file__))
sys.path.insert(0, HERE)
import streams  # noqa: E402

PROGRAM = os.path.join(HERE, "..", "crates", "vortex", "out", "vortex")
ROWS_PER_ARRAY = 65_536
COUNTED_ROWS = 100_000
WORDS = ["select", ".", "ge", "i64:0"]  # about half of random rows


def write_stream(path, rows):
    source = random.Random(rows)
    with open(path, "wb") as file:
        file.write(streams.type_message())
        for first in range(0, rows, ROWS_PER_ARRAY):
            count = min(ROWS_PER_ARRAY, rows - first)
            file.write(streams.array_message(array("q", source.randbytes(8 * count))))


def run_once(program, stream, output):
    """The seconds and the peak memory in bytes of one run from file to file."""
    with open(stream, "rb") as source, open(output, "wb") as sink, open(output + ".note", "wb") as note:
        begin = time.perf_counter()
        child = subprocess.Popen([program] + WORDS, stdin=source, stdout=sink, stderr=note)
        _, status, usage = os.wait4(child.pid, 0)
        seconds = time.perf_counter() - begin
        child.returncode = os.waitstatus_to_exitcode(status)
    if child.returncode != 0:
        sys.exit(f"{program} {' '.join(WORDS)}: status {child.returncode} on {stream}")
    return seconds, usage.ru_maxrss * 1024


def best_of(programs, stream, outputs, repeat):
    """The best time and the peak memory of each program, run in turns."""
    best = [(float("inf"), 0)] * len(programs)
    for _ in range(repeat):
        for number, (program, output) in enumerate(zip(programs, outputs)):
            seconds, memory = run_once(program, stream, output)
            best[number] = (min(best[number][0], seconds), max(best[number][1], memory))
    return best


def instructions(program, stream):
    with open(stream, "rb") as source:
        done = subprocess.run(["valgrind", "--tool=callgrind", "--callgrind-out-file=/dev/null", program] + WORDS,
                              stdin=source, stdout=subprocess.DEVNULL, stderr=subprocess.PIPE, text=True)
    found = re.search(r"Collected\s*:\s*(\d+)", done.stderr)
    return int(found[1]) if found else None


def build_yardstick(folder):
    if not shutil.which("rustc"):
        print("no rustc: the program alone")
        return None
    path = os.path.join(folder, "yardstick")
    subprocess.run(["rustc", "-O", "--edition", "2021", "-o", path, os.path.join(HERE, "yardstick.rs")], check=True)
    return path


def time_sizes(programs, sizes, repeat, folder):
    stream, outputs = os.path.join(folder, "stream"), [os.path.join(folder, f"output-{n}") for n in range(len(programs))]
    before = None
    print(f"{'rows':>10} {'seconds':>9} {'rows/s':>12} {'growth':>7} {'memory':>8} {'of stream':>9} {'ratio':>6}")
    for rows in sizes:
        write_stream(stream, rows)
        best = best_of(programs, stream, outputs, repeat)
        for output in outputs[1:]:
            for name in ("", ".note"):
                if not filecmp.cmp(outputs[0] + name, output + name, shallow=False):
                    sys.exit(f"outputs differ at {rows} rows")
        seconds, memory = best[0]
        growth = f"{seconds / before:.2f}" if before else "-"
        ratio = f"{seconds / best[1][0]:.2f}" if len(best) > 1 else "-"
        of_stream = f"{memory / os.path.getsize(stream):.2f}"
        print(f"{rows:>10} {seconds:>9.4f} {rows / seconds:>12.0f} {growth:>7} {memory / 2**20:>5.1f} MB {of_stream:>9} {ratio:>6}",
              flush=True)
        before = seconds


def count_instructions(programs, names, folder):
    """Instructions per row, without those of a run on no rows."""
    if not shutil.which("valgrind"):
        print("no valgrind: no instructions counted")
        return
    stream, empty = os.path.join(folder, "counted"), os.path.join(folder, "empty")
    write_stream(stream, COUNTED_ROWS)
    write_stream(empty, 0)
    counted = {}
    for program, name in zip(programs, names):
        on_rows, on_none = instructions(program, stream), instructions(program, empty)
        if on_rows is None or on_none is None:
            print(f"no instructions counted for the {name}")
            return
        counted[name] = (on_rows - on_none) / COUNTED_ROWS
    told = ", ".join(f"{name} {number:.1f}" for name, number in counted.items())
    ratio = f", ratio {counted['program'] / counted['yardstick']:.2f}" if "yardstick" in counted else ""
    print(f"instructions per row at {COUNTED_ROWS} rows: {told}{ratio}")


def main():
    arguments = argparse.ArgumentParser(description=__doc__, formatter_class=argparse.RawDescriptionHelpFormatter)
    arguments.add_argument("--sizes", default="1000,10000,100000,1000000,10000000")
    arguments.add_argument("--repeat", type=int, default=7)
    arguments.add_argument("--program", default=PROGRAM)
    chosen = arguments.parse_args()
    if not os.access(chosen.program, os.X_OK):
        sys.exit("the program is not built: run bin/vortex once")
    with tempfile.TemporaryDirectory() as folder:
        yardstick = build_yardstick(folder)
        programs = [os.path.abspath(chosen.program)] + ([yardstick] if yardstick else [])
        floor = run_once("/bin/true", "/dev/null", os.path.join(folder, "floor"))[1]
        print(f"{' '.join(WORDS)}; best of {chosen.repeat}; memory below {floor / 2**20:.1f} MB is not seen")
        time_sizes(programs, [int(size) for size in chosen.sizes.split(",")], chosen.repeat, folder)
        count_instructions(programs, ["program", "yardstick"], folder)


if __name__ == "__main__":
    main()
