#!/usr/bin/env python3
"""Times the proved program over hostile streams, beside a good one of their size.

    bench/hostile.py [--size BYTES] [--repeat N] [--program PATH]

For each stream it prints the status, the time (the best of N runs, in turns with those on a good stream of one array), the peak
memory, and how many times those of the good stream they are. Ends with status 1 where that is above 4, or where a status is not
the one that docs/FORMATS.md asks for. Outside the gate.
"""
import argparse
import multiprocessing
import os
import random
import struct
import subprocess
import sys
import tempfile
import time
from array import array

sys.dont_write_bytecode = True
sys.path.insert(0, os.path.dirname(os.path.abspath(__file__)))
import bench  # noqa: E402
import streams  # noqa: E402

MOST = 4
MOST_NAMES = 65_536
SELECTED, UNBUILT = 0, 10
BODY_SIZE_AT, ROWS_AT = 36, 64  # in the message of an array


def ready(layout, content):
    """The place of an item whose bytes are there already."""
    at = layout.begin()
    layout.bytes += content
    return at


streams.Layout.ready = ready
PLAIN_NAMES = ("offsets", [("text", streams.PLAIN)])
TYPE = streams.type_message()


def random_bytes(size):
    return random.Random(size).randbytes(size)


def rows_message(count):
    return streams.array_message(array("q", random_bytes(8 * count)))


def message(names=PLAIN_NAMES, metadata=b"", descriptors=b"\1\0\0\0" + bytes(8), region=b"", rows=0):
    """An array by a vector of descriptors that is given as its bytes, whose first buffer has the rows."""
    node = ("table", [(2, 0), (0, ("raw", metadata)), (0, ("offsets", [])), (0, ("numbers", [0]))])
    flat = streams.laid_out(("table", [(0, node), (0, ("ready", descriptors))]))
    return streams.message(1, ("table", [(4, rows), (0, names)]), region + flat + struct.pack("<I", len(flat)))


def shared_names(count, text=streams.PLAIN):
    """So many names, each an offset to one text."""
    offsets = struct.pack(f"<{count}I", *range(4 * count, 0, -4))
    return "ready", struct.pack("<I", count) + offsets + struct.pack("<I", len(text)) + text + b"\0"


def short_message():
    """An array without rows in 141 bytes: no padding, no field that may be absent, and one vector for descriptors and buffers."""
    header = struct.pack("<I6HiIQB", 16, 12, 17, 0, 16, 4, 8, 12, 21, 60, 1)
    header += struct.pack("<4HiI", 8, 8, 0, 4, 8, 4) + struct.pack("<3I", 1, 4, len(streams.PLAIN)) + streams.PLAIN
    flat = struct.pack("<I4HiII", 12, 8, 12, 4, 8, 8, 20, 24) + struct.pack("<6HiI", 12, 8, 0, 0, 0, 4, 12, 4)
    flat += struct.pack("<IQ", 1, 0)
    return struct.pack("<I", len(header)) + header + flat + struct.pack("<I", len(flat))


def patched(content, at, piece):
    return content[:at] + piece + content[at + len(piece):]


def filled(size, piece, last=b""):
    """A type, as many of the piece as there is room for, and the last."""
    return TYPE + piece * ((size - len(TYPE) - len(last)) // len(piece)) + last


def one_array(size):
    return TYPE + rows_message((size - 340) // 8)


def descriptors_of_one_byte(size):
    count = size // 9 - 100
    descriptors = struct.pack("<IQ", count, 8 << 32) + struct.pack("<Q", 1 << 32) * (count - 1)
    return TYPE + message(descriptors=descriptors, region=bytes(8 + count - 1), rows=1)


def descriptors_of_no_byte(size):
    count = size // 8 - 100
    return TYPE + message(descriptors=struct.pack("<I", count) + bytes(8 * count))


def long_name(size):
    return TYPE + message(shared_names(MOST_NAMES, b"v" * (size - 4 * MOST_NAMES - 500)))


def whole_header(size):
    header = streams.laid_out(("table", [(1, 0), (1, 1), (0, ("table", [(4, 0), (0, PLAIN_NAMES)])), (8, 0)]))
    header += random_bytes(size - len(TYPE) - len(header) - 4)
    return TYPE + struct.pack("<I", len(header)) + header


SMALL = rows_message(100)
SHORT_BODY = patched(SMALL, ROWS_AT, b"\xff" * 4)
LONG_BODY = patched(SMALL, BODY_SIZE_AT, b"\xff" * 8)
LONG_HEADER = patched(SMALL, 0, b"\xff" * 4)

# What a stream is called, its status, and how one of a size is made. The first is what the others are held against.
STREAMS = [
    ("good: one array", SELECTED, one_array),
    ("good: arrays of 100 rows", SELECTED, lambda size: filled(size, SMALL)),
    ("arrays of no rows", SELECTED, lambda size: filled(size, rows_message(0))),
    ("arrays of no rows in 141 bytes", SELECTED, lambda size: filled(size, short_message())),
    ("arrays of no and of 64 rows in turn", SELECTED, lambda size: filled(size, short_message() + streams.array_message(array("q", [0] * 64)))),
    ("headers of 65,536 names, one text", SELECTED, lambda size: filled(size, message(shared_names(MOST_NAMES)))),
    ("a header of millions of names", UNBUILT, lambda size: filled(size, message(shared_names(size // 4 - 200)))),
    ("65,536 names, one text of megabytes", UNBUILT, long_name),
    ("millions of descriptors", SELECTED, descriptors_of_one_byte),
    ("millions of descriptors of no byte", SELECTED, descriptors_of_no_byte),
    ("metadata of megabytes", SELECTED, lambda size: TYPE + message(metadata=random_bytes(size - 500))),
    ("a header that is the rest", UNBUILT, whole_header),
    ("a length of a header of 2^32 - 1", UNBUILT, lambda size: TYPE + b"\xff" * 4 + random_bytes(size - 120)),
    ("the same at the end", UNBUILT, lambda size: filled(size, SMALL, LONG_HEADER)),
    ("2^32 - 1 rows in a short body", UNBUILT, lambda size: filled(size, SHORT_BODY)),
    ("the same at the end", UNBUILT, lambda size: filled(size, SMALL, SHORT_BODY)),
    ("a body of 2^64 - 1 bytes", UNBUILT, lambda size: filled(size, LONG_BODY)),
    ("the same at the end", UNBUILT, lambda size: filled(size, SMALL, LONG_BODY)),
    ("the same behind arrays of 141 bytes", UNBUILT, lambda size: filled(size, short_message(), LONG_BODY)),
    ("one array, its last byte cut", UNBUILT, lambda size: one_array(size)[:-1]),
    ("arrays of 100 rows, the last byte cut", UNBUILT, lambda size: filled(size, SMALL)[:-1]),
    ("random bytes", UNBUILT, random_bytes),
    ("a type and random bytes", UNBUILT, lambda size: TYPE + random_bytes(size - len(TYPE))),
    ("zeros", UNBUILT, bytes),
    ("a type and zeros", UNBUILT, lambda size: TYPE + bytes(size - len(TYPE))),
]


def write(path, number, size):
    with open(path, "wb") as file:
        file.write(STREAMS[number][2](size))


def write_apart(path, number, size):
    """In a process of its own: a child's peak memory is told to be at least what its parent took."""
    writer = multiprocessing.Process(target=write, args=(path, number, size))
    writer.start()
    writer.join()
    if writer.exitcode != 0:
        sys.exit(f"{STREAMS[number][0]}: the stream was not written")


def run_once(program, words, path):
    """The status, the seconds and the peak memory in bytes of one run."""
    with open(path, "rb") as source:
        begin = time.perf_counter()
        child = subprocess.Popen([program] + words, stdin=source, stdout=subprocess.DEVNULL, stderr=subprocess.DEVNULL)
        _, status, usage = os.wait4(child.pid, 0)
        seconds = time.perf_counter() - begin
    child.returncode = os.waitstatus_to_exitcode(status)
    return child.returncode, seconds, usage.ru_maxrss * 1024


def in_turns(program, paths, repeat):
    """The statuses, the best time and the peak memory at each path."""
    turns = [[run_once(program, bench.WORDS, path) for path in paths] for _ in range(repeat)]
    return [({run[0] for run in runs}, min(run[1] for run in runs), max(run[2] for run in runs)) for runs in zip(*turns)]


def row(name, wanted, size, good, ours):
    """A line of the table, and whether it is as it is to be."""
    statuses, seconds, memory = ours
    ratios = seconds / good[1], memory / good[2]
    is_right = statuses == {wanted} and max(ratios) <= MOST
    told = "/".join(str(status) for status in sorted(statuses))
    line = f"{name:<38} {size:>9} {told:>6} {seconds:>8.4f} {ratios[0]:>6.2f} {memory / 2**20:>6.1f} MB {ratios[1]:>6.2f}"
    return line + ("" if is_right else "  <-"), is_right


def main():
    arguments = argparse.ArgumentParser(description=__doc__, formatter_class=argparse.RawDescriptionHelpFormatter)
    arguments.add_argument("--size", type=int, default=1 << 24)
    arguments.add_argument("--repeat", type=int, default=3)
    arguments.add_argument("--program", default=bench.PROGRAM)
    chosen = arguments.parse_args()
    program = os.path.abspath(chosen.program)
    if not os.access(program, os.X_OK):
        sys.exit("the program is not built: run bin/vortex once")
    floor = run_once("/bin/true", [], os.devnull)[2]
    print(f"{' '.join(bench.WORDS)}; best of {chosen.repeat}; memory below {floor / 2**20:.1f} MB is not seen")
    print(f"{'stream':<38} {'bytes':>9} {'status':>6} {'seconds':>8} {'ratio':>6} {'memory':>9} {'ratio':>6}")
    all_right = True
    with tempfile.TemporaryDirectory() as folder:
        paths = [os.path.join(folder, name) for name in ("good", "stream")]
        write_apart(paths[0], 0, chosen.size)
        for number, (name, wanted, _) in enumerate(STREAMS):
            write_apart(paths[1], number, chosen.size)
            good, ours = in_turns(program, paths, chosen.repeat)
            line, is_right = row(name, wanted, os.path.getsize(paths[1]), good, ours)
            print(line, flush=True)
            all_right = all_right and is_right
    sys.exit(0 if all_right else 1)


if __name__ == "__main__":
    main()
