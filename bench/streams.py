#!/usr/bin/env python3
"""Streams of one column of numbers of 64 signed bits, in the layout of docs/FORMATS.md.

    bench/streams.py from-numbers    a stream of the decimal numbers on standard input, one a line
    bench/streams.py print           the rows of the stream on standard input, one a line
    bench/streams.py samples FOLDER  the samples of this repository, into FOLDER

What is written goes to standard output. The status is 1 where the input is not of that form, and 2 where the words are others.
"""
import os
import re
import struct
import sys
from array import array

PLAIN = b"vortex.primitive"
ROWS_PER_ARRAY = 65_536
TYPE_KIND, ARRAY_KIND = 3, 1
PRIMITIVE, I64 = 3, 7


def round_up(size):
    return (size + 7) // 8 * 8


class Layout:
    """Items laid out one after the other, each at a multiple of 8, and the offsets that lead to them."""

    def __init__(self):
        self.bytes = bytearray(8)

    def begin(self):
        self.bytes += bytes(round_up(len(self.bytes)) - len(self.bytes))
        return len(self.bytes)

    def item(self, item):
        """The place of an item that is laid out with all that hangs on it."""
        kind, content = item
        return getattr(self, kind)(content)

    def table(self, fields):
        """Fields are pairs of a width and a number; a pair of 0 and an item is an offset to the item."""
        entries = [0] * len(fields)
        place = 8 if any(width == 8 for width, _ in fields) else 4
        for wanted in (8, 4, 2, 1):
            for number, (width, _) in enumerate(fields):
                if (width or 4) == wanted:
                    entries[number] = place
                    place += wanted
        vtable = struct.pack(f"<{2 + len(fields)}H", 4 + 2 * len(fields), place, *entries)
        vtable += bytes(round_up(len(vtable)) - len(vtable))
        at = self.begin() + len(vtable)
        self.bytes += vtable + struct.pack("<i", len(vtable)) + bytes(place - 4)
        for entry, (width, content) in zip(entries, fields):
            if width:
                self.bytes[at + entry:at + entry + width] = content.to_bytes(width, "little")
        for entry, (width, content) in zip(entries, fields):
            if not width:
                self.offset(at + entry, content)
        return at

    def offset(self, at, item):
        target = self.item(item)
        self.bytes[at:at + 4] = struct.pack("<I", target - at)

    def offsets(self, items):
        at = self.begin()
        self.bytes += struct.pack("<I", len(items)) + bytes(4 * len(items))
        for number, item in enumerate(items):
            self.offset(at + 4 + 4 * number, item)
        return at

    def text(self, text):
        at = self.begin()
        self.bytes += struct.pack("<I", len(text)) + text + b"\0"
        return at

    def raw(self, content):
        at = self.begin()
        self.bytes += struct.pack("<I", len(content)) + content
        return at

    def numbers(self, content):
        at = self.begin()
        self.bytes += struct.pack(f"<I{len(content)}I", len(content), *content)
        return at

    def records(self, content):
        at = self.begin()
        self.bytes += struct.pack("<I", len(content)) + b"".join(struct.pack("<Q", record) for record in content)
        return at


def laid_out(root):
    layout = Layout()
    layout.bytes[0:4] = struct.pack("<I", layout.item(root))
    layout.begin()
    return bytes(layout.bytes)


def message(kind, inner, body):
    """The length of the header, the header, and the body."""
    header = laid_out(("table", [(1, 0), (1, kind), (0, inner), (8, len(body))]))
    return struct.pack("<I", len(header)) + header + body


def type_message():
    primitive = ("table", [(1, I64), (1, 0)])
    return message(TYPE_KIND, ("table", []), laid_out(("table", [(1, PRIMITIVE), (0, primitive)])))


def array_message(rows):
    """A primitive array; `rows` is an array of signed 64-bit numbers."""
    region = rows.tobytes() if sys.byteorder == "little" else struct.pack(f"<{len(rows)}q", *rows)
    node = ("table", [(2, 0), (0, ("raw", b"")), (0, ("offsets", [])), (0, ("numbers", [0]))])
    flat = laid_out(("table", [(0, node), (0, ("records", [len(region) << 32]))]))
    header = ("table", [(4, len(rows)), (0, ("offsets", [("text", PLAIN)]))])
    return message(ARRAY_KIND, header, region + flat + struct.pack("<I", len(flat)))


def stream(arrays):
    return type_message() + b"".join(array_message(array("q", rows)) for rows in arrays)


class Malformed(Exception):
    """What is wrong with the input."""


def numbers_of(lines):
    """The numbers of lines of bytes, as an array; each line holds one decimal number."""
    rows = array("q")
    for place, line in enumerate(lines, 1):
        text = line.strip()
        if not re.fullmatch(rb"-?0*[0-9]{1,19}", text) or not -(2**63) <= int(text) < 2**63:
            raise Malformed(f"line {place} is no decimal number of 64 signed bits: {text[:40].decode(errors='replace')!r}")
        rows.append(int(text))
    return rows


class Table:
    """A table of a flat buffer. A field that is absent is 0, or None where it leads to something."""

    def __init__(self, content, place):
        self.bytes, self.place = content, place
        self.vtable = place - number_at(content, place, "<i")
        self.count = (number_at(content, self.vtable, "<H") - 4) // 2

    def entry(self, field):
        distance = number_at(self.bytes, self.vtable + 4 + 2 * field, "<H") if field < self.count else 0
        return self.place + distance if distance else None

    def number(self, field, form):
        entry = self.entry(field)
        return 0 if entry is None else number_at(self.bytes, entry, form)

    def target(self, field):
        entry = self.entry(field)
        return None if entry is None else entry + number_at(self.bytes, entry, "<I")

    def table(self, field):
        target = self.target(field)
        if target is None:
            raise Malformed("a table is missing")
        return Table(self.bytes, target)

    def elements(self, field, width):
        """The places of the elements of a vector."""
        target = self.target(field)
        if target is None:
            return []
        places = range(target + 4, target + 4 + width * number_at(self.bytes, target, "<I"), width)
        if places.stop > len(self.bytes):
            raise Malformed("it leads outside its bytes")
        return places


def number_at(content, place, form):
    if place < 0 or place + struct.calcsize(form) > len(content):
        raise Malformed("it leads outside its bytes")
    return struct.unpack_from(form, content, place)[0]


def root(content):
    return Table(content, number_at(content, 0, "<I"))


def messages_of(stream):
    """The kind, the table of the kind and the body of each message."""
    place = 0
    while place < len(stream):
        start = place + 4
        end = start + number_at(stream, place, "<I")
        header = root(stream[start:end])
        place = end + header.number(3, "<Q")
        if header.number(0, "<B") or place > len(stream):
            raise Malformed("a message has another version, or ends before its body does")
        yield header.number(1, "<B"), header.table(2), stream[end:place]


def rows_of(header, body):
    """The rows of a primitive array."""
    for place in header.elements(1, 4):
        text = place + number_at(header.bytes, place, "<I")
        if header.bytes[text + 4:text + 4 + number_at(header.bytes, text, "<I")] != PLAIN:
            raise Malformed("an array has an encoding that is not read here")
    size = number_at(body, len(body) - 4, "<I")
    if size + 4 > len(body):
        raise Malformed("it leads outside its bytes")
    flat = root(body[len(body) - 4 - size:len(body) - 4])
    node, records = flat.table(0), flat.elements(1, 8)
    buffers = [number_at(flat.bytes, place, "<I") for place in node.elements(3, 4)]
    if node.elements(2, 4) or len(buffers) != 1 or buffers[0] >= len(records):
        raise Malformed("an array is not one buffer")
    begin = end = 0
    for place in records[:buffers[0] + 1]:
        begin = end + number_at(flat.bytes, place, "<H")
        end = begin + number_at(flat.bytes, place + 4, "<I")
    count = header.number(0, "<I")
    if end - begin != 8 * count or end > len(body) - 4 - size:
        raise Malformed("a buffer has not the size of its rows")
    return struct.unpack(f"<{count}q", body[begin:end])


def arrays_of(stream):
    """The rows of each array of a stream."""
    messages = messages_of(stream)
    kind, _, body = next(messages, (None, None, None))
    column = root(body) if kind == TYPE_KIND else None
    if column is None or column.number(0, "<B") != PRIMITIVE:
        raise Malformed("it does not begin with a column of whole numbers")
    if [column.table(1).number(field, "<B") for field in (0, 1)] != [I64, 0]:
        raise Malformed("its column is of another type")
    for kind, header, body in messages:
        if kind != ARRAY_KIND:
            raise Malformed("a message after the first is no array")
        yield rows_of(header, body)


def write_samples(folder):
    samples = {"no-arrays": [], "several-arrays": [[1, 2, 3], [], [5, -4, 2, -9223372036854775808, 9223372036854775807]]}
    for name, arrays in samples.items():
        with open(os.path.join(folder, name + ".vortex"), "wb") as file:
            file.write(stream(arrays))


def write_numbers():
    rows = numbers_of(sys.stdin.buffer)
    sys.stdout.buffer.write(type_message())
    for first in range(0, len(rows), ROWS_PER_ARRAY):
        sys.stdout.buffer.write(array_message(rows[first:first + ROWS_PER_ARRAY]))


def print_rows():
    arrays = list(arrays_of(sys.stdin.buffer.read()))
    for rows in arrays:
        sys.stdout.write("".join(f"{row}\n" for row in rows))


def main(words):
    try:
        if words == ["from-numbers"]:
            write_numbers()
        elif words == ["print"]:
            print_rows()
        elif len(words) == 2 and words[0] == "samples":
            write_samples(words[1])
        else:
            sys.stderr.write(__doc__)
            return 2
        sys.stdout.flush()
    except Malformed as error:
        sys.stderr.write(f"streams.py: {'the stream is not read: ' if words == ['print'] else ''}{error}\n")
        return 1
    except BrokenPipeError:
        # Whoever read the output has enough of it, as head does.
        os.dup2(os.open(os.devnull, os.O_WRONLY), sys.stdout.fileno())
    return 0


if __name__ == "__main__":
    sys.exit(main(sys.argv[1:]))
