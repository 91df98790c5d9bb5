"""Pictures of damaged images: the PNM files of `gevacq image` in, PNG files out, in which what never came has a colour."""

import struct
import zlib

from .heard import AGAIN, CAME
from .words import fields

# Bytes that never came, and bytes that came when the image was done, as red, green and blue.
NEVER, LATE = b"\xe3\x1a\x1c", b"\xff\xa5\x00"
# The most pixels of a thumbnail, across and down.
THUMBNAIL = 160


class Picture:
    """A picture: its columns and rows, its bytes, how many samples a pixel has, and the greatest value of one."""

    def __init__(self, columns, rows, samples, most, data):
        self.columns, self.rows, self.samples, self.most, self.data = columns, rows, samples, most, data

    def row(self, at, step=1):
        """Each step-th pixel of a row as red, green and blue."""
        wide = 2 if self.most > 255 else 1
        size = self.columns * self.samples * wide
        row = self.data[at * size : (at + 1) * size]
        if wide == 2:
            # the highest 8 of a sample's bits: shifted as one number, each stands in the second byte of its sample
            number = int.from_bytes(row, "big") >> self.most.bit_length() - 8
            row = number.to_bytes(size, "big")[1::2]
        colours = bytearray(3 * -(-self.columns // step))
        for colour in range(3):
            colours[colour::3] = row[colour % self.samples :: self.samples * step]
        return colours


def pictures(file):
    """The pictures that a file of PNM files has, one behind the other, each with the fields of its comment."""
    while True:
        magic = file.readline().strip()
        if magic not in (b"P5", b"P6"):
            return
        told, numbers = {}, []
        while len(numbers) < 3:
            line = file.readline()
            if line.startswith(b"#"):
                told.update(fields(line.decode("ascii", "replace")))
            elif not line:
                return
            else:
                numbers += [int(it) for it in line.split()]
        columns, rows, most = numbers
        samples = 3 if magic == b"P6" else 1
        data = file.read(columns * rows * samples * (2 if most > 255 else 1))
        yield told, Picture(columns, rows, samples, most, data)


def chunk(kind, data):
    return struct.pack(">I", len(data)) + kind + data + struct.pack(">I", zlib.crc32(kind + data))


def png(columns, rows, lines):
    """A PNG file of these lines of red, green and blue."""
    packing = zlib.compressobj(6)
    # (each line is written as it is, which a byte before it says)
    packed = b"".join(packing.compress(b"\0" + line) for line in lines) + packing.flush()
    head = struct.pack(">IIBBBBB", columns, rows, 8, 2, 0, 0, 0)
    return b"\x89PNG\r\n\x1a\n" + chunk(b"IHDR", head) + chunk(b"IDAT", packed) + chunk(b"IEND", b"")


def missing_spans(stream, image):
    """The spans of packet ids that never came, and of those that came when the image was done."""
    spans = image.spans
    kept = stream.heard.kept.get(image.block)
    if image.is_cut and kept:
        # (the note has the first eight alone)
        spans = [(at, at) for at, it in enumerate(kept) if not it & (CAME | AGAIN)]
    return spans, [(it, it) for it in image.late]


def damage(stream, image, rows):
    """Of each row of the picture with damage the columns from and to which it goes, with its colour, by the image's leader."""
    leader = image.leader
    bits, columns, height = int(leader["pixel"], 16) >> 16 & 255, int(leader["width"]), int(leader["height"])
    used = columns * bits // 8
    # (with padding behind each row)
    stride = used + max(0, int(leader["bytes"]) - used * height) // max(1, height)
    payload = stream.heard.payload
    found = {}
    for spans, colour in zip(missing_spans(stream, image), (NEVER, LATE)):
        for least, most in spans:
            begin, end = (max(1, least) - 1) * payload, min(most * payload, rows * stride)
            for row in range(begin // stride, -(-end // stride)):
                left, right = max(begin - row * stride, 0), min(end - row * stride, used)
                if left < right:
                    found.setdefault(row, []).append((left * 8 // bits, min(columns, -(-right * 8 // bits)), colour))
    return found


def paint(line, marks):
    for left, right, colour in marks:
        line[3 * left : 3 * right] = colour * (right - left)
    return line


def full(picture, marks):
    """The PNG file of a picture, with these marks in its rows."""
    return png(picture.columns, picture.rows, (paint(picture.row(at), marks.get(at, ())) for at in range(picture.rows)))


def thumbnail(picture, marks):
    """A small one, in which a pixel is marked where one of those that it stands for is; and its columns and rows."""
    step = max(1, -(-max(picture.columns, picture.rows) // THUMBNAIL))
    small = {}
    for row, spans in marks.items():
        small.setdefault(row // step, []).extend((left // step, -(-right // step), colour) for left, right, colour in spans)
    columns, rows = -(-picture.columns // step), -(-picture.rows // step)
    lines = (paint(picture.row(at * step, step), small.get(at, ())) for at in range(rows))
    return png(columns, rows, lines), columns, rows
