"""Captures of cameras whose lost packets are known: what they send, what is asked of them, and the file of it."""

import functools
import struct

# The time of the first packet of the captures that are made here, in milliseconds since 1970: 2023-11-14 22:13:20 UTC.
BEGIN = 1_700_000_000_000

LEADER, TRAILER = "leader", "trailer"
HOST = bytes([192, 168, 1, 2])


def ethernet(addresses, ports, data):
    """The Ethernet frame of a datagram."""
    udp = struct.pack(">HHHH", *ports, 8 + len(data), 0) + data
    return bytes(12) + b"\x08\x00" + struct.pack(">BBHHHBBH", 0x45, 0, 20 + len(udp), 0, 0x4000, 64, 17, 0) + addresses + udp


class Camera:
    """A camera that sends images of so many rows and columns in payloads of so many bytes to a port of the host, each pixel of 8 bits or of
    another format."""

    def __init__(self, host, port, to, extended, columns, rows, payload, pixel=0x01080001):
        self.address = bytes([192, 168, 1, host])
        self.ports = port, to
        self.extended, self.columns, self.rows, self.payload = extended, columns, rows, payload
        self.pixel, self.bits = pixel, pixel >> 16 & 255
        self.payloads = -(-columns * rows * self.bits // 8 // payload)

    @functools.lru_cache(maxsize=4)
    def pixels(self, block):
        across = range(self.columns * self.bits // 8)
        return bytes(((row + block) * 3 + column) % 200 for row in range(self.rows) for column in across)

    def datagram(self, block, packet, status, time):
        """A packet of the block: its leader, its trailer, or the payload of this id."""
        if packet == LEADER:
            what, number, rest = 1, 0, struct.pack(">HHQIIIIIHH", 0, 1, time, self.pixel, self.columns, self.rows, 0, 0, 0, 0)
        elif packet == TRAILER:
            what, number, rest = 2, self.payloads + 1, struct.pack(">HHI", 0, 1, self.rows)
        else:
            what, number, rest = 3, packet, self.pixels(block)[self.payload * (packet - 1) : self.payload * packet]
        if self.extended:
            return struct.pack(">HHIQI", status, status >> 8 & 1, 0x80000000 | what << 24, block, number) + rest
        return struct.pack(">HHI", status, block, what << 24 | number) + rest

    def frame(self, block, packet, status=0, time=0):
        """The Ethernet frame of a packet, which has the status 0x0100 where it's sent again."""
        return ethernet(self.address + HOST, self.ports, self.datagram(block, packet, status, time))

    def image(self, moment, block, lost=()):
        """The frames of an image, each with its moment, but for the packets that are lost."""
        packets = [LEADER, *range(1, self.payloads + 1), TRAILER]
        return [(moment, self.frame(block, it, 0, moment)) for it in packets if it not in lost]

    def again(self, moment, block, packet):
        return moment, self.frame(block, packet, 0x0100, moment)

    def asked(self, moment, block, first, last):
        """The command of the host that asks for packets again."""
        if self.extended:
            command = struct.pack(">BBHHHHHIIQ", 0x42, 0x10, 0x40, 20, 1, 0, 0, first, last, block)
        else:
            command = struct.pack(">BBHHHHHII", 0x42, 0, 0x40, 12, 1, 0, block, first, last)
        return moment, ethernet(HOST + self.address, (51000, 3956), command)

    def heartbeat(self, moment):
        """A command of the host that asks for a register."""
        return moment, ethernet(HOST + self.address, (51000, 3956), struct.pack(">BBHHHI", 0x42, 1, 0x80, 4, 2, 0x0A00))


def block_of(kind, body):
    """A block of a pcapng file."""
    body += bytes(-len(body) % 4)
    return struct.pack("<II", kind, 12 + len(body)) + body + struct.pack("<I", 12 + len(body))


def capture_of(frames, dropped=(), begin=BEGIN):
    """A pcapng file of these frames, whose interface dropped so many packets, each of these numbers in a block of its own."""
    file = block_of(0x0A0D0D0A, struct.pack("<IHHq", 0x1A2B3C4D, 1, 0, -1)) + block_of(1, struct.pack("<HHI", 1, 0, 0))
    packets = []
    for moment, frame in sorted(frames, key=lambda it: it[0]):
        time = (begin + moment) * 1000
        packets.append(block_of(6, struct.pack("<IIIII", 0, time >> 32, time & 0xFFFFFFFF, len(frame), len(frame)) + frame))
    told = (block_of(5, struct.pack("<IIIHHQI", 0, 0, 0, 5, 8, count, 0)) for count in dropped)
    return file + b"".join([*packets, *told])


def one_camera():
    """One whose images have 3 payloads of 1000 bytes."""
    return Camera(10, 50001, 49152, True, 60, 50, 1000)


def two_streams():
    """Two cameras: the one with extended ids sends 9 images of 3 payloads, with standard ones 5 of 2, whose ids begin again at 1."""
    one, two = one_camera(), Camera(11, 50002, 49153, False, 40, 30, 600)
    frames = one.image(0, 1) + one.image(40, 2, [2]) + one.image(80, 3) + one.image(120, 4, [LEADER])
    frames += one.image(160, 5, [TRAILER]) + one.image(240, 7) + [(240, one.frame(7, 1))] + one.image(280, 8, [3])
    # payload 3 of image 8 comes 300 ms behind the others
    frames += [(580, one.frame(8, 3))] + one.image(600, 9) + one.image(1000, 10, [2, 3, TRAILER])
    # (the repeated payload has to come before its image is done)
    at = frames.index((240, one.frame(7, TRAILER)))
    frames[at], frames[at + 1] = frames[at + 1], frames[at]
    frames += two.image(10, 65534) + two.image(50, 65535, [2]) + two.image(90, 1) + two.image(130, 2, [1, 2]) + two.image(170, 3)
    return frames


def begun_late():
    """A camera that a capture hears from within image 6 on: a packet of 5 comes again, and one of 6 that may have come before."""
    one = one_camera()
    frames = [one.asked(0, 5, 1, 1), one.again(1, 5, 1)] + one.image(2, 6, [LEADER, 1]) + [one.asked(10, 6, 1, 1), one.again(12, 6, 1)]
    return frames + one.image(42, 7) + one.image(82, 8)


def repaired():
    """A camera that is asked for packets, and then dies in an image: 1 is repaired, of 2 a packet is asked for in vain, of 3 one too early,
    of 4 one that was there, 5 is repaired in part, one packet too late, and of 7 the last two never come."""
    one = one_camera()
    frames = one.image(0, 1, [2, TRAILER]) + [one.asked(10, 1, 2, 2), one.again(12, 1, 2)]
    frames += [one.asked(10, 1, 4, 4), one.again(12, 1, TRAILER)]
    frames += one.image(40, 2, [3]) + [one.asked(50, 2, 3, 3), one.asked(60, 2, 3, 3)]
    frames += one.image(80, 3, [1]) + [one.asked(83, 3, 1, 1), (85, one.frame(3, 1, 0)), one.again(86, 3, 1)]
    frames += one.image(120, 4) + [one.asked(130, 4, 1, 1), one.again(132, 4, 1)]
    frames += one.image(160, 5, [1, 2]) + [one.asked(170, 5, 1, 2), one.again(172, 5, 1), one.again(500, 5, 2)]
    frames += one.image(480, 6) + one.image(520, 7, [3, TRAILER])
    return frames + [one.heartbeat(540), one.heartbeat(1540)]
