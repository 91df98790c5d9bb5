"""What a capture has of each image stream: which packets of an image came, which were asked for, and which came again.

GigE Vision 1.x and 2.0: the GVSP packet headers, status 0x0100 (PACKET_RESEND), and the GVCP command PACKETRESEND. The notes of
`gevacq explain` tell what became of each image; these counts, which they don't have, stand beside them. They need the packets one by one,
so this is the part of the tool that takes its time: the loops here are plain."""

import array
import collections
import struct

from .captures import datagram, packets

CONTROL_PORT = b"\x0f\x74"
SENT, SENT_AGAIN = 0x0000, 0x0100
LEADER, TRAILER, PAYLOAD = 1, 2, 3
IMAGE = 1
PACKETRESEND = b"\x00\x40"
# The last packet id of the largest image that the program takes, and some more.
MOST_ID = 131_071
MOST_IMAGE = 67_108_864
# How many images a packet that was held up may be behind, and how many milliseconds a packet that comes twice.
MOST_BEHIND, MOST_APART = 4, 50
# How many images are looked at at once: what is sent again comes a few images later at most.
MOST_OPEN = 64
# Of how many images with packets that never came, in each stream, which these are is kept.
MOST_KEPT = 200
# How many parts of time are told apart.
MOST_BINS = 1024

# What is known of a packet of an image: its first one came, it came again, it was asked for, and that when it had come already.
CAME, AGAIN, ASKED, HELD = 1, 2, 4, 8

STANDARD = struct.Struct(">HHI")
EXTENDED = struct.Struct(">QI")
LEADER_BODY = struct.Struct(">xxHQIIIIIHH")
COMMAND = struct.Struct(">HHII")
BLOCK = struct.Struct(">Q")


class Resends(collections.namedtuple("Resends", "resent early asked held unrepaired again")):
    """What is known of the packets of an image that came again or were asked for.

    resent: how many have the status 0x0100. The others count packet ids, each once. early: came again though the first one came, which as
    far as is known wasn't there yet when it was asked for; asked: was asked for; held: was asked for when it had come already; unrepaired:
    was asked for and never came. again: the ids of those that came again alone, since the first one was lost."""


NOTHING = Resends(0, 0, 0, 0, 0, ())


class Times:
    """How many came when, in moments of milliseconds: in parts of time, which are the longer the later the last one is."""

    def __init__(self):
        self.width, self.counts = 1, [0] * MOST_BINS

    def add(self, moment):
        while moment >= self.width * MOST_BINS:
            pairs = zip(self.counts[::2], self.counts[1::2])
            self.counts = [left + right for left, right in pairs] + [0] * (MOST_BINS // 2)
            self.width *= 2
        self.counts[moment // self.width] += 1

    def items(self):
        return [(at * self.width, count) for at, count in enumerate(self.counts) if count]


class Marks:
    """Of an image, by packet id, what is known of each packet, and how many came again."""

    __slots__ = ("ids", "resent", "asked", "last", "time", "led")

    def __init__(self, count):
        self.ids, self.resent, self.asked = bytearray(count), 0, False
        # when the last packet came
        self.last = 0
        # the leader's timestamp, and when it came first
        self.time = self.led = None

    def of(self, packet_id):
        """The marks, with a place for this id."""
        if packet_id >= len(self.ids):
            self.ids += bytes(packet_id + 1 - len(self.ids))
        return self.ids

    def is_led_anew(self, moment, time):
        """Whether a leader is another one than that which came: of one that comes twice the timestamp is the same. Where cameras have
        no timestamp it's 0, and one that comes twice comes soon."""
        return self.led is not None and (time != self.time or not time and moment - self.led > MOST_APART)

    def forgets(self, is_before):
        """Of what came, or may have come, before the capture began nothing is known: of an image before the first one all its packets, of
        the first one those before its first packet. Gives how many ids these are."""
        first = len(self.ids) if is_before else next((at for at, it in enumerate(self.ids) if it & CAME), 0)
        for at in range(first):
            self.ids[at] = CAME if self.ids[at] & (CAME | AGAIN) else 0
        return first

    def counts(self, has_control):
        """What is known of them all; where the capture has the control port, a packet that was asked for before it began isn't early."""
        found = [0] * 16
        for value in self.ids:
            found[value] += 1
        count = lambda test: sum(number for value, number in enumerate(found) if test(value))
        return Resends(
            self.resent,
            count(lambda it: it & AGAIN and it & CAME and not it & HELD and (it & ASKED or not has_control)),
            count(lambda it: it & ASKED),
            count(lambda it: it & HELD),
            count(lambda it: it & ASKED and not it & (CAME | AGAIN)),
            array.array("I", (at for at, it in enumerate(self.ids) if it & AGAIN and not it & CAME)),
        )


class Heard:
    """What is heard of a stream. Blocks have the ids that `explain` gives them."""

    def __init__(self, payload):
        self.payload = max(1, payload)
        # of each image of which something was asked for or came again
        self.resends = {}
        # of the first images of which packets never came the ids of those that came
        self.kept = {}
        self.again = Times()
        self.largest, self.last = 0, 0
        # when the last packet of the greatest block came
        self.ended = 0
        # whether the capture has the control port of the camera
        self.has_control = False
        # the first image of which a packet isn't sent again; and of this and those before it how many packets may have come before
        # the capture began
        self.begun, self.unheard = None, {}
        # of how many images the leaders' block ids had been there
        self.anew, self.newest = 0, 0
        self.greatest, self.closed, self.count = 0, 0, 2
        self.open = {}

    def block_near(self, block_id):
        """The block that a standard id names, near the greatest so far; None where it would be before the first."""
        if not self.greatest:
            return block_id
        ahead = (block_id - 1 - (self.greatest - 1) % 65535) % 65535
        block = self.greatest + ahead - (65535 if ahead > 32767 else 0)
        return block if block > 0 else None

    def hears(self, moment, data, start, end):
        """A datagram of the stream."""
        self.last = moment
        if end - start < 8:
            return
        status, block, what = STANDARD.unpack_from(data, start)
        if what >> 31:
            if end - start < 20:
                return
            block, packet_id = EXTENDED.unpack_from(data, start + 8)
            body = start + 20
        else:
            block = self.block_near(block) if block else None
            self.greatest = max(self.greatest, block or 0)
            packet_id, body = what & 0xFFFFFF, start + 8
        if not block or status not in (SENT, SENT_AGAIN) or packet_id > MOST_ID:
            return
        form = what >> 24 & 15
        if form == PAYLOAD and packet_id and body < end:
            marks = self.marks(block)
        elif form == LEADER and not packet_id and end - body >= 36:
            marks = self.leads(moment, block, data, body, status)
        elif form == TRAILER and packet_id and end - body >= 8 and data[body + 2 : body + 4] == b"\x00\x01":
            marks = self.marks(block)
        else:
            return
        if not marks:
            return
        if packet_id >= len(marks.ids):
            marks.of(packet_id)
        marks.last = moment
        if status == SENT:
            self.begun = self.begun or block
            marks.ids[packet_id] |= CAME
            return
        marks.ids[packet_id] |= AGAIN
        marks.resent += 1
        self.again.add(moment)

    def marks(self, block):
        """What is known of the image, if it isn't long ago."""
        marks = self.open.get(block)
        if marks or block <= self.closed:
            return marks
        if len(self.open) == MOST_OPEN:
            self.closes(min(self.open))
        marks = self.open[block] = Marks(self.count)
        return marks

    def leads(self, moment, block, data, body, status):
        """A leader, which tells how many packets the image has."""
        payload_type, time, pixel, columns, rows, _, _, padding, last_padding = LEADER_BODY.unpack_from(data, body)
        size = (columns * rows * (pixel >> 16 & 255) + 7) // 8 + padding * rows + last_padding
        if payload_type != IMAGE or not 0 < size <= MOST_IMAGE:
            return None
        self.largest = max(self.largest, size)
        self.count = min(-(-size // self.payload) + 2, MOST_ID + 1)
        marks = self.marks(block)
        if status == SENT:
            self.anew += block + MOST_BEHIND < self.newest or bool(marks) and marks.is_led_anew(moment, time)
            self.newest = max(self.newest, block)
        if marks and marks.led is None:
            marks.time, marks.led = time, moment
        if marks and len(marks.ids) != self.count:
            marks.of(self.count - 1)
            del marks.ids[self.count :]
        return marks

    def asks(self, data, start, end):
        """A command that asks for packets again."""
        if end - start < 20:
            return
        _, block, first, last = COMMAND.unpack_from(data, start + 8)
        if data[start + 1] & 0x10 and end - start >= 28:
            block = BLOCK.unpack_from(data, start + 20)[0]
        else:
            block, first, last = self.block_near(block), first & 0xFFFFFF, last & 0xFFFFFF
        marks = self.open.get(block)
        if not marks:
            return
        marks.asked = True
        ids = marks.ids
        for packet_id in range(first, min(last + 1, len(ids))):
            ids[packet_id] |= ASKED | HELD if ids[packet_id] & CAME else ASKED

    def closes(self, block):
        """No more is looked for of the image."""
        marks = self.open.pop(block)
        if block > self.closed:
            self.closed, self.ended = block, marks.last
        if self.begun and block <= self.begun:
            self.unheard[block] = marks.forgets(block < self.begun)
        if marks.ids.count(CAME) == len(marks.ids):
            return
        if marks.resent or marks.asked:
            self.resends[block] = marks.counts(self.has_control)
        if len(self.kept) < MOST_KEPT and any(not it & (CAME | AGAIN) for it in marks.ids):
            self.kept[block] = bytes(marks.ids)

    def ends(self):
        for block in sorted(self.open):
            self.closes(block)


class Control:
    """The control ports of the cameras: whose commands ask for packets of which streams."""

    def __init__(self, streams):
        self.between = {}
        for ends, heard in streams.items():
            self.between.setdefault(ends[4:8] + ends[:4], []).append((ends[10:], heard))

    def hears(self, ends, data, start, end):
        """A datagram to a control port."""
        streams = self.between.get(ends[:8], ())
        for _, heard in streams:
            heard.has_control = True
        if data[start : start + 1] != b"\x42" or data[start + 2 : start + 4] != PACKETRESEND:
            return
        # (where several streams go from one camera to one machine, receivers mostly ask from the stream's port)
        own = [heard for port, heard in streams if port == ends[8:10]]
        for heard in own or [heard for _, heard in streams]:
            heard.asks(data, start, end)


def hear(file, streams):
    """Hears the streams, by the addresses and ports between which they are; gives the moment of the last packet of the capture."""
    control = Control(streams)
    begin = moment = None
    for time, link, data in packets(file):
        if begin is None:
            begin, moment = time, 0
        moment = max(moment, (time - begin) // 1_000_000)
        found = datagram(link, data)
        if not found:
            continue
        ends, start, end = found
        heard = streams.get(ends)
        if heard:
            heard.hears(moment, data, start, end)
        elif ends[10:] == CONTROL_PORT:
            control.hears(ends, data, start, end)
    for heard in streams.values():
        heard.ends()
    return moment or 0
