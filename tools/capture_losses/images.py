"""The images of a stream: what `gevacq explain` notes of each, beside what the capture has of its packets."""

import socket
import struct

from .heard import NOTHING, Heard
from .words import fields, spans_of

# What `gevacq capture` takes, in bytes: payloads, and images.
LEAST_PAYLOAD, MOST_PAYLOAD, MOST_IMAGE = 528, 8964, 67_108_864
REASONS = ("leader", "small", "trailer", "payloads", "short")
# For so long, in milliseconds, an image of a captured script waits for its packets.
OLD = 200


class Image:
    """An image that isn't whole, or of which packets came again or were asked for: the moment of its first packet, its `done` note, its
    leader's note, and what the capture has of its packets."""

    def __init__(self, moment, note, leader, resends):
        self.moment, self.note, self.leader, self.resends = moment, note, leader, resends
        self.block, self.missing, self.kept = int(note["block"]), int(note["missing"]), int(note["kept"])
        self.is_whole = note["complete"] == "1"
        # (where there are more than eight spans, the others have no name)
        self.spans, self.is_cut = spans_of(note["ids"])
        # which of the ids that it lacks came when it was done, and whether the camera said that it has some no longer
        self.late, self.noticed = [], False
        # how many of the missing packets may never have been sent, or not yet, and why
        self.beyond, self.edge = 0, ""
        # for how many milliseconds the capture goes on without it
        self.silence = 0
        # its block as it's told, how many buffers the script takes up to this one, and how many of them had a leader
        self.name = self.number = self.pictured = None

    def adds_late(self, packet_id):
        beyond = self.is_cut and packet_id > self.spans[-1][1]
        if packet_id not in self.late and (beyond or any(least <= packet_id <= most for least, most in self.spans)):
            self.late = sorted([*self.late, packet_id])

    def begins_capture(self, unheard):
        """Of an image so many packets may have come before the capture began."""
        self.beyond = sum(max(0, min(most + 1, unheard) - least) for least, most in self.spans)
        self.edge = "begin" if self.beyond else ""

    def ends_stream(self, silence):
        """Of the last image, what stands behind the last packet wasn't sent where the capture goes on for longer than an image waits, and
        else may have come later."""
        top = self.kept + self.missing - 1
        if self.is_cut or not self.spans or self.spans[-1][1] != top or self.note["cause"] not in ("stopped", "old"):
            return
        if silence > OLD and not self.noticed:
            self.beyond, self.edge, self.silence = top - self.spans[-1][0] + 1, "unfinished", silence
        elif self.note["cause"] == "stopped":
            self.beyond, self.edge = top - self.spans[-1][0] + 1, "end"

    def lost(self):
        """How many packets aren't in the capture, and would be if nothing was lost."""
        return max(0, self.missing - len(self.late) - self.beyond)

    def again_late(self):
        """How many packets were lost, and came again when the image was done."""
        return len(set(self.late).intersection(self.resends.again))

    def repaired(self):
        """How many packets were lost, and came again in time."""
        return len(self.resends.again) - self.again_late()

    def state(self):
        if not self.is_whole:
            return "incomplete"
        return "repaired" if self.repaired() else "whole"


class Stream:
    """A stream, by its line, what `explain` notes of its script, and what the capture has of it."""

    def __init__(self, line):
        self.sender, self.receiver = line.split()[1:3]
        self.line, self.of = f"stream from={self.sender} to={self.receiver} {line.split(' ', 3)[3]}", fields(line)
        self.port = self.receiver.rsplit(":", 1)[1]
        self.heard = Heard(int(self.of["payload"]))
        self.images, self.absent, self.counts = [], [], {}
        # its images are these blocks, in order
        self.first = self.last = None

    def ends(self):
        """The addresses and ports of the sender and the receiver, as a packet has them."""
        (source, from_port), (target, to_port) = self.sender.rsplit(":", 1), self.receiver.rsplit(":", 1)
        return socket.inet_aton(source) + socket.inet_aton(target) + struct.pack(">HH", int(from_port), int(to_port))

    def capture_words(self):
        """The words of `gevacq capture` for it, with buffers for its largest image."""
        payload = min(max(int(self.of["payload"]), LEAST_PAYLOAD), MOST_PAYLOAD)
        largest = min(max(int(self.of["bytes"]), self.heard.largest, 1), MOST_IMAGE)
        return ["capture", self.port, str(payload), str(largest)]

    def explains(self, capture, end):
        """Reads the notes of its script, of a capture whose last packet came at this moment."""
        notes = Notes(self)
        with capture.runs(self.capture_words(), ["explain"]) as run:
            for line in run.lines():
                notes.reads(line)
        self.finds_edges(end)

    def finds_edges(self, end):
        """What may lie before the capture's begin and behind its end, or was never sent."""
        for image in self.images[: len(self.heard.unheard)]:
            image.begins_capture(self.heard.unheard.get(image.block, 0))
        if self.images and self.images[-1].block == self.last:
            self.images[-1].ends_stream(end - self.heard.ended)

    def is_standard(self):
        return self.of["ids"] == "standard"

    def block(self, block):
        """A block's id; of standard ids, which begin again at 1, the one in the packets too where it's another."""
        return f"{block}[{(block - 1) % 65535 + 1}]" if block > 65535 and self.is_standard() else str(block)


class Notes:
    """Reads the notes of a stream's script, in their order."""

    def __init__(self, stream):
        self.stream = stream
        # of the blocks that are open: when the first packet came, the leader's note, and whether there was a notice
        self.begun, self.leaders, self.noticed = {}, {}, set()
        self.shown = {}
        self.taken, self.pictured, self.skipped = 0, 0, None

    def reads(self, line):
        words, of = line.split(), fields(line)
        what = words[3] if line.startswith("# ") else words[0]
        if what == "open":
            self.begun[of["block"]] = int(words[2])
        elif what == "leader":
            self.leaders[of["block"]] = of
        elif what == "notice":
            self.noticed.add(of["block"])
        elif what == "absent":
            self.skipped = spans_of(of["blocks"])[0][0]
        elif what == "done":
            self.ends(of)
        elif what == "late":
            self.late(of)
        elif what == "take" and "block" in of:
            self.takes(self.shown.get(of["block"]))
        elif what in ("blocks", "end"):
            self.stream.counts.update({f"{what}.{name}": int(value) for name, value in of.items()})

    def ends(self, note):
        """A block is done."""
        stream, block = self.stream, int(note["block"])
        moment, leader = self.begun.pop(note["block"]), self.leaders.pop(note["block"], None)
        stream.first, stream.last = block if stream.first is None else stream.first, block
        if self.skipped:
            stream.absent.append((moment, *self.skipped))
            self.skipped = None
        resends = stream.heard.resends.get(block)
        if note["complete"] == "0" or resends:
            image = Image(moment, note, leader, resends or NOTHING)
            image.noticed, image.name = note["block"] in self.noticed, stream.block(block)
            self.shown[note["block"]] = image
            stream.images.append(image)
        self.noticed.discard(note["block"])

    def takes(self, image):
        """A buffer is taken, whose image is one of those that are shown, or another one, which has a leader then."""
        self.taken += 1
        if not image or image.leader:
            self.pictured += 1
        if image:
            image.number, image.pictured = self.taken, self.pictured

    def late(self, of):
        """A packet came when its block was done."""
        image = self.shown.get(of["block"])
        if image:
            image.adds_late(int(of["id"]))
