"""Draws the inputs of checks/hostile from a seed, runs the program over them, and judges what it writes."""

import os
import random
import re
import struct
import subprocess
import sys
import tempfile
import time

# The command lines that are run, by what they read. Of a report the lines that begin with `# ` are notes.
OF_REPLAY_SCRIPTS = ["replay", "explain", "image 1", "image 2", "image all"]
OF_CAMERA_SCRIPTS = ["camera"]
OF_CAPTURES = ["streams", "capture 49152 1464 4096"]
# Those that read nothing. Their numbers are drawn anew, and now and then a word is changed.
OF_NOTHING = ["make 1 3 50 50 50", "soak 1 3 50 50 50", "soak 1 3 50 0 0 short", "live 1 2 2 1 3", "record 1 2 2 3", "description 127.83.9.9",
              "receive 127.83.9.9 2 packet=1500 set:0x0124=1 until=stdin", "simulate 127.83.9.9 until=stdin seed=1 rate=20 turns=3"]

# How long one run may take, and all together, in seconds.
RUN_SECONDS = 20
ALL_SECONDS = 60

# The statuses that no fault of the outside has, by the first word; want of memory may come with each.
STATUSES = {
    "replay": {0, 3},
    "explain": {0, 3},
    "image": {0, 3, 13},
    "camera": {0, 3},
    "streams": {0, 12},
    "capture": {0, 12, 18},
    "make": {0},
    "soak": {0, 9, 10},
    "live": {0, 9, 10, 11},
    "record": {0, 9, 10, 11},
    # no camera is there
    "description": {9},
    "receive": {9},
    "simulate": {0},
}

# What a live run tells of its losses, where it began, before that text.
TOLD_COUNTS = r"(counts( [a-z]+=\d+)+\n)?"
# The text on standard error, by the status.
TEXTS = {
    0: r"",
    2: r"gevacq: word \d+ isn't understood\n(usage: gevacq [^\n]*\n)+",
    3: r"gevacq: line \d+: (header|word|number|hex|too long|no end|too many lines)\n",
    7: r"gevacq: out of memory\n",
    9: r"(gevacq: request \d+ is (READREG|WRITEREG|READMEM) 0x[0-9a-f]{8}\n)?gevacq: no answer to request \d+\n",
    10: r"gevacq: refused with status 0x[0-9a-f]{4}\n",
    11: r"gevacq: \d+ turns spent, \d+ frames\n",
    12: r"gevacq: record \d+: (magic|cut off|version|length|interface)\n",
    13: r"gevacq: no picture: [^\n]+\n",
    18: r"gevacq: no datagram to port \d+\n",
}

# ---------------------------------------------------------------------------------------------------------------
# Datagrams


def packet(draw, form, block, number, body, status=0):
    """A stream packet with the extended header, or now and then with the standard one."""
    if draw.random() < 0.2:
        return struct.pack(">HHI", status, block & 0xFFFF, form << 24 | number & 0xFFFFFF) + body
    return struct.pack(">HHBBHQI", status, 0, 0x80 | form, 0, 0, block, number) + body


def leader(draw, block, width, height, pixel=0x01080001):
    fields = (0, 1, block, pixel, width, height, 0, 0, 0, 0)
    return packet(draw, 1, block, 0, struct.pack(">HHQIIIIIHH", *fields))


def trailer(draw, block, number, height):
    return packet(draw, 2, block, number, struct.pack(">HHI", 0, 1, height))


def datagrams(draw):
    """The datagrams of one small image, of which some are lost, repeated or swapped."""
    block = draw.choice([1, 2, 3, draw.randrange(1, 9), draw.getrandbits(64)])
    width, height = draw.choice([(3, 1), (1000, 2), (64, 48)])
    rest, found = width * height, [leader(draw, block, width, height)]
    while rest > 0:
        found.append(packet(draw, 3, block, len(found), draw.randbytes(min(rest, 528))))
        rest -= 528
    found.append(trailer(draw, block, len(found), draw.choice([height, 1, 0, height + 1])))
    for _ in range(draw.randrange(3)):
        at = draw.randrange(len(found))
        found[at:at] = draw.choice([[], [found[at]], [found.pop()] if len(found) > 1 else []])
    return found


def any_datagram(draw):
    """A datagram of random bytes, or one with a header of random fields."""
    if draw.random() < 0.3:
        return draw.randbytes(draw.choice([1, 7, 8, 19, 20, 28, 36, 56, 600]))
    status = draw.choice([0, 0, 0x100, 0x8010, 0x8011, 0x8012, draw.getrandbits(16)])
    number = draw.choice([0, 1, 2, 3, 131073, 131074, draw.getrandbits(32)])
    block = draw.choice([0, 1, 2, 3, 4, draw.getrandbits(64)])
    body = draw.randbytes(draw.choice([0, 1, 3, 8, 36, 528, 529]))
    return packet(draw, draw.choice([1, 2, 3, 4, draw.randrange(16)]), block, number, body, status)


def mutated(draw, data):
    """These bytes with some changed, left out or put in."""
    data = bytearray(data)
    for _ in range(draw.randrange(1, 5)):
        at = draw.randrange(len(data) + 1)
        kind = draw.randrange(4)
        if kind == 0 and at < len(data):
            data[at] = draw.getrandbits(8)
        elif kind == 1 and at < len(data):
            data[at] ^= 1 << draw.randrange(8)
        elif kind == 2:
            del data[at : at + draw.randrange(1, 9)]
        else:
            data[at:at] = draw.randbytes(draw.randrange(1, 9))
    return bytes(data)


# ---------------------------------------------------------------------------------------------------------------
# Inputs


def replay_line(draw):
    """A line of the replay grammar."""
    place = draw.choice([0, 0, 1, 2, 14, 15, 255])
    buffer = f"{place}.{draw.choice([1, 1, 1, 2, 0, 4294967295])}"
    serial = draw.choice([1, 2, 3, 4, 5, 6, 7])
    act = draw.choice(["grab", "lay", "pool", "fill", "claim", "take", "sweep-pool", "sweep-out", "close"])
    step = f"step {draw.randrange(1, 5)} {act}"
    return draw.choice(
        [
            f"announce {draw.choice([0, 1, 3, 3, 600, 3072, 67108865])}",
            f"queue {buffer}",
            f"revoke {buffer}",
            f"flush {draw.randrange(6)}",
            "flush 3",
            "start",
            "start",
            f"mode {draw.randrange(3)}",
            f"stop {draw.randrange(3)}",
            f"t {draw.choice([0, 50, 100, 200, 1000, 5000, 18446744073709551615])}",
            "take",
            "take",
            "kill",
            "event-flush",
            f"info {draw.choice([3, 5, 8, 1000, 1])}",
            f"binfo {buffer} {draw.choice([1, 4, 7, 9, 16, 29, 1000, 2])}",
            f"open {draw.choice(['-', serial])} {draw.randrange(2)}",
            f"close {serial}",
            step if act in ("claim", "take", "sweep-pool", "sweep-out", "close") else f"{step} {place % 15}",
        ]
    ).encode()


def replay_script(draw):
    """A script of random lines and datagrams behind a beginning that has buffers and is started."""
    head = f"gevacq {draw.choice([1, 2])} 528 {draw.randrange(1, 5)} 1000 100 {draw.randrange(9)}"
    lines = [head.encode()] + [b"announce %d" % draw.choice([3, 600, 3072])] * draw.randrange(1, 5)
    lines += [b"flush 3", b"start"]
    for _ in range(draw.randrange(1, 40)):
        kind = draw.random()
        if kind < 0.35:
            lines += [b"d " + it.hex().encode() for it in datagrams(draw)]
        elif kind < 0.6:
            lines.append(b"d " + (any_datagram(draw) or b"\0").hex().encode())
        elif kind < 0.7:
            lines.append(b"d " + (mutated(draw, draw.choice(datagrams(draw))) or b"\0").hex().encode())
        else:
            lines.append(replay_line(draw))
    return b"\n".join(lines + [b"end", b""])


def with_mutated_lines(draw, script, line_of):
    """A script of whose lines some are left out, repeated, swapped, drawn anew, or have other bytes behind `d` or `c`."""
    lines = script.split(b"\n")
    for _ in range(draw.randrange(1, 6)):
        at = draw.randrange(len(lines))
        kind = draw.randrange(6)
        if kind == 0:
            del lines[at : at + 1]
        elif kind == 1:
            lines.insert(draw.randrange(len(lines) + 1), lines[at])
        elif kind == 2:
            other = draw.randrange(len(lines))
            lines[at], lines[other] = lines[other], lines[at]
        elif kind == 3:
            lines.insert(at, line_of(draw))
        else:
            words = lines[at].split(b" ")
            if words[0] in (b"d", b"c") and re.fullmatch(rb"([0-9a-f]{2})+", words[-1]):
                words[-1] = mutated(draw, bytes.fromhex(words[-1].decode())).hex().encode() or b"00"
                lines[at] = b" ".join(words)
        lines = lines or [b""]
    return b"\n".join(lines)


def command_message(draw):
    """A control message whose fields are random, most of them of a known command."""
    code, body = draw.choice(
        [
            (0x0002, b""),
            (0x0040, struct.pack(">IIIQ", 0, 0, 3, draw.randrange(4))),
            (0x0080, struct.pack(">I", draw.choice([0, 4, 0x0934, 0x0A00, 0x0D00, 0x0D40, 3]))),
            (0x0082, struct.pack(">II", 0x0A00, draw.choice([0, 1, 2, 3]))),
            (0x0082, struct.pack(">II", 0x0D00, draw.choice([0, 49153, 65535, 65536]))),
            (0x0082, struct.pack(">II", 0x0D04, draw.choice([576, 1500, 9000, 9001, 575]))),
            (0x0082, struct.pack(">II", draw.choice([0x0D18, 0x0938, 0x0D08]), draw.getrandbits(32))),
            (0x0084, struct.pack(">II", draw.choice([0, 0x48, 0xD00]), draw.choice([4, 16, 536, 540, 3]))),
            (0x0086, struct.pack(">I", 0xE8) + draw.randbytes(16)),
            (draw.getrandbits(16), draw.randbytes(draw.randrange(20))),
        ]
    )
    return struct.pack(">BBHHH", 0x42, draw.choice([1, 1, 1, 0, 0x81]), code, len(body), draw.randrange(5)) + body


def camera_line(draw):
    """A line of the camera grammar."""
    command = f"c {draw.choice([49152, 49152, 49153])} {command_message(draw).hex()}"
    return draw.choice([command, command, "frame", f"t {draw.choice([0, 500, 3000, 4000, 9000])}"]).encode()


def camera_script(draw):
    """A script of random commands, in most of them behind a setup that opens the stream."""
    lines = [b"gevacq-camera 1"]
    if draw.random() < 0.7:
        setup = [(0x0A00, 2), (0x0D04, 1500), (0x0D18, 0x7F000001), (0x0D00, 49153)]
        for number, (address, value) in enumerate(setup, 1):
            lines.append(b"c 49152 " + struct.pack(">BBHHHII", 0x42, 1, 0x82, 8, number, address, value).hex().encode())
    lines += [camera_line(draw) for _ in range(draw.randrange(1, 20))]
    return b"\n".join(lines + [b"end", b""])


def frame_of(draw, payload):
    """An Ethernet frame with a datagram of UDP over IPv4."""
    udp = struct.pack(">HHHH", draw.choice([40000, 40001]), 49152, 8 + len(payload), 0) + payload
    flags = draw.choice([0, 0, 0, 0x4000, 0x2000, 3])
    ip = struct.pack(">BBHHHBBHII", 0x45, 0, 20 + len(udp), 1, flags, 64, 17, 0, 0x7F000001, 0x7F000002)
    tag = draw.choice([b"", b"", b"\x81\x00\x00\x01"])
    return b"\2" * 12 + tag + b"\x08\x00" + ip + udp


def capture(draw):
    """A pcap or pcapng file with the packets of some images and others."""
    order = draw.choice("<>")
    found = [it for _ in range(draw.randrange(1, 5)) for it in datagrams(draw)]
    found += [any_datagram(draw) for _ in range(draw.randrange(4))]
    frames = [frame_of(draw, it) for it in found] + [draw.randbytes(draw.randrange(80))]
    if draw.random() < 0.5:
        data = struct.pack(order + "IHHIIII", draw.choice([0xA1B2C3D4, 0xA1B23C4D]), 2, 4, 0, 0, 65535, 1)
        for second, it in enumerate(frames):
            data += struct.pack(order + "IIII", second, 0, len(it), len(it) + draw.choice([0, 0, 0, 1])) + it
        return data
    data = block_of(order, 0x0A0D0D0A, struct.pack(order + "IHHq", 0x1A2B3C4D, 1, 0, -1))
    data += block_of(order, 1, struct.pack(order + "HHI", 1, 0, 65535))
    for second, it in enumerate(frames):
        head = struct.pack(order + "IIIII", draw.choice([0, 0, 0, 0, 1]), 0, second * 1000000, len(it), len(it))
        data += block_of(order, 6, head + it)
    return data


def block_of(order, kind, body):
    """A block of a pcapng file."""
    body += b"\0" * (-len(body) % 4)
    length = struct.pack(order + "I", len(body) + 12)
    return struct.pack(order + "I", kind) + length + body + length


def any_lines(draw, head):
    """Lines of random bytes, behind a line that is right or without it."""
    lines = [draw.randbytes(draw.choice([0, 1, 5, 80, 3000])) for _ in range(draw.randrange(1, 8))]
    if draw.random() < 0.02:
        lines.append(b"d " + b"0" * 20000)
    return b"\n".join(([head] if draw.random() < 0.7 else []) + lines + [b""])


# ---------------------------------------------------------------------------------------------------------------
# What the lines on standard output may be

CODE = r"-10(04|06|09|11|12|14|17|20|22)"
ID = r"\d+\.\d+"
TAKE = rf"take (?P<id>{ID}) block=(?P<block>\d+) complete=(?P<complete>[01]) larger=(?P<larger>[01]) leader=(?P<leader>[01]) len=(?P<len>\d+) filled=(?P<filled>\d+) sha256=(?P<sha256>[0-9a-f]{{64}})"
COUNTS = "taken fills complete underrun requests foreign late repeat misfit starved notice idle".split()
# What a line of a replay script reports, by its first word; each but `t` and `end` has one line, or none.
REPORTS = {
    "announce": rf"announce ({ID}|{CODE})",
    "queue": rf"queue (ok|{CODE})",
    "revoke": rf"revoke (ok|{CODE})",
    "flush": rf"flush (ok|{CODE})",
    "start": rf"start (ok|{CODE})",
    "mode": r"mode (ok|-1004)",
    "stop": rf"stop (ok|{CODE})",
    "take": rf"{TAKE}|take -10(06|11|12)",
    "kill": r"kill ok",
    "event-flush": r"event-flush ok",
    "info": rf"info (\d+ \d+|{CODE})",
    "binfo": rf"binfo (\d+ \d+|{CODE})",
    "open": rf"open (\d+|{CODE})",
    "close": rf"close (ok|{CODE})",
    "step": r"step [1-4] (grab (ok|vacant|away)|(lay|pool) (ok|not-held)|fill (ok|closed|not-held)|claim (\d+|none)|take (\d+|none|closed)|sweep-(pool|out) \d+|close ok)",
}
REQUEST = r"request (42[0-9a-f]{54}|42[0-9a-f]{38})"
CAMERA_REPORT = r"a \d+ (0000|80[01][0-9a-f])([0-9a-f]{2}){6,}|s [1-9]\d* ([0-9a-f]{2}){20,}|frame (\d+ \d+|closed)"
END = "end " + " ".join(rf"{name}=(?P<{name}>\d+)" for name in COUNTS)


class Wrong(Exception):
    """What is wrong of a run."""


def wants(holds, what):
    if not holds:
        raise Wrong(what)


def lines_of(text):
    """The lines of a text that ends with a line feed, or has none."""
    wants(text == "" or text.endswith("\n"), "the last line has no end")
    return text.split("\n")[:-1]


def run_lines(script, status, error):
    """The words of each line of a script that was run whole."""
    lines = script.split(b"\n")[:-1]
    if status == 3:
        lines = lines[: int(error.split()[2][:-1]) - 1]
    elif status == 7:
        return None
    words = [line.decode().split(" ") for line in lines]
    return words[: words.index(["end"]) + 1] if ["end"] in words else words


def judge_take(line, sizes, before):
    """Whether the fields of a take line go together, and its block is above the one before."""
    found = re.fullmatch(TAKE, line)
    block, length, filled = (int(found[it]) for it in ("block", "len", "filled"))
    complete = found["complete"] == "1"
    wants(not complete or (found["larger"], found["leader"]) == ("0", "1"), f"a complete image that isn't: {line}")
    wants(not complete or filled >= length, f"too few bytes of a complete image: {line}")
    wants(sizes is None or max(length, filled) <= sizes[found["id"]], f"more bytes than the buffer has: {line}")
    if block == 0:
        wants((length, filled, found["leader"], found["complete"]) == (0, 0, "0", "0"), f"no empty record: {line}")
        return before
    wants(before is None or block > before, f"block {block} behind block {before}")
    return block


class Report:
    """What a replay's report has said so far, and how the lines of its script stand to it."""

    def __init__(self):
        self.sizes, self.count = {}, dict.fromkeys(("taken", "fills", "complete", "requests", "d"), 0)
        self.before, self.falls, self.starts, self.moded = None, 0, 0, False

    def line(self, words, line):
        """One line of the report, of a line of the script that has these words."""
        wants(re.fullmatch(REPORTS[words[0]], line), f"no report of `{words[0]}`: {line}")
        said = line.split(" ")
        self.starts += line == "start ok"
        self.moded |= line == "mode ok"
        self.count["taken"] += said[0] == "step" and said[2] == "take" and said[3].isdigit()
        if words[0] == "announce" and "." in said[1]:
            self.sizes[said[1]] = int(words[1])
        if words[0] == "take" and len(said) > 2:
            self.take(line)

    def take(self, line):
        """A take line. Blocks rise but where an acquisition began, and are handed out in the order of fills."""
        self.count["taken"] += 1
        try:
            self.before = judge_take(line, self.sizes, self.before)
        except Wrong:
            self.falls += 1
            wants(self.falls < self.starts, f"the blocks don't rise: {line}")
            self.before = judge_take(line, self.sizes, None)
        self.count["fills"] += " block=0 " not in line
        self.count["complete"] += " complete=1 " in line

    def end(self, lines):
        """The lines of the script's end."""
        if self.moded:
            wants(lines and re.fullmatch(r"dropped \d+", lines[0]), "no dropped line")
            lines = lines[1:]
        found = re.fullmatch(END, lines[0]) if len(lines) == 1 else None
        wants(found, f"no end line, but {lines[:2]}")
        end = {name: int(found[name]) for name in COUNTS}
        for name in ("taken", "requests"):
            wants(end[name] == self.count[name], f"{name} isn't {self.count[name]}: {lines[0]}")
        for name in ("fills", "complete"):
            wants(end[name] >= self.count[name], f"{name} is below {self.count[name]}: {lines[0]}")
        wants(end["complete"] <= end["fills"], f"more complete ones than fills: {lines[0]}")
        told = sum(end[name] for name in COUNTS[5:])
        wants(told + end["fills"] <= self.count["d"], f"more than {self.count['d']} datagrams: {lines[0]}")


def judge_report(script, status, text, error):
    """Whether each line of a report is one of its script's line, and the end line's counts are theirs."""
    lines = [it for it in lines_of(text) if not it.startswith("# ")]
    report, run = Report(), run_lines(script, status, error)
    if run is None:
        return
    for words in run[1:]:
        if words[0] == "d":
            report.count["d"] += 1
        elif words[0] == "t":
            while lines and lines[0].startswith("request "):
                wants(re.fullmatch(REQUEST, lines[0]), f"no request: {lines[0]}")
                report.count["requests"] += 1
                del lines[0]
        elif words[0] == "end":
            wants(status == 0, "a status of a script that ended")
            report.end(lines)
            return
        else:
            wants(lines, f"no report of `{words[0]}`")
            report.line(words, lines.pop(0))
    wants(status == 3 and not lines, f"further lines: {lines[:1]}")


def judge_camera(script, status, text, error):
    """Whether each line is one of a camera's report, and there are no more of a kind than the script's lines make."""
    lines, run = lines_of(text), run_lines(script, status, error)
    if run is None:
        return
    commands = [it for it in run if it[0] == "c"]
    ports = {it[1] for it in commands}
    if status == 0:
        found = re.fullmatch(r"end executed=(\d+)", lines.pop()) if lines else None
        wants(found and int(found[1]) <= len(commands), "no end line, or more commands than there are")
    for line in lines:
        wants(re.fullmatch(CAMERA_REPORT, line), f"no line of a camera: {line}")
    answers = [it.split(" ")[1] for it in lines if it.startswith("a ")]
    wants(ports.issuperset(answers) and len(answers) <= len(commands), "an answer to nobody")
    frames = [it for it in lines if it.startswith("frame ")]
    wants(len(frames) == len([it for it in run if it == ["frame"]]), "another number of frames")


PEER = r"\d+\.\d+\.\d+\.\d+:\d+"
STREAM = rf"stream {PEER} {PEER} ids=(extended|standard|both) datagrams=(?P<datagrams>\d+) payload=\d+ resent=\d+ leaders=(?P<leaders>\d+) width=\d+ height=\d+ pixel=0x[0-9a-f]{{8}} bytes=\d+ first=\d+ last=\d+ ms=\d+"
RECORD_HEAD = ["gevacq 1 1452 2 200 20 3", *["announce 307200"] * 3, "start"]
KINDS = "packets datagrams fragments cut other unlisted streams dropped begin".split()
LISTED = "end " + " ".join(rf"{name}=(?P<{name}>\d+)" for name in KINDS)


def judge_streams(data, status, text, error):
    """Whether the lines are those of streams, and the end line's counts are theirs."""
    lines = lines_of(text)
    found = re.fullmatch(LISTED, lines[-1]) if lines else None
    wants(found or status == 7, "no end line")
    streams = [re.fullmatch(STREAM, it) for it in lines[: len(lines) - bool(found)]]
    wants(all(streams), f"no stream: {lines[:1]}")
    wants(all(int(it["leaders"]) >= 1 for it in streams), "a stream without a leader")
    if found:
        end = {name: int(found[name]) for name in KINDS}
        wants(end["streams"] == len(streams) <= 256, f"another number of streams: {lines[-1]}")
        wants(sum(int(it["datagrams"]) for it in streams) <= end["datagrams"], f"too few datagrams: {lines[-1]}")
        kinds = sum(end[name] for name in KINDS[1:5])
        wants(end["packets"] == kinds, f"the kinds aren't the packets: {lines[-1]}")


def judge_run(lanes, status, text, error):
    """Whether the lines are take lines whose blocks rise in each lane, and the last line has their number."""
    lines, before, complete = lines_of(text), {}, 0
    last = lines.pop() if lines and not lines[-1].startswith("take ") else ""
    for line in lines:
        found = re.fullmatch(TAKE, line)
        wants(found, f"no take line: {line}")
        lane = (int(found["block"]) - 1) % lanes
        before[lane] = judge_take(line, None, before.get(lane))
        complete += " complete=1 " in line
    found = re.fullmatch(r"(soak|live) frames=\d+ taken=(\d+)( complete=(\d+) incomplete=(\d+) underrun=\d+ requests=\d+ commands=\d+)?", last)
    wants(found or last == "" and status in (7, 9, 10), f"no last line: {last}")
    if found:
        wants(int(found[2]) == len(lines), f"taken isn't {len(lines)}: {last}")
        if found[1] == "soak":
            wants((int(found[4]), int(found[5])) == (complete, len(lines) - complete), f"another number of images: {last}")


def judge_script(data, status, text, error):
    """Whether the lines are those of a made or recorded script."""
    lines = lines_of(text)
    wants(status == 7 or lines and lines[0].startswith("gevacq ") and lines[-1] == "end", "no whole script")
    for line in lines[1:]:
        wants(re.fullmatch(r"(announce|flush|stop|t) \d+|start|take|end|d ([0-9a-f]{2})+", line), f"no line of a script: {line}")


def judge_captured(data, status, text, error):
    """Whether the lines are those of a capture's script, and the answer says whether a datagram is among them."""
    judge_script(data, status, text, error)
    has = any(line.startswith("d ") for line in lines_of(text))
    wants(status in (7, 12) or has == (status == 0), "a script without a datagram, and no word of it, or the other way round")


def judge_record(data, status, text, error):
    """Whether the lines are those of a recorded run's script, or of a front of it."""
    lines, buffer = lines_of(text), r"[0-2]\.1"
    if status != 7:
        wants(lines[:5] == RECORD_HEAD and lines[-1] == "end" and "stop 0" in lines, "no whole script")
    wants(lines[:5] == RECORD_HEAD[: len(lines)], f"another head: {lines[:5]}")
    for line in lines[5:]:
        wants(re.fullmatch(rf"queue {buffer}|d ([0-9a-f]{{2}})+|t \d+|take|stop 0|end", line), f"no line of a script: {line}")


def end_of_picture(text, at):
    """Where the picture that begins here ends."""
    found = re.compile(r"(P5|P6)\n# block=\d+ complete=[01] filled=\d+ missing=\d+ time=\d+\n(\d+) (\d+)\n(255|1023|4095|16383|65535)\n").match(text, at)
    wants(found, f"no head of a picture: {text[at:at + 20]!r}")
    width, height, most = (int(found[it]) for it in (2, 3, 4))
    wants(width > 0 and height > 0, "a picture without pixels")
    wants(found[1] == "P5" or most == 255, "colours of more than 8 bits")
    bytes_of_one = 3 if found[1] == "P6" else 1 if most == 255 else 2
    return found.end() + width * height * bytes_of_one


def judge_picture(script, status, text, error):
    """Whether it is one whole picture, or nothing."""
    if status != 0:
        wants(status == 7 or text == "", "no picture, and an output")
        return
    wants(len(text) == end_of_picture(text, 0), "another number of pixels")


def judge_pictures(script, status, text, error):
    """Whether it is whole pictures, of a whole script one at least, and none where it has none."""
    wants(status != 0 or text != "", "no picture, and no word of it")
    wants(status != 13 or text == "", "no picture, and an output")
    at = 0
    while at < len(text) and status != 7:
        at = end_of_picture(text, at)
    wants(status == 7 or at == len(text), "another number of pixels")


def judge_reception(words, status, text, error):
    """The last line, with pictures nothing: no camera is there."""
    last = rf"receive frames={words[2].decode()} taken=0 complete=0 p=0 bytes=0 ids=none( [a-z]+=0){{9}}\n"
    wants(re.fullmatch("" if b"as=pictures" in words else last, text), f"the text {text[:300]!r}")


def judge_simulation(data, status, text, error):
    """The line of few turns: its input ends at once."""
    wants(re.fullmatch(r"simulate frames=0 turns=\d+\n", text), f"the text {text[:200]!r}")


JUDGES = {
    "replay": judge_report,
    "explain": judge_report,
    "image": judge_picture,
    "camera": judge_camera,
    "streams": judge_streams,
    "capture": judge_captured,
    "make": judge_script,
    "soak": judge_run,
    "live": judge_run,
    "record": judge_record,
    "receive": judge_reception,
    "simulate": judge_simulation,
}

# ---------------------------------------------------------------------------------------------------------------
# Runs


def output_of(program, words, data=b""):
    """The status, standard output and standard error of a run."""
    try:
        ran = subprocess.run([program, *words], input=data, capture_output=True, timeout=RUN_SECONDS)
    except subprocess.TimeoutExpired:
        raise Wrong(f"no end within {RUN_SECONDS} seconds")
    return ran.returncode, ran.stdout, ran.stderr


def judge(program, words, data):
    """Runs the program and judges what it wrote."""
    status, text, error = output_of(program, words, data)
    wants(status in TEXTS, f"status {status}")
    told = TOLD_COUNTS if words[:1] in ([b"live"], [b"record"]) else ""
    wants(re.fullmatch((told + TEXTS[status]).encode(), error), f"status {status} with the text {error[:200]}")
    if status == 2:
        wants(text == b"", "words that aren't understood, and an output")
        return
    first = words[0].decode(errors="replace") if words else ""
    if first in ("--help", "-h", "help", "--version", "-V") or words[1:] == [b"--help"]:
        wants(status in (0, 5), f"status {status} of the help")
        return
    wants(status in STATUSES.get(first, ()) or status == 7, f"status {status} of `{first}`")
    if first in ("soak", "live"):
        data = int(words[4]) if first == "live" else 1
    if first == "receive":
        data = words
    of_all = first == "image" and words[1] == b"all"
    if first in JUDGES:
        judge_of = judge_pictures if of_all else JUDGES[first]
        judge_of(data, status, text.decode("latin-1"), error.decode())


def seeds(program):
    """The inputs that stand in the repository, by their kind, with some that the program makes."""
    scripts, cameras, captures = [], [], []
    for folder, _, names in sorted([*os.walk("examples"), *os.walk("cases")]):
        for name in sorted(names):
            with open(f"{folder}/{name}", "rb") as it:
                data = it.read(60000)
            if data.startswith(b"gevacq-camera "):
                cameras.append(data)
            elif data.startswith(b"gevacq ") and b"\nend" in data:
                scripts.append(data)
            elif data[:4] in (b"\xd4\xc3\xb2\xa1", b"\x4d\x3c\xb2\xa1", b"\x0a\x0d\x0d\x0a"):
                captures.append(data)
    for words in ("make 1 4 100 100 100", "make 2 3 0 0 0"):
        scripts.append(output_of(program, words.split())[1])
    wants(scripts and cameras and captures, "no inputs to be mutated")
    return scripts, cameras, captures


def drawn(draw, scripts, cameras, captures):
    """The words and the input of one run."""
    kind = draw.random()
    if kind < 0.55:
        words = draw.choice(OF_REPLAY_SCRIPTS).split()
        whole = draw.choice([replay_script(draw), draw.choice(scripts)])
        head, line_of = b"gevacq 1 528 1 1000 100 2", replay_line
    elif kind < 0.7:
        words = draw.choice(OF_CAMERA_SCRIPTS).split()
        whole = draw.choice([camera_script(draw), draw.choice(cameras)])
        head, line_of = b"gevacq-camera 1", camera_line
    elif kind < 0.9:
        whole = draw.choice([capture(draw), draw.choice(captures)])
        data = draw.choice([whole, mutated(draw, whole), whole[: draw.randrange(len(whole))], any_lines(draw, b"")])
        return [it.encode() for it in draw.choice(OF_CAPTURES).split()], data
    else:
        return any_words(draw), b""
    forms = [whole, with_mutated_lines(draw, whole, line_of), with_mutated_lines(draw, whole, line_of)]
    forms += [mutated(draw, whole), any_lines(draw, head)]
    return [it.encode() for it in words], draw.choice(forms)


def any_words(draw):
    """Words of a command line, right ones or not."""
    words = [it.encode() for it in draw.choice(OF_NOTHING + OF_REPLAY_SCRIPTS + OF_CAPTURES).split()]
    if words[0] in (b"make", b"soak"):
        numbers = [draw.getrandbits(64), draw.randrange(6)] + [draw.choice([0, 50, 400, 1000]) for _ in range(3)]
        words[1:6] = [b"%d" % it for it in numbers]
    if words[0] in (b"live", b"record"):
        words[1:4] = [b"%d" % it for it in (draw.getrandbits(64), draw.randrange(1, 4), draw.randrange(1, 16))]
        words[-1] = b"%d" % draw.choice([1, 3, 40, 400])
    if words[0] == b"live":
        words[4] = b"%d" % draw.randrange(1, 5)
        if draw.random() < 0.7:
            words.append(b"%d" % draw.randrange(3))
    if words[0] == b"receive":
        numbers = ((b"packet", (575, 576, 9000, 9001)), (b"buffers", (0, 1, 15, 16)), (b"bytes", (0, 1, 67108864, 67108865)), (b"window", (0, 1, 4, 5)), (b"silence", (0, 1, 3600000)))
        settings = [b"%s=%d" % (name, draw.choice(values)) for name, values in numbers]
        settings += [b"%s=%s" % (name, draw.choice(values)) for name, values in ((b"as", (b"lines", b"pictures", b"counts", b"none")), (b"until", (b"stdin", b"frames")))]
        settings += [b"%s:%s=%d" % (draw.choice([b"set", b"start", b"stop"]), draw.choice([b"0x124", b"292", b"0xA00", b"0x126"]), draw.getrandbits(32)) for _ in range(2)]
        words[3:] = draw.sample(settings, draw.randrange(5))
    if words[0] == b"simulate":
        settings = [b"seed=%d" % draw.getrandbits(64), b"rate=%d" % draw.choice([3, 4, 20, 1000, 1001]), b"turns=%d" % draw.choice([0, 1, 3, 2**32 - 1, 2**32])]
        words[3:] = draw.sample(settings, draw.randrange(1, 4))
    others = [b"", b"0", b"01", b"-1", b"+1", b"1 ", b"short", b"18446744073709551616", b"\xff\xfe", draw.randbytes(3).replace(b"\0", b"x")]
    kind = draw.randrange(6)
    if kind == 0:
        words[draw.randrange(len(words))] = draw.choice(others)
    elif kind == 1:
        words.append(draw.choice(others))
    elif kind == 2:
        words.pop()
    return words


def main(program, seed, runs):
    draw = random.Random(seed)
    inputs = seeds(program)
    begun, ran, wrong = time.monotonic(), 0, 0
    while ran < runs and wrong < 5 and time.monotonic() - begun < ALL_SECONDS:
        words, data = drawn(draw, *inputs)
        ran += 1
        try:
            judge(program, words, data)
        except Wrong as why:
            wrong += 1
            with tempfile.NamedTemporaryFile(prefix="hostile-", delete=False) as kept:
                kept.write(data)
            print(f"checks/hostile: {words} < {kept.name}: {why}", file=sys.stderr)
    if wrong:
        return 1
    print(f"checks/hostile: the built program withstood {ran} of {runs} hostile inputs of seed {seed}")
    return 0


if __name__ == "__main__":
    sys.exit(main(sys.argv[1], int(sys.argv[2]), int(sys.argv[3])))
