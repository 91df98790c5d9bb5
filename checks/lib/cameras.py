#!/usr/bin/env python3
"""Runs PROGRAM's `discover` and `description` against cameras that this script plays, each at an address of
127.0.0.0/8 and port 3956, and PROGRAM's `simulate` with clients that it plays; compares statuses, texts and bytes with
what the formats say.

It needs Linux, where each such address is this machine's. Prints a line for each thing that differs, and ends with 1
where there is one."""
import errno
import itertools
import os
import re
import shutil
import signal
import socket
import struct
import subprocess
import sys
import tempfile
import threading
import time

PROGRAM = sys.argv[1]
PORT = 3956
BROADCAST_ACK, SUCCESS = 0x11, 0
DISCOVERY, RESEND, READREG, WRITEREG, READMEM = 0x0002, 0x0040, 0x0080, 0x0082, 0x0084
faults = []


def note(case, text):
    faults.append("checks/cameras: %s: %s" % (case, text))


def acknowledge(code, req, body, status=SUCCESS):
    return struct.pack(">HHHH", status, code + 1, len(body), req) + body


def registers(address, mac="0211aabbccdd", mask="255.255.255.0", manufacturer=b"ACME", model=b"One", version=b"1.0", serial=b"7", name=b""):
    """The registers 0x0000 to 0x00F7, as DISCOVERY tells them."""
    out = bytearray(248)
    out[0:8] = struct.pack(">II", 0x00020000, 0x80000001)
    out[10:16] = bytes.fromhex(mac)
    out[0x24:0x28] = socket.inet_aton(address)
    out[0x34:0x38] = socket.inet_aton(mask)
    for place, size, text in ((0x48, 32, manufacturer), (0x68, 32, model), (0x88, 32, version), (0xD8, 16, serial), (0xE8, 16, name)):
        out[place : place + size] = text.ljust(size, b"\0")
    return bytes(out)


def shown(text):
    return "".join(chr(b) if 0x20 <= b <= 0x7E and b not in b'"\\' else "\\x%02x" % b for b in text.split(b"\0")[0])


def line(address, mac="0211aabbccdd", mask="255.255.255.0", manufacturer=b"ACME", model=b"One", version=b"1.0", serial=b"7", name=b""):
    return 'camera %s mac=%s mask=%s manufacturer="%s" model="%s" version="%s" serial="%s" name="%s"' % (
        address, ":".join(mac[i : i + 2] for i in range(0, 12, 2)), mask,
        shown(manufacturer), shown(model), shown(version), shown(serial), shown(name))


class Camera:
    """Answers each command by what `answers` makes of it: a list of datagrams."""

    def __init__(self, address, answers):
        self.answers, self.commands, self.running = answers, [], True
        self.socket = socket.socket(socket.AF_INET, socket.SOCK_DGRAM)
        self.socket.bind((address, PORT))
        self.socket.settimeout(0.05)
        self.thread = threading.Thread(target=self.serve)
        self.thread.start()

    def serve(self):
        while self.running:
            try:
                command, sender = self.socket.recvfrom(1024)
            except socket.timeout:
                continue
            self.commands.append((time.monotonic(), command))
            for datagram in self.answers(command):
                self.socket.sendto(datagram, sender)

    def end(self):
        self.running = False
        self.thread.join()
        self.socket.close()


def run(cameras, *words):
    try:
        done = subprocess.run([PROGRAM, *words], capture_output=True, timeout=60)
    finally:
        for camera in cameras:
            camera.end()
    return done.returncode, done.stdout, done.stderr.decode()


def network_failed(call, number):
    """What is told where this call failed with this error of the system."""
    return "gevacq: %s: %s (os error %d)\ngevacq: the network failed\n" % (call, os.strerror(number), number)


# ---- discover


def finds(*bodies):
    """A camera that answers DISCOVERY with these bodies, status 0 and the command's request number."""

    def answers(command):
        flags, code, _, req = struct.unpack(">xBHHH", command[:8])
        return [acknowledge(DISCOVERY, req, body) for body in bodies] if (flags, code) == (BROADCAST_ACK, DISCOVERY) else []

    return answers


def discover(case, address, answers, lines, made=Camera, words=None):
    """Runs `discover` with these words, those of the address where there are none, beside a camera that `made` makes."""
    camera = made(address, answers)
    begun = time.monotonic()
    status, out, err = run([camera], "discover", *([address] if words is None else words))
    took = time.monotonic() - begun
    if (status, err) != (0, ""):
        note(case, "status %d, %r" % (status, err))
    want = lines + ["end cameras=%d" % len(lines)]
    if out.decode().split("\n") != want + [""]:
        note(case, "wrote %r in place of %r" % (out, want))
    if took < 1.59:
        note(case, "ended after %.2f s" % took)
    if [bytes(c) for _, c in camera.commands] != [bytes.fromhex("421100020000ffff")] * 2:
        note(case, "sent %r" % camera.commands)
    # a busy machine may have read the first one late
    elif camera.commands[1][0] - camera.commands[0][0] < 0.3:
        note(case, "the second DISCOVERY came too soon")


def check_discover():
    texts = dict(mac="000a0b0c0d0e", mask="255.255.0.0", manufacturer=b"m" * 32, model=b'a"b\\c\x7f\x80\xff\x01 ~', version=b"", serial=b"s" * 16, name=b"x\0y")
    a = "127.83.1.1"
    discover("one camera", a, finds(registers(a)), [line(a)])
    discover("texts without a zero byte and bytes that aren't text", a, finds(registers("10.1.2.3", **texts)), [line("10.1.2.3", **texts)])
    discover("a body that is too short", a, finds(registers(a)[:-4]), [])
    discover("a body that is too long", a, finds(registers(a) + bytes(4)), [])
    discover("another request", a, lambda c: [acknowledge(DISCOVERY, 0xFFFE, registers(a)), acknowledge(DISCOVERY, 1, registers(a))], [])
    discover("another code", a, lambda c: [acknowledge(READMEM, 0xFFFF, registers(a))], [])
    discover("a status", a, lambda c: [acknowledge(DISCOVERY, 0xFFFF, registers(a), 0x8006)], [])
    discover("bytes that are no acknowledge", a, lambda c: [b"", b"\0", c, acknowledge(DISCOVERY, 0xFFFF, registers(a))[:-1]], [])
    discover("two cameras of one MAC address", a, finds(registers(a), registers("127.83.1.2", serial=b"8")), [line(a)])
    discover("two cameras", a, finds(registers(a), registers("127.83.1.2", mac="0211aabbccde")), [line(a), line("127.83.1.2", mac="0211aabbccde")])
    discover("300 cameras", a, finds(*(registers(a, mac="%012x" % n) for n in range(300))), [line(a, mac="%012x" % n) for n in range(256)])
    status, out, err = run([], "discover", "127.83.1.9")
    if (status, out, err) != (0, b"end cameras=0\n", ""):
        note("no camera", "status %d, %r, %r" % (status, out, err))


# ---- description


def memory(urls, at, data, change=lambda address, count, seen, answer: [answer]):
    """A camera with these URLs and these bytes of memory from `at` on. `change` makes what is sent of an answer; `seen`
    is how often that address was read before."""
    reads = {}

    def answers(command):
        code, _, req = struct.unpack(">xxHHH", command[:8])
        if code != READMEM:
            return [acknowledge(code, req, b"", 0x8001)]
        address, count = struct.unpack(">IxxH", command[8:])
        seen = reads[address] = reads.get(address, -1) + 1
        body = bytearray(count)
        for place, held in ((0x200, urls[0]), (0x400, urls[1]), (at, data)):
            part = held[max(0, address - place) : max(0, address - place + count)] if place <= address else b""
            body[: len(part)] = part
        return change(address, count, seen, acknowledge(READMEM, req, command[8:12] + bytes(body)))

    return answers


def description(case, answers, want, status=0, text="", reads=None, address="127.83.2.1", made=Camera):
    camera = made(address, answers)
    got = run([camera], "description", address)
    if got != (status, want, text):
        note(case, "status %d, %d bytes, %r in place of status %d, %d bytes, %r" % (got[0], len(got[1]), got[2], status, len(want), text))
    if reads is not None and [struct.unpack(">IxxH", c[8:]) for _, c in camera.commands] != reads:
        note(case, "read %r" % camera.commands)


def check_description():
    data = bytes((7 * n + n // 256) % 256 for n in range(1501))
    where = b"Local:a.xml;10000;5dd"
    reads = [(0x200, 512), (0x10000, 512), (0x10200, 512), (0x10400, 480)]
    nowhere = "gevacq: the description isn't in the camera\n"
    description("1501 bytes", memory((where, b""), 0x10000, data), data, reads=reads)
    for url in (b"LOCAL:;10000;5DD", b"local:///a b.zip;0x10000;0X5dd", b"lOcAl:a;00010000;000005dd?SchemaVersion=1.1.0", b"Local:a;10000;5dd\0;1;2"):
        description("URL %r" % url, memory((url, b""), 0x10000, data), data, reads=reads)
        description("second URL %r" % url, memory((b"http://a.example/a.xml", url), 0x10000, data), data, reads=[reads[0], (0x400, 512)] + reads[1:])
    for url in (b"", b"File:a.xml;10000;5dd", b" Local:a;10000;5dd", b"Local;a;10000;5dd", b"Local:a;10000", b"Local:a;10000;5dd;", b"Local:10000;5dd", b"Local:a;;5dd", b"Local:a;0x;5dd",
                b"Local:a;0x0x1;5dd", b"Local:a;000010000;5dd", b"Local:a;10000;0000005dd", b"Local:a;1000g;5dd", b"Local:a;10000;+5dd", b"Local:a;10000;0", b"Local:a;ffffff00;101", b"Local:a?;10000;5dd"):
        description("URL %r" % url, memory((url, url), 0x10000, data), b"", 16, nowhere, [reads[0], (0x400, 512)])
    description("the last bytes of the memory", memory((b"Local:a;ffffff00;100", b""), 0xFFFFFF00, data), data[:256], reads=[reads[0], (0xFFFFFF00, 256)])
    refused = lambda command, answer: [acknowledge(READMEM, struct.unpack(">H", answer[6:8])[0], b"", 0x8003)]
    description("a URL that is refused", memory((where, b""), 0x10000, data, lambda a, c, s, r: refused(a, r)), b"", 10, "gevacq: refused with status 0x8003\n", reads[:1])
    description("a read that is refused", memory((where, b""), 0x10000, data, lambda a, c, s, r: refused(a, r) if a == 0x10200 else [r]), data[:512], 10, "gevacq: refused with status 0x8003\n", reads[:3])
    description("a read that isn't answered", memory((where, b""), 0x10000, data, lambda a, c, s, r: [] if a == 0x10200 else [r]), data[:512], 9, "gevacq: request 3 is READMEM 0x00010200\ngevacq: no answer to request 3\n", reads[:3] + reads[2:3] * 2)
    description("half the reads", memory((where, b""), 0x10000, data, lambda a, c, s, r: [r] if s == 1 else []), data, reads=[r for r in reads for _ in (0, 1)])
    wrong = lambda r: [r[:8] + struct.pack(">I", 0) + r[12:], r[:4] + struct.pack(">H", 4) + r[6:12], r[:4] + struct.pack(">H", len(r) - 12) + r[6:-4], b"", r[:-1]]
    description("acknowledges without what was asked for", memory((where, b""), 0x10000, data, lambda a, c, s, r: wrong(r) + [r]), data, reads=reads)
    description("more bytes than asked for", memory((where, b""), 0x10000, data, lambda a, c, s, r: [r[:4] + struct.pack(">H", len(r) - 4) + r[6:] + b"more"]), data, reads=reads)
    pending = lambda r: struct.pack(">HHHHHH", 0, 0x89, 4, struct.unpack(">H", r[6:8])[0], 0, 300)
    description("PENDING", memory((where, b""), 0x10000, data, lambda a, c, s, r: [pending(r), r]), data, reads=reads)


def check_words():
    for words, place in ((["discover", "x"], 1), (["discover", "127.0.0.1", "127.0.0.1"], 2), (["discover", "1.2.3.256"], 1), (["discover", "01.2.3.4"], 1), (["discover", "1.2.3"], 1),
                         (["discover", "1.2.3.4.5"], 1), (["discover", ""], 1), (["description"], 1), (["description", "1.2.3"], 1), (["description", "127.0.0.1", "1"], 2),
                         (["simulate"], 1), (["simulate", "127.0.0"], 1), (["simulate", "127.0.0.1", "1"], 2), (["simulate", "127.0.0.1", "seed=01"], 2), (["simulate", "127.0.0.1", "turns=1", "rate=0"], 3),
                         (["simulate", "127.0.0.1", "rate=1001"], 2), (["simulate", "127.0.0.1", "turns=0"], 2), (["simulate", "127.0.0.1", "turns=4294967296"], 2), (["simulate", "127.0.0.1", "until=frames"], 2),
                         (["simulate", "127.0.0.1", "seed=1", "until=turns", "turns=1", "seed=1"], 5), (["simulate", "127.0.0.1", "seed=1", "rate=4", "turns=1", "until=turns", "rate=4"], 6)):
        status, out, err = run([], *words)
        if (status, out, err.split("\n")[0]) != (2, b"", "gevacq: word %d isn't understood" % place):
            note(" ".join(words), "status %d, %r, %r" % (status, out, err))


# ---- simulate

CCP, SCP0, SCPS0, SCDA0 = 0x0A00, 0x0D00, 0x0D04, 0x0D18
# the line that `discover` writes of the simulated camera at 127.83.3.1
SIMULATED = 'camera 127.83.3.1 mac=02:11:22:33:44:55 mask=255.0.0.0 manufacturer="GEVACQ" model="SIMCAM" version="1.0" serial="0001" name=""\n'


def await_camera(address):
    """Waits, a while at most, until a camera answers there."""
    with socket.socket(socket.AF_INET, socket.SOCK_DGRAM) as client:
        client.settimeout(0.1)
        for _ in range(100):
            client.sendto(bytes.fromhex("420100020000ffff"), (address, PORT))
            try:
                client.recv(1024)
                return
            except socket.timeout:
                pass


def simulated(case, words, at, said, begins=None):
    """Runs `at` beside a simulated camera until standard input ends. What it gives and the camera's line have to be as
    `said` says. `begins` is called in the camera's process before it's the program."""
    pipes = dict(stdin=subprocess.PIPE, stdout=subprocess.PIPE, stderr=subprocess.PIPE)
    camera = subprocess.Popen([PROGRAM, "simulate", *words], preexec_fn=begins, **pipes)
    await_camera(words[0])
    try:
        want = at()
    finally:
        out, err = camera.communicate(timeout=60)
    found = re.fullmatch(r"simulate frames=(\d+) turns=(\d+)\n", out.decode())
    if (camera.returncode, err) != (0, b"") or not found or not said(want, int(found[1]), int(found[2])):
        note(case, "status %d, %r, %r; %r" % (camera.returncode, out, err, want))


def writes(client, camera, numbers, *pairs):
    """Writes these registers one after the other, each once the one before it was acknowledged: the answer that isn't that."""
    for register, value in pairs:
        req = next(numbers)
        client.sendto(struct.pack(">BBHHHII", 0x42, 1, WRITEREG, 8, req, register, value), (camera, PORT))
        answer = client.recv(1024)
        if answer[:4] + answer[6:8] != struct.pack(">HHH", 0, WRITEREG + 1, req):
            return answer
    return None


def streams(camera, openings):
    """Opens the camera's stream so often, and sums up the greatest block ids that came; a leader, at least, of the first."""
    frames, numbers = 0, itertools.count(1)
    with socket.socket(socket.AF_INET, socket.SOCK_DGRAM) as client, socket.socket(socket.AF_INET, socket.SOCK_DGRAM) as stream:
        client.settimeout(5)
        stream.settimeout(0.3)
        stream.bind(("127.0.0.1", 0))
        here = struct.unpack(">I", socket.inet_aton("127.0.0.1"))[0]
        for _ in range(openings):
            if writes(client, camera, numbers, (CCP, 2), (SCPS0, 8000), (SCDA0, here), (SCP0, stream.getsockname()[1])):
                return None
            ends, last, leader = time.monotonic() + 0.4, 0, False
            closes = None
            while True:
                try:
                    packet = stream.recv(9000)
                except socket.timeout:
                    break
                block = struct.unpack(">Q", packet[8:16])[0]
                last, leader = max(last, block), leader or (packet[4] == 0x81 and block == 1)
                if closes is None and time.monotonic() >= ends:
                    closes = writes(client, camera, numbers, (SCP0, 0), (CCP, 0)) or True
            if closes is not True or not leader:
                return None
            frames += last
    return frames


def reads_behind(camera, resends):
    """Whether a client that asks three times, half a second apart, reads a register behind so many packet resend commands."""
    with socket.socket(socket.AF_INET, socket.SOCK_DGRAM) as client:
        client.settimeout(0.5)
        for req in range(1, resends + 1):
            client.sendto(struct.pack(">BBHHHHHII", 0x42, 0, RESEND, 12, req, 0, 1, 1, 9), (camera, PORT))
        for _ in range(3):
            client.sendto(struct.pack(">BBHHHI", 0x42, 1, READREG, 4, resends + 1, CCP), (camera, PORT))
            try:
                answer = client.recv(1024)
            except socket.timeout:
                continue
            return answer[:8] == struct.pack(">HHHH", 0, READREG + 1, 4, resends + 1)
    return False


def check_simulate():
    a = "127.83.3.1"
    each = lambda *words: subprocess.run([PROGRAM, *words], capture_output=True, timeout=60)
    done = each("simulate", a, "rate=1000", "turns=3")
    if (done.returncode, done.stdout, done.stderr) != (0, b"simulate frames=0 turns=3\n", b""):
        note("three turns", "%r" % done)
    got = []
    simulated("a search beside it", [a, "rate=50", "turns=100"], lambda: got.append(each("discover", a)), lambda want, frames, turns: (frames, turns) == (0, 100))
    if (got[0].returncode, got[0].stdout.decode(), got[0].stderr) != (0, SIMULATED + "end cameras=1\n", b""):
        note("a search beside it", "%r" % got)
    simulated("another one at its address", [a, "until=stdin"], lambda: each("simulate", a), lambda want, frames, turns:
              (want.returncode, want.stdout, want.stderr.decode()) == (6, b"", network_failed("bind", errno.EADDRINUSE)) and frames == 0)
    simulated("no description", [a, "until=stdin", "rate=100"], lambda: each("description", a), lambda want, frames, turns:
              (want.returncode, want.stdout) == (16, b"") and 2 <= turns <= 100)
    simulated("images", [a, "rate=50", "until=stdin", "seed=7"], lambda: streams(a, 2), lambda want, frames, turns: want == frames and 2 <= frames <= turns)
    simulated("a read behind many resend commands", [a, "rate=50", "until=stdin"], lambda: reads_behind(a, 300), lambda want, frames, turns: want)
    done = each("simulate", "192.0.2.1")
    if (done.returncode, done.stdout, done.stderr.decode()) != (6, b"", network_failed("bind", errno.EADDRNOTAVAIL)):
        note("no address of this machine", "%r" % done)


def as_by_default():
    """In what is started: a check that runs in the background has Control-C ignored, and a shell can't take it then."""
    signal.signal(signal.SIGINT, signal.SIG_DFL)


def check_interrupts():
    """Control-C where the launcher runs it: the signal goes to all of its group."""
    # (where there is no program it builds one first)
    subprocess.run(["./gevacq", "--version"], capture_output=True)
    for words in ([], ["until=stdin"]):
        launcher = subprocess.Popen(["./gevacq", "simulate", "127.83.3.2", "rate=50", *words], stdin=subprocess.PIPE, stdout=subprocess.PIPE, stderr=subprocess.PIPE, start_new_session=True, preexec_fn=as_by_default)
        await_camera("127.83.3.2")
        os.killpg(launcher.pid, signal.SIGINT)
        out, err = launcher.communicate(timeout=60)
        if launcher.returncode or err or not re.fullmatch(rb"simulate frames=0 turns=[1-9]\d*\n", out):
            note("Control-C %s" % words, "status %d, %r, %r" % (launcher.returncode, out, err))


# ---- somebody else's camera

ARAVIS = """
ip link set lo up
arv-fake-gv-camera-0.8 -i lo >"$1/camera" 2>&1 &
sleep 1
"$2" discover 127.0.0.1 >"$1/lines" 2>"$1/said"
"$2" description 127.0.0.1 >"$1/description" 2>>"$1/said"
kill $!
"""


def with_aravis(script, seconds, judge):
    """Runs this shell script, which starts Aravis' fake camera, in a network of its own, for so many seconds at most; its words are a
    folder and PROGRAM. Then `judge` judges what it left there, by a function that reads a file of the folder, none as no bytes.
    Answers why it isn't run, or nothing."""
    for tool in ("arv-fake-gv-camera-0.8", "unshare", "ip"):
        if not shutil.which(tool):
            return "there is no " + tool
    if os.geteuid() != 0 or subprocess.run(["unshare", "-n", "true"], capture_output=True).returncode:
        return "a network of its own can't be made here"
    with tempfile.TemporaryDirectory() as here:
        subprocess.run(["unshare", "-n", "sh", "-c", script, "sh", here, os.path.abspath(PROGRAM)], timeout=seconds)

        def read(name):
            if not os.path.exists(here + "/" + name):
                return b""
            with open(here + "/" + name, "rb") as it:
                return it.read()

        judge(read)
    return ""


def judge_aravis(read):
    """What `discover` and `description` wrote of that camera."""
    said, lines, description = read("said").decode(), read("lines").decode().split("\n"), read("description")
    if said or len(lines) != 3 or not lines[0].startswith("camera 127.0.0.1 ") or lines[1] != "end cameras=1":
        note("Aravis' fake camera", "%r, %r" % (said, lines))
    if not (description.startswith(b"<?xml") and description.rstrip(b"\0 \n\r").endswith(b">")):
        note("Aravis' fake camera", "a description of %d bytes, which begins with %r" % (len(description), description[:40]))


# ---- all of it


def run_all(name, address, camera, checks, aravis, passed):
    """Runs these checks, and then the one of Aravis' fake camera, where `camera` makes a camera at this address; prints what
    differs, or what passed. Answers the exit status. `name` is what is checked."""
    try:
        camera(address).end()
    except OSError as error:
        print("checks/cameras: %s: skipped, since port %d of %s can't be bound: %s" % (name, PORT, address, error))
        return 0
    for check in checks:
        check()
    why = aravis()
    if why:
        print("checks/cameras: %s: Aravis' fake camera is skipped, since %s" % (name, why))
    for fault in faults:
        print(fault, file=sys.stderr)
    if not faults:
        print("checks/cameras: " + passed)
    return 1 if faults else 0


def main():
    checks = (check_words, check_discover, check_description, check_simulate, check_interrupts)
    aravis = lambda: with_aravis(ARAVIS, 60, judge_aravis)
    passed = "discover, description and simulate answer as they have to"
    return run_all("discover, description and simulate", "127.83.1.1", lambda address: Camera(address, lambda command: []), checks, aravis, passed)


if __name__ == "__main__":
    sys.exit(main())
