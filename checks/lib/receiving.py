#!/usr/bin/env python3
"""receiving.py PROGRAM: runs PROGRAM's `receive` beside its own `simulate`, and against cameras that this script plays, each
at an address of 127.0.0.0/8; compares statuses, texts, images and the commands that the cameras heard with what the formats
say. And against Aravis' camera, where that is installed.

Needs Linux. Prints a line for each thing that differs, and ends with 1 where there is one."""
import hashlib
import os
import re
import select
import signal
import socket
import struct
import subprocess
import sys
import threading
import time

from cameras import (CCP, PORT, PROGRAM, READREG, SCDA0, SCP0, SCPS0, WRITEREG, acknowledge, as_by_default, faults, note, run_all, simulated,
                     with_aravis)

CAPABILITY, START = 0x0934, 0x0124
WIDTH, HEIGHT, MONO8 = 64, 48, 0x01080001
# the payload of a packet of 1500 bytes with standard identifiers
PAYLOAD = 1500 - 36
TAKE = r"take \d+\.\d+ block=(\d+) complete=([01]) larger=0 leader=1 len=(\d+) filled=\d+ sha256=([0-9a-f]{64}) width=(\d+) height=(\d+) pixel=0x01080001 time=\d+ cause=(?:complete|displaced|stopped) missing=0 why=- ids=-"
END = (r"receive frames=%d taken=(\d+) complete=(\d+) p=(\d+) bytes=(\d+) ids=(standard|extended|none) underrun=\d+ requests=\d+ foreign=\d+ late=\d+"
       r" repeat=\d+ misfit=\d+ starved=\d+ notice=\d+ strangers=(\d+)")
# What a camera hears of a run with packet size 1500 and one register that starts and stops: ("read", register) or
# ("write", register, value), where the stream's own address and port are `own`.
SETUP = [("read", CCP), ("write", CCP, 2), ("read", CAPABILITY), ("write", SCPS0, 1500), ("read", SCPS0), ("write", SCDA0, "own"), ("write", SCP0, "own"), ("write", START, 1)]
STOP = [("write", START, 0), ("write", SCP0, 0), ("write", CCP, 0)]
WORDS = ["start:0x0124=1", "stop:0x0124=0"]


def image(block):
    """The bytes of this block's image."""
    return hashlib.shake_128(b"%d" % block).digest(WIDTH * HEIGHT)


def packets(block, kind):
    """Its packets, with standard identifiers, of this payload type."""
    head = lambda form, number: struct.pack(">HHI", 0, block, form << 24 | number)
    data = image(block)
    parts = [data[at : at + PAYLOAD] for at in range(0, len(data), PAYLOAD)]
    leader = head(1, 0) + struct.pack(">HHQIIIIIHH", 0, kind, 7 * block, MONO8, WIDTH, HEIGHT, 0, 0, 0, 0)
    trailer = head(2, len(parts) + 1) + struct.pack(">HHI", 0, 1, HEIGHT)
    return [leader, *(head(3, number) + part for number, part in enumerate(parts, 1)), trailer]


def forged(packet):
    """What a stranger sends in its place: a leader that tells another size, and other bytes."""
    if packet[4] == 1:
        return packet[:24] + struct.pack(">II", WIDTH // 2, HEIGHT // 2) + packet[32:]
    return packet[:8] + bytes(len(packet) - 8)


def number_of(address):
    """An address as a register has it."""
    return struct.unpack(">I", socket.inet_aton(address))[0]


class Sender:
    """A camera that does what whoever has control says, and sends `rate` images a second while it's started.

    `refused` are registers whose writes are refused with 0x8006. After `lost` answered heartbeats the next ones say that
    nobody has control; after `dies` images it neither sends nor answers, and after `deaf` commands it doesn't answer. With `held` another application has control.
    With `stranger` each image's packets are sent from that address too, `forged`, before they are sent, and each command is
    answered from there too, before it's answered, and again with each image.
    Leaders have the payload type `kind`."""

    def __init__(self, address, rate=50, refused=(), lost=None, dies=None, held=False, mute=False, stranger=None, kind=1, deaf=None):
        self.kind, self.deaf = kind, deaf
        self.rate, self.refused, self.lost, self.dies, self.mute = rate, refused, lost, dies, mute
        self.values = {CCP: 2 if held else 0, CAPABILITY: 7, SCPS0: 1500, SCDA0: 0, SCP0: 0, START: 0}
        self.heard, self.answered, self.beats, self.block, self.strange, self.running = [], {}, 0, 0, 0, True
        self.commander, self.last = None, 0
        self.control = self.bound(address, PORT)
        self.stream = self.bound(address, 0)
        self.stranger = self.bound(stranger, 0) if stranger else None
        self.thread = threading.Thread(target=self.serve)
        self.thread.start()

    @staticmethod
    def bound(address, port):
        made = socket.socket(socket.AF_INET, socket.SOCK_DGRAM)
        made.bind((address, port))
        return made

    def is_dead(self):
        return self.dies is not None and self.block >= self.dies

    def serve(self):
        due = time.monotonic()
        while self.running:
            if select.select([self.control], [], [], max(0, min(0.02, due - time.monotonic())))[0]:
                command, self.commander = self.control.recvfrom(1024)
                answer = None if self.is_dead() or len(self.heard) == self.deaf else self.answer(command)
                self.mislead()
                if answer:
                    self.control.sendto(answer, self.commander)
            if time.monotonic() >= due:
                due = time.monotonic() + 1 / self.rate
                if self.values[SCP0] and self.values[START] and not self.mute and not self.is_dead():
                    self.send()

    def answer(self, command):
        _, code, _, req = struct.unpack(">HHHH", command[:8])
        if code not in (READREG, WRITEREG):
            return None
        # (a command that is sent again is answered again, and heard once)
        if (req, command) not in self.answered:
            self.answered[req, command] = self.obey(code, req, struct.unpack(">%dI" % (len(command[8:]) // 4), command[8:]))
        self.last = req
        return self.answered[req, command]

    def obey(self, code, req, body):
        register, write = body[0], code == WRITEREG
        if not write:
            beat = register == CCP and any(it[:2] == ("write", CCP) for it in self.heard)
            self.beats += beat
            if not beat:
                self.heard.append(("read", register))
            lost = beat and self.lost is not None and self.beats > self.lost
            return acknowledge(code, req, struct.pack(">I", 0 if lost else self.values[register]))
        value = body[1]
        # (the stream goes to the address that the commands come from, at some port)
        own = register == SCP0 and value or register == SCDA0 and number_of(self.commander[0]) == value
        self.heard.append(("write", register, "own" if own else value))
        if register in self.refused:
            return acknowledge(code, req, b"", 0x8006)
        self.values[register] = value
        return acknowledge(code, req, struct.pack(">HH", 0, 1))

    def send(self):
        self.block += 1
        to = (socket.inet_ntoa(struct.pack(">I", self.values[SCDA0])), self.values[SCP0] & 0xFFFF)
        self.mislead()
        for packet in packets(self.block, self.kind):
            self.meddle(forged(packet), to)
            self.stream.sendto(packet, to)

    def mislead(self):
        """The stranger answers the last command: what it reads is 0, so that control is lost, and what it writes is refused."""
        self.meddle(acknowledge(READREG, self.last, bytes(4)), self.commander)
        self.meddle(acknowledge(WRITEREG, self.last, b"", 0x8006), self.commander)

    def meddle(self, datagram, to):
        if self.stranger:
            self.strange += 1
            self.stranger.sendto(datagram, to)

    def end(self):
        self.running = False
        self.thread.join()
        for it in (self.control, self.stream, self.stranger):
            if it:
                it.close()


def wants(case, what, found, wanted):
    if found != wanted:
        note(case, "%s: %.600r in place of %.600r" % (what, found, wanted))


def judge_lines(case, out, frames, taken, ids="standard", strangers=None):
    """Take lines of whole images, so many, each behind the one before, and the end line."""
    lines = out.split("\n")
    end = re.fullmatch(END % frames, lines[-2]) if len(lines) > 1 else None
    if lines[-1] != "" or not end:
        return note(case, "no end line: %.600r" % out[-600:])
    size = (PAYLOAD, WIDTH * HEIGHT) if ids == "standard" else (0, 0)
    wants(case, "end line", (int(end[1]), int(end[2]), int(end[3]), int(end[4]), end[5]), (taken, taken, *size, ids))
    if strangers is not None and (int(end[6]) > 0) != strangers:
        note(case, "strangers: " + lines[-2])
    judge_images(case, lines[:-2], taken)
    return None


def judge_images(case, lines, taken):
    before = 0
    wants(case, "take lines", len(lines), taken)
    for line in lines:
        found = re.fullmatch(TAKE, line)
        if not found or int(found[1]) <= before:
            return note(case, "line %.300r" % line)
        before = int(found[1])
        looks = ("1", WIDTH * HEIGHT, hashlib.sha256(image(before)).hexdigest(), WIDTH, HEIGHT)
        wants(case, "block %d" % before, (found[2], int(found[3]), found[4], int(found[5]), int(found[6])), looks)
    return None


def judge_some(case, out, most, cut=False):
    """So many take lines at most, and the end line of 1000 frames. With `cut` the last image may be one that was on its way
    when the run ended."""
    taken = len(re.findall("^take ", out, re.M))
    if not 0 < taken <= most:
        note(case, "%d take lines" % taken)
    if cut:
        whole = "taken=%d complete=%d " % (taken - 1, taken - 1)
        out, cuts = re.subn(r"(?m)^take .* complete=0 .*\n(receive frames=1000 )taken=%d complete=%d " % (taken, taken - 1), r"\1" + whole, out)
        taken -= cuts
    judge_lines(case, out, 1000, taken)


def receive(case, address, frames, words=(), status=0, text="", heard=None, judge=None, during=None, made=Sender, **camera):
    """Runs `receive` against such a camera, which `made` makes. `text` is a pattern of standard error, `heard` the commands,
    those of a whole run where it's none."""
    playing = made(address, **camera)
    try:
        run = subprocess.Popen([PROGRAM, "receive", address, str(frames), *WORDS, *words], stdin=subprocess.PIPE, stdout=subprocess.PIPE, stderr=subprocess.PIPE)
        if during:
            during(run)
        out, err = run.communicate(timeout=60)
    finally:
        playing.end()
    if not re.fullmatch(text, err.decode()):
        note(case, "standard error %r" % err)
    wants(case, "status", run.returncode, status)
    wants(case, "commands", playing.heard, SETUP + STOP if heard is None else heard)
    if judge:
        judge(out)


def no_answer(request, command):
    """What is told where this command had no answer."""
    name = {"read": "READREG", "write": "WRITEREG"}[command[0]]
    return "gevacq: request %d is %s 0x%08x\ngevacq: no answer to request %d\n" % (request, name, command[1], request)


def check_ends():
    a, lines = "127.83.4.1", lambda taken, frames=3, **more: lambda out: judge_lines("lines", out.decode(), frames, taken, **more)
    none = lines(0, ids="none")
    receive("three images", a, 3, judge=lines(3))
    receive("a register that is refused", a, 3, status=10, text="gevacq: register 0x00000124 refused with status 0x8006\n", judge=none, refused=[START])
    receive("a silent camera", a, 3, ["silence=300"], 14, "gevacq: the camera is silent, 0 frames\n", judge=none, mute=True)
    receive("control of another application", a, 3, status=15, text="gevacq: another application controls the camera\n", heard=SETUP[:1], judge=none, held=True)
    receive("control that is refused", a, 3, status=10, text="gevacq: register 0x00000a00 refused with status 0x8006\n", heard=SETUP[:2], judge=none, refused=[CCP])
    some = lambda case, most, **how: lambda out: judge_some(case, out.decode(), most, **how)
    receive("control that is given away", a, 1000, status=17, text=r"gevacq: the camera gave its control away, \d+ frames\n", heard=SETUP, judge=some("given away", 200, cut=True), lost=1)
    # (request 9, or a later one where the machine is so busy that 20 images take longer than a second)
    unheard = r"gevacq: request (\d+) is READREG 0x00000a00\ngevacq: no answer to request \1\n"
    receive("a camera that dies", a, 1000, status=9, text=unheard, heard=SETUP, judge=some("dies", 20), dies=20)
    receive("chunks", a, 3, ["silence=300"], 14, "gevacq: no leader came, the last foreign datagram: payload-type=0x4001\ngevacq: the camera is silent, 0 frames\n", judge=none, kind=0x4001)
    receive("progress", a, 40, ["progress=200"], text=r"(gevacq: \d+\.\d s, \d+ frames, \d+\.\d/s, \d+\.\d MB/s, \d+ incomplete\n){2,99}", judge=lines(40, frames=40))
    receive("a stranger", a, 3, judge=lines(3, strangers=True), stranger="127.83.4.9")
    receive("counts alone", a, 3, ["as=counts"], judge=lambda out: wants("counts", "lines", [bool(re.fullmatch(END % 3, it)) for it in out.decode().split("\n")], [True, False]))


def check_steps():
    """A camera that answers no more from each of its commands on. The runs take their time side by side."""
    runs = []
    for deaf in range(len(SETUP + STOP)):
        judge = lambda out, taken=0 if deaf < len(SETUP) else 3: judge_lines("deaf", out.decode(), 3, taken, ids="standard" if taken else "none")
        how = dict(status=9, text=no_answer(deaf + 1, (SETUP + STOP)[deaf]), heard=(SETUP + STOP)[:deaf], judge=judge, deaf=deaf)
        runs.append(threading.Thread(target=receive, args=("no answer behind %d commands" % deaf, "127.83.6.%d" % (deaf + 1), 3), kwargs=how))
    for run in runs:
        run.start()
    for run in runs:
        run.join()


def check_pipes():
    a = "127.83.4.2"
    comment = lambda block: b"# block=%d complete=1 filled=%d missing=0 time=%d\n" % (block, WIDTH * HEIGHT, 7 * block)
    pictures = lambda blocks: b"".join(b"P5\n%s%d %d\n255\n" % (comment(block), WIDTH, HEIGHT) + image(block) for block in blocks)

    def judge(out):
        first = next((it for it in range(1, 60) if out.startswith(pictures([it]))), 0)
        wants("pictures", "bytes", out, pictures(range(first, first + 5)))

    receive("pictures", a, 5, ["as=pictures", "mode=0"], text=END % 5 + "\n", judge=judge)

    def close(run):
        read = b""
        while read.count(b"\n") < 2:
            read += os.read(run.stdout.fileno(), 100)
        run.stdout.close()
        run.stdout = open(os.devnull, "rb")

    receive("a pipe that closes", a, 1000, status=5, text="gevacq: writing failed\n", during=close)

    def pause(run):
        time.sleep(0.4)
        run.send_signal(signal.SIGSTOP)
        time.sleep(0.6)
        run.send_signal(signal.SIGCONT)

    receive("a pause of the program", a, 40, ["buffers=15"], during=pause, judge=lambda out: judge_lines("a pause of the program", out.decode(), 40, 40), rate=20)
    receive("an input that ends", a, 1000, ["until=stdin"], during=lambda run: (time.sleep(0.5), run.stdin.close(), setattr(run, "stdin", None)),
            judge=lambda out: wants("an input that ends", "end line", bool(re.fullmatch(END % 1000, out.decode().split("\n")[-2])), True))


def check_two_processes(case="two processes", address="127.83.4.3", begins=None):
    """In the best of three runs: an image gets old where a busy machine holds its sender up in the middle of it."""
    before = list(faults)
    for _ in range(3):
        faults[:] = before
        run_two_processes(case, address, begins)
        if faults == before:
            break


def run_two_processes(case, address, begins):
    """`simulate` and `receive`, each a process: 20 whole images."""
    with open("checks/lib/frames_640x480_mono8.sha256") as it:
        digests = dict(line.split() for line in it)
    each = lambda *words: subprocess.run([PROGRAM, "receive", address, *words], capture_output=True, timeout=60)
    got = []
    simulated(case, [address, "rate=25", "turns=400", "until=stdin"], lambda: got.append(each("20")), lambda want, frames, turns: 20 <= frames <= turns, begins)
    found = re.findall("^" + TAKE + "$", got[0].stdout.decode(), re.M)
    wants(case, "status", (got[0].returncode, got[0].stderr), (0, b""))
    wants(case, "whole images", [it[1:] for it in found], [("1", "307200", digests.get(str(1 + int(it[0]))), "640", "480") for it in found])
    wants(case, "lines", (len(found), got[0].stdout.count(b"\n")), (20, 21))
    if " taken=20 complete=20 p=1452 bytes=307200 ids=extended " not in got[0].stdout.decode():
        note(case, "end line %.300r" % got[0].stdout[-300:])


def check_interrupts():
    """Control-C where the launcher runs it: the camera is stopped, its stream closed, and control given away."""
    # (where there is no program it builds one first)
    subprocess.run(["./gevacq", "--version"], capture_output=True)
    for words in ([], ["until=stdin"]):
        camera = Sender("127.83.4.4")
        try:
            # (without a buffer, of which `communicate` would give nothing back)
            run = subprocess.Popen(["./gevacq", "receive", "127.83.4.4", "100000", *WORDS, *words], stdin=subprocess.PIPE, stdout=subprocess.PIPE, stderr=subprocess.PIPE, bufsize=0, start_new_session=True, preexec_fn=as_by_default)
            first = run.stdout.readline() + run.stdout.readline()
            os.killpg(run.pid, signal.SIGINT)
            out, err = run.communicate(timeout=60)
        finally:
            camera.end()
        wants("Control-C", "status", (run.returncode, err), (0, b""))
        wants("Control-C", "commands", camera.heard, SETUP + STOP)
        text = (first + out).decode()
        judge_lines("Control-C", text, 100000, text.count("\n") - 1)


# ---- somebody else's camera

ARAVIS = """
ip link set lo up
arv-fake-gv-camera-0.8 -i lo >"$1/camera" 2>&1 &
camera=$!
sleep 1
if command -v tcpdump >/dev/null; then
    tcpdump -i lo -B 65536 -s 0 -U -Z root -w "$1/capture" udp >"$1/tcpdump" 2>&1 &
    capture=$!
    sleep 1
fi
"$2" receive 127.0.0.1 100 start:0x0124=1 stop:0x0124=0 >"$1/lines" 2>"$1/said"
echo $? >"$1/status"
if [ -n "${capture:-}" ]; then
    sleep 1
    kill $capture
    wait $capture
    set -- "$1" "$2" $("$2" streams <"$1/capture" | sed -n 's/^stream [^ ]* [^ ]*:\\([0-9]*\\) .* payload=\\([0-9]*\\) .* bytes=\\([0-9]*\\) .*/\\1 \\2 \\3/p')
    "$2" capture "$3" "$4" "$5" <"$1/capture" | "$2" replay >"$1/replayed"
fi
kill $camera
"""


def judge_aravis(read):
    """100 whole images of that camera, with the digests of a capture of the same packets where tcpdump is there."""
    case = "Aravis' fake camera"
    wants(case, "status", (read("status"), read("said")), (b"0\n", b""))
    lines = re.findall(r"^take \d+\.\d+ block=(\d+) complete=1 .* sha256=([0-9a-f]{64}) ", read("lines").decode(), re.M)
    wants(case, "whole images", len(lines), 100)
    replayed = re.findall(r"^take \d+\.\d+ block=(\d+) complete=1 .* sha256=([0-9a-f]{64})$", read("replayed").decode(), re.M)
    if replayed:
        # (images of which the capture lacks a packet stand in it as incomplete)
        wants(case, "images that differ from the capture's", [it for it in replayed if it[0] in dict(lines) and it not in lines], [])


def main():
    checks = (check_two_processes, check_ends, check_steps, check_pipes, check_interrupts)
    aravis = lambda: with_aravis(ARAVIS, 120, judge_aravis)
    return run_all("receive", "127.83.4.1", Sender, checks, aravis, "receive takes whole images of cameras, and stops them however it ends")


if __name__ == "__main__":
    sys.exit(main())
