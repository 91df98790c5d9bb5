"""Compares what tools/losses tells of captures with what `explain` notes of them, and with what is known to have been lost."""

import glob
import gzip
import itertools
import os
import re
import shutil
import subprocess
import sys
import tempfile

sys.path.insert(0, "tools")

from capture_losses.captures import datagram, packets
from losses_made import Camera, TRAILER, begun_late, capture_of, one_camera, repaired, two_streams

EXAMPLE = "examples/aravis_lossy.pcap"

HEAD = "begin=2023-11-14T22:13:20.000 zone=+00:00"

# Of each recorded run what was sent again, and how many images are whole, and not.
RECORDED = {"resend": (7, 20, 0), "chaos": (9, 20, 0), "extresend": (8, 21, 0), "notice": (0, 21, 11)}

ONE = "stream from=192.168.1.10:50001 to=192.168.1.2:49152 ids=extended datagrams={} payload=1000 resent={} leaders={} width=60 height=50 pixel=0x01080001 bytes=3000 first=1"
GUIDE = "docs/LOST_FRAMES.md"

TWO = f"""\
{ONE.format(40, 0, 8)} last=10 ms=1000
images=9 complete=4 incomplete=5 leader=1 small=0 trailer=2 payloads=3 short=0 absent=1 missing=7 late=1 repeat=1 repaired=0 early=0
@40 block=2 complete=0 cause=old why=payloads missing=1 ids=2 image=2
@120 block=4 complete=0 cause=old why=leader missing=1 ids=0 image=4
@160 block=5 complete=0 cause=old why=trailer missing=1 ids=4 image=5
@240 blocks=6 absent=1
@280 block=8 complete=0 cause=old why=payloads missing=1 ids=3 late=3 image=7
@1000 block=10 complete=0 cause=stopped why=trailer,payloads missing=3 ids=2-4 edge=end image=9
stream from=192.168.1.11:50002 to=192.168.1.2:49153 ids=standard datagrams=17 payload=600 resent=0 leaders=5 width=40 height=30 pixel=0x01080001 bytes=1200 first=65534 last=3 ms=160
images=5 complete=3 incomplete=2 leader=0 small=0 trailer=0 payloads=2 short=0 absent=0 missing=3 late=0 repeat=0 repaired=0 early=0
@50 block=65535 complete=0 cause=stopped why=payloads missing=1 ids=2 image=2
@130 block=65537[2] complete=0 cause=stopped why=payloads missing=2 ids=1-2 image=4
warning: the capture itself dropped 3 packets: so many of those that are missing here may have come
6 packets of 5 images and 1 whole image aren't in the capture: see (a) in {GUIDE}, since the capture itself dropped 3 packets. \
1 packet came when the image was done: the camera or the network held it up.
"""

REPAIRED = f"""\
{ONE.format(34, 6, 7)} last=7 ms=520
images=7 complete=4 incomplete=3 leader=0 small=0 trailer=1 payloads=3 short=0 absent=0 missing=4 late=1 repeat=2 repaired=3 early=1 asked=7 held=1 unrepaired=1
@0 block=1 complete=1 cause=complete why=- missing=0 ids=- resent=2 repaired=2 asked=2 image=1
@40 block=2 complete=0 cause=old why=payloads missing=1 ids=3 asked=1 unrepaired=1 image=2
@80 block=3 complete=1 cause=complete why=- missing=0 ids=- resent=1 early=1 asked=1 image=3
@120 block=4 complete=1 cause=complete why=- missing=0 ids=- resent=1 asked=1 held=1 image=4
@160 block=5 complete=0 cause=old why=payloads missing=1 ids=2 late=2 resent=2 repaired=1 asked=2 image=5
@520 block=7 complete=0 cause=stopped why=trailer,payloads missing=2 ids=3-4 edge=unfinished image=7
1 packet of 1 image isn't in the capture: where it dropped none itself, they were lost before it: see (a), then (c), in {GUIDE}. \
1 of them was asked for and not repaired: see (d). Beside these 3 packets of 2 images were lost and repaired by being sent again: see (d). \
1 lost packet was sent again too late, when the image was done: see (d). \
1 packet was sent again though the first one came too: asked for too early, see (d). \
1 packet was asked for that had come: the application lost it or hadn't read it, see (b). \
The camera didn't finish block 7: none of its last 2 packets came, and the capture goes on for 1020 ms.
"""

# One whose first images the capture may not have from their begin on.
BEGUN = f"""\
{ONE.replace("first=1", "first=7").format(10, 0, 2)} last=8 ms=40
images=4 complete=2 incomplete=2 leader=2 small=0 trailer=1 payloads=0 short=0 absent=0 missing=2 late=0 repeat=0 repaired=0 early=0 asked=0 held=0 unrepaired=0
@1 block=5 complete=0 cause=stopped why=leader,trailer missing=1 ids=0 resent=1 edge=begin image=1
@2 block=6 complete=0 cause=stopped why=leader missing=1 ids=0 resent=1 edge=begin image=2
All packets of all images are in the capture, but for what may lie before its begin or behind its end: what the application lacks was lost behind it: see (b) in {GUIDE}.
"""

# Two streams to one port.
MIXED = f"""\
{ONE.format(5, 0, 1)} last=1 ms=0
stream from=192.168.1.11:50002 to=192.168.1.2:49152 ids=standard datagrams=4 payload=600 resent=0 leaders=1 width=40 height=30 pixel=0x01080001 bytes=1200 first=9 last=9 ms=0
warning: nothing is told of 192.168.1.10:50001 to 192.168.1.2:49152, since another stream has that port; a capture of it alone:
  tshark -r PATH -w alone.pcapng 'ip.src==192.168.1.10 && udp.srcport==50001 && ip.dst==192.168.1.2 && udp.dstport==49152'
warning: nothing is told of 192.168.1.11:50002 to 192.168.1.2:49152, since another stream has that port; a capture of it alone:
  tshark -r PATH -w alone.pcapng 'ip.src==192.168.1.11 && udp.srcport==50002 && ip.dst==192.168.1.2 && udp.dstport==49152'
"""

# A camera that was started anew.
ANEW = f"""\
{ONE.format(20, 0, 4)} last=2 ms=160
images=2 complete=2 incomplete=0 leader=0 small=0 trailer=0 payloads=0 short=0 absent=0 missing=0 late=10 repeat=0 repaired=0 early=0
warning: 192.168.1.10:50001 to 192.168.1.2:49152: of 2 images whose block ids aren't new nothing is told: if the camera was started anew, cut the capture there (editcap)
No packet is missing of the images that are told here; the warnings say of what nothing is told.
"""

# One that died within an image, and was started anew.
DIED = f"""\
{ONE.replace("first=1", "first=100").format(22, 0, 5)} last=2 ms=3040
images=3 complete=2 incomplete=1 leader=0 small=0 trailer=1 payloads=1 short=0 absent=0 missing=3 late=10 repeat=0 repaired=0 early=0
@80 block=102 complete=0 cause=old why=trailer,payloads missing=3 ids=2-4 edge=unfinished image=3
warning: 192.168.1.10:50001 to 192.168.1.2:49152: of 2 images whose block ids aren't new nothing is told: if the camera was started anew, cut the capture there (editcap)
The camera didn't finish block 102: none of its last 3 packets came, and the capture goes on for 2960 ms. \
No packet is missing of the other images that are told here; the warnings say of what nothing is told.
"""

# One whose images are whole, and the last of which the capture doesn't hear to its end.
WHOLE = f"""\
{ONE.format(7, 0, 2)} last=2 ms=40
images=2 complete=1 incomplete=1 leader=0 small=0 trailer=1 payloads=1 short=0 absent=0 missing=3 late=0 repeat=0 repaired=0 early=0
@40 block=2 complete=0 cause=stopped why=trailer,payloads missing=3 ids=2-4 edge=end image=2
All packets of all images are in the capture, but for what may lie before its begin or behind its end: what the application lacks was lost behind it: see (b) in {GUIDE}.
"""

# One of which a packet came when its image was done, whose capture has dropped packets.
HELD = f"""\
{ONE.format(10, 0, 2)} last=2 ms=600
images=2 complete=1 incomplete=1 leader=0 small=0 trailer=0 payloads=1 short=0 absent=0 missing=1 late=1 repeat=0 repaired=0 early=0
@0 block=1 complete=0 cause=old why=payloads missing=1 ids=3 late=3 image=1
warning: the capture itself dropped 5 packets: so many of those that are missing here may have come
No packet was lost of the images that are told here, but 1 packet came when the image was done: the camera or the network held it up.
"""


def tell(path, *words):
    """The exit status, standard output and standard error of tools/losses."""
    ran = subprocess.run(["tools/losses", path, *words], capture_output=True, text=True, timeout=300, env={**os.environ, "TZ": "UTC"})
    return ran.returncode, ran.stdout, ran.stderr


def run(program, words, data):
    return subprocess.run([program, *words], input=data, capture_output=True, check=True, timeout=300).stdout


def fields(line):
    return dict(word.split("=", 1) for word in line.split() if "=" in word)


def figures(program, path):
    """Of each stream of a capture, its line, the counts by the notes of `explain`, and the numbers of incomplete images by the replay."""
    with open(path, "rb") as file:
        data = file.read()
    found = []
    for line in run(program, ["streams"], data).decode().splitlines():
        if line.startswith("stream "):
            port, payload, size = re.search(r":(\d+) ids=.* payload=(\d+) .* bytes=(\d+)", line).groups()
            script = run(program, ["capture", port, payload, size], data)
            numbers = numbers_of(run(program, ["replay"], script).decode())
            line = re.sub(r"^stream (\S+) (\S+)", r"stream from=\1 to=\2", line)
            found.append((line, figures_of(run(program, ["explain"], script).decode()), numbers))
    return found


def numbers_of(report):
    """Of each buffer that is taken and isn't whole, its block, and how many are taken up to it."""
    takes = re.findall(r"^take \S+ block=(\d+) complete=([01]) ", report, re.M)
    return {(block, str(number)) for number, (block, complete) in enumerate(takes, 1) if complete == "0"}


def figures_of(text):
    done = re.findall(r"^# \d+ \d+ done .* complete=([01]) .* missing=(\d+) why=(\S+) ids=", text, re.M)
    told = {"images": len(done), "complete": sum(it[0] == "1" for it in done), "incomplete": sum(it[0] == "0" for it in done)}
    for word in ("leader", "small", "trailer", "payloads", "short"):
        told[word] = sum(word in it[2].split(",") for it in done)
    told["absent"] = int(re.search(r" blocks opened=.* absent=(\d+) ", text)[1])
    told["missing"] = sum(int(it[1]) for it in done)
    for word in ("late", "repeat"):
        told[word] = len(re.findall(rf"^# \d+ \d+ {word} ", text, re.M))
    return " ".join(f"{name}={value}" for name, value in told.items())


def timed(text, head=HEAD):
    """The wanted text, with its moments as times, or as they are where no time is told."""
    clock = lambda it: f"time=2023-11-14T22:13:{20 + int(it[1]) // 1000}.{int(it[1]) % 1000:03}"
    if head:
        return f"{head}\n" + re.sub(r"^@(\d+)", clock, text, flags=re.M)
    return re.sub(r"^@(\d+)", r"ms=\1", text, flags=re.M)


class Check:
    """What differs, of a program over captures that are written into a room of their own."""

    def __init__(self, program, room):
        self.program, self.room, self.faults = program, room, []

    def write(self, name, data):
        with open(f"{self.room}/{name}", "wb") as file:
            file.write(data)
        return f"{self.room}/{name}"

    def wants(self, path, status, output, errors=""):
        wanted, found = (status, output, errors), tell(path)
        for left, right in itertools.zip_longest(*("\n".join(map(str, it)).splitlines() for it in (wanted, found))):
            if left != right:
                self.faults.append(f"{path}: {right!r}, not {left!r}")
                return

    def warns(self, path, text):
        status, output, _ = tell(path)
        if status or f"warning: {text}" not in output:
            self.faults.append(f"{path}: no warning of {text}")

    def losses(self):
        """The capture of two streams, as it is, packed, and of a time that isn't known; and that of packets that were asked for."""
        capture = capture_of(two_streams(), [2, 3])
        path = self.write("two.pcapng", capture)
        self.wants(path, 0, timed(TWO))
        if shutil.which("gzip"):
            packed = gzip.compress(capture)
            self.wants(self.write("two.pcapng.gz", packed), 0, timed(TWO))
            self.warns(self.write("half.gz", packed[: len(packed) // 2]), "gzip couldn't unpack all of it")
        self.warns(self.write("cut.pcapng", capture[:-5]), "record 61: cut off: the capture is refused there")
        self.wants(self.write("timeless.pcapng", capture_of(two_streams(), [2, 3], 0)), 0, timed(TWO, ""))
        self.wants(self.write("repaired.pcapng", capture_of(repaired())), 0, timed(REPAIRED))
        self.wants(self.write("begun.pcapng", capture_of(begun_late())), 0, timed(BEGUN))
        return path

    def untold(self):
        """Captures of which not all can be told."""
        one, two = one_camera(), Camera(11, 50002, 49152, False, 40, 30, 600)
        path = self.write("mixed.pcapng", capture_of(one.image(0, 1) + two.image(0, 9)))
        self.wants(path, 0, timed(MIXED).replace("PATH", path))
        anew = one.image(0, 1) + one.image(40, 2) + one.image(120, 1) + one.image(160, 2)
        self.wants(self.write("anew.pcapng", capture_of(anew)), 0, timed(ANEW))
        died = one.image(0, 100) + one.image(40, 101) + one.image(80, 102, [2, 3, TRAILER]) + one.image(3000, 1) + one.image(3040, 2)
        self.wants(self.write("died.pcapng", capture_of(died)), 0, timed(DIED))
        whole = one.image(0, 1) + one.image(40, 2, [2, 3, TRAILER])
        self.wants(self.write("whole.pcapng", capture_of(whole)), 0, timed(WHOLE))
        held = one.image(0, 1, [3]) + [(300, one.frame(1, 3))] + one.image(600, 2)
        self.wants(self.write("held.pcapng", capture_of(held, [5])), 0, timed(HELD))
        none = "There is no image stream in 0 packets: a stream begins with a leader.\n"
        self.wants(self.write("none.pcapng", capture_of([])), 0, none)
        path = self.write("script", b"gevacq 1 528 1 1000 100 2\n")
        self.wants(path, 1, "", f"losses: {path}: record 1: magic: the capture is refused there, and nothing is told of the rest\n")
        path = f"{self.room}/missing"
        self.wants(path, 1, "", f"losses: {path}: No such file or directory\n")

    def recorded(self):
        """The recorded runs, by what their makers lost and counted; and of each what the lines of its images tell, added up."""
        for name, (resent, whole, incomplete) in RECORDED.items():
            _, output, _ = tell(f"checks/resent/{name}.pcap.gz")
            stream, counts, *lines = [fields(line) for line in output.splitlines()[1:]]
            found = int(stream["resent"]), int(counts["complete"]), int(counts["incomplete"])
            if found != (resent, whole, incomplete):
                self.faults.append(f"{name}: {found} sent again, whole and incomplete, not {resent, whole, incomplete}")
            images = [it for it in lines if "block" in it]
            for field, total in (("resent", resent), ("repaired", resent), ("missing", int(counts["missing"]))):
                added = sum(int(it.get(field, 0)) for it in images)
                if added != total:
                    self.faults.append(f"{name}: its images have {field}={added}, not {total}")

    def documented(self):
        """The lines of Python in the document read what is told."""
        with open(GUIDE, encoding="utf-8") as file:
            lines = file.read().split("```python\n")[1].split("```")[0]
        lines += "print(len(images), images[0]['block'], images[0]['ids'])\n"
        ran = subprocess.run([sys.executable, "-c", lines, EXAMPLE], capture_output=True, text=True, timeout=60)
        if ran.stdout != "12 65403 1\n":
            self.faults.append(f"{GUIDE}: its lines of Python find {ran.stdout or ran.stderr}")

    def packets(self):
        """Compares how many packets and datagrams the tool finds in each capture that is at hand with the program's counts."""
        for path in sorted(glob.glob("checks/captured/*.pcap*") + glob.glob("checks/resent/*") + [EXAMPLE]):
            with (gzip.open if path.endswith(".gz") else open)(path, "rb") as file:
                found = [datagram(link, data) for _, link, data in packets(file)]
                file.seek(0)
                told = subprocess.run([self.program, "streams"], input=file.read(), capture_output=True, timeout=60).stdout
            end = fields(told.decode().splitlines()[-1])
            wanted = int(end["packets"]), int(end["datagrams"])
            if (len(found), sum(it is not None for it in found)) != wanted:
                self.faults.append(f"{path}: the tool finds other packets and datagrams than {wanted}")

    def counts(self, path):
        """Compares the counts with those of the notes, and the numbers of images with the replay's; gives how many streams there are."""
        text, wanted = tell(path)[1], figures(self.program, path)
        for line, counts, numbers in wanted:
            if f"{line}\n{counts} " not in text:
                self.faults.append(f"{path}: explain counts {counts} of {line}")
                continue
            told = text.split(f"{line}\n")[1].split("\nstream ")[0]
            if set(re.findall(r" block=(\d+)\S* complete=0 .* image=(\d+)", told)) != numbers:
                self.faults.append(f"{path}: the replay has other numbers of the incomplete images of {line}")
        return len(wanted)


def main():
    with tempfile.TemporaryDirectory() as room:
        check = Check(os.path.abspath(sys.argv[1]), room)
        two = check.losses()
        check.untold()
        check.recorded()
        check.documented()
        check.packets()
        streams = check.counts(EXAMPLE) + check.counts(two)
    for fault in check.faults:
        print(f"checks/losses: {fault}", file=sys.stderr)
    if check.faults or streams != 3:
        sys.exit(1)
    print("checks/losses: its figures of 3 streams are those of explain, of made captures what was lost, of 4 recorded what was sent again")


if __name__ == "__main__":
    main()
