"""Looks into the reports that tools/losses writes, by what is known to have been lost: the page stands alone, its strip has a cell for each
image, each picture has in red what never came, and the rest is the camera's. In a browser, where there is one, the page loads without an
error."""

import csv
import html.parser
import os
import resource
import shutil
import subprocess
import sys
import tempfile
import zlib

from losses_made import LEADER, TRAILER, Camera, capture_of, one_camera, repaired

NEVER, LATE = (0xE3, 0x1A, 0x1C), (0xFF, 0xA5, 0x00)
BROWSERS = ("chromium", "chromium-browser", "google-chrome")
# More than this isn't drawn.
MOST_DRAWN = 200


class Page(html.parser.HTMLParser):
    """What a page has: its cells by their kind, its lines of a table, what it refers to, its pictures, and its elements."""

    def __init__(self, text):
        super().__init__()
        self.cells, self.lines, self.names = [], [], set()
        self.links, self.sources, self.elements = [], [], set()
        self.in_strip = False
        self.feed(text)

    def handle_starttag(self, tag, attributes):
        of = dict(attributes)
        self.elements.add(tag)
        if self.in_strip and tag in ("a", "i"):
            self.cells.append(of["class"])
        if tag == "div":
            self.in_strip = of.get("class", "").startswith("strip")
        if tag == "tr" and "id" in of:
            self.lines.append(of["id"])
        self.names.add(of.get("id"))
        self.links += [of["href"]] if "href" in of else []
        self.sources += [of["src"]] if "src" in of else []

    def handle_endtag(self, tag):
        self.in_strip = self.in_strip and tag != "div"


def pixels(file):
    """The columns and the rows of red, green and blue of a PNG file of 8 bits a colour, with or without an opacity."""
    at, packed = 8, b""
    while at < len(file):
        size, kind = int.from_bytes(file[at : at + 4], "big"), file[at + 4 : at + 8]
        data = file[at + 8 : at + 8 + size]
        if kind == b"IHDR":
            columns, width = int.from_bytes(data[:4], "big"), {2: 3, 6: 4}[data[9]]
        packed += data if kind == b"IDAT" else b""
        at += 12 + size
    data, stride, above, rows = zlib.decompress(packed), width * columns, None, []
    for begin in range(0, len(data), 1 + stride):
        above = unfiltered(data[begin], bytearray(data[begin + 1 : begin + 1 + stride]), above or bytes(stride), width)
        rows.append([tuple(above[it : it + 3]) for it in range(0, stride, width)])
    return columns, rows


def unfiltered(kind, line, above, width):
    """A line of a PNG file, whose bytes stand for differences by this kind."""
    if kind == 2:
        return bytearray(left + right & 255 for left, right in zip(line, above))
    for at in range(len(line) if kind else 0):
        left, corner, up = (line[at - width], above[at - width], above[at]) if at >= width else (0, 0, above[at])
        if kind == 4:
            nearest = min((left, up, corner), key=lambda it: abs(left + up - corner - it))
        else:
            nearest = left if kind == 1 else (left + up) // 2
        line[at] = line[at] + nearest & 255
    return line


def losses(path, *words):
    ran = subprocess.run(["tools/losses", path, *words], capture_output=True, timeout=600, env={**os.environ, "TZ": "UTC"})
    if ran.returncode:
        sys.exit(f"checks/losses: tools/losses {path} {' '.join(words)}: {ran.returncode}, {ran.stderr.decode()}")
    return ran.stdout


class Check:
    def __init__(self, program, room):
        self.program, self.room, self.faults = program, room, []

    def wants(self, what, found, wanted):
        if found != wanted:
            self.faults.append(f"{what}: {found}, not {wanted}")

    def write(self, name, data):
        with open(f"{self.room}/{name}", "wb") as file:
            file.write(data)
        return f"{self.room}/{name}"

    def report(self, name, path, cells, lines, drawn):
        """A report of a capture, with so many cells of each kind, lines of its table, and pictures; gives its page."""
        folder = f"{self.room}/{name}"
        losses(path, "--report", folder)
        with open(f"{folder}/index.html", encoding="utf-8") as file:
            page = Page(file.read())
        self.wants(f"{name}: cells", "".join(page.cells), cells)
        self.wants(f"{name}: lines", len(page.lines), lines)
        files = sorted(it for it in os.listdir(folder) if it.endswith(".png"))
        self.wants(f"{name}: pictures", len(files), drawn)
        self.wants(f"{name}: elements that load something", page.elements & {"script", "link", "iframe", "object"}, set())
        self.wants(f"{name}: sources", [it[:40] for it in page.sources if not it.startswith("data:image/png;base64,")], [])
        self.wants(f"{name}: thumbnails", len(page.sources), drawn)
        outside = [it for it in page.links if it not in files and not (it[:1] == "#" and it[1:] in page.names)]
        self.wants(f"{name}: links to nothing", outside, [])
        return folder

    def repaired(self):
        """A capture of each kind, with images of 60 x 50 pixels."""
        one = one_camera()
        frames = repaired() + one.image(600, 9, [LEADER]) + one.image(640, 10)
        path = self.write("kinds.pcapng", capture_of(frames))
        # of 5 a packet came too late, of 7 the end never came, of 8 nothing did, of 9 no leader
        folder = self.report("kinds", path, "riwwiwiaiw", 5, 3)
        with open(f"{folder}/losses.csv", encoding="utf-8", newline="") as file:
            rows = {it["block"] or it["blocks"]: it for it in csv.DictReader(file)}
        states = [it["state"] for it in rows.values()]
        self.wants("losses.csv", states, "repaired incomplete whole whole incomplete incomplete absent incomplete".split())
        self.wants("losses.csv: time", rows["7"]["time"], "2023-11-14T22:13:20.520")
        for block, red, orange in (("2", {3}, set()), ("5", set(), {2}), ("7", {3}, set())):
            self.picture(f"{folder}/{rows[block]['picture']}", one, int(block), red, orange)
        self.one_image(path, one, rows["2"]["image"])
        return folder

    def picture(self, path, camera, block, red, orange):
        """A picture has the camera's pixels, but for those of the payloads that never came and that came too late."""
        with open(path, "rb") as file:
            columns, rows = pixels(file.read())
        grey = [(it, it, it) for it in camera.pixels(block)]
        for ids, colour in ((red, NEVER), (orange, LATE)):
            for it in ids:
                grey[camera.payload * (it - 1) : camera.payload * it] = [colour] * camera.payload
        self.wants(f"the picture of block {block}", [columns, sum(rows, [])] == [camera.columns, grey], True)

    def one_image(self, path, camera, number):
        """`--image` draws the same as the program, and ends quietly where nobody reads it."""
        with open(path, "rb") as file:
            script = subprocess.run([self.program, "capture", "49152", "1000", "3000"], stdin=file, capture_output=True, check=True).stdout
        drawn = subprocess.run([self.program, "image", number], input=script, capture_output=True, check=True).stdout
        self.wants("--image", losses(path, "--image", number) == drawn, True)
        for words in (f"--image {number}", ""):
            ran = subprocess.run(f"tools/losses {path} {words} | head -c 1", shell=True, capture_output=True, timeout=60)
            self.wants(f"{words} | head", (len(ran.stdout), ran.stderr), (1, b""))
        ran = subprocess.run(["tools/losses", path, "--image", "99"], capture_output=True, text=True, timeout=60)
        none = "losses: gevacq image ends with 13: gevacq: no picture: 9 buffers were taken\n"
        self.wants("--image 99", (ran.returncode, ran.stderr), (1, none))

    def formats(self):
        """Of pixels of 10, 12, 16 and 24 bits those are red of which a bit never came."""
        for pixel in (0x010A0046, 0x010C0006, 0x010C0047, 0x01100005, 0x02180014):
            camera = Camera(10, 50001, 49152, True, 64, 48, 700, pixel)
            path = self.write("format.pcapng", capture_of(camera.image(0, 1, [3, 5]) + camera.image(40, 2)))
            folder = self.report(f"format_{pixel:08x}", path, "iw", 1, 1)
            with open(f"{folder}/image-49152-1.png", "rb") as file:
                found = [it == NEVER for it in sum(pixels(file.read())[1], [])]
            ids = [range(at * camera.bits // 8 // 700 + 1, ((at + 1) * camera.bits - 1) // 8 // 700 + 2) for at in range(64 * 48)]
            self.wants(f"red pixels of format {pixel:08x}", found == [3 in it or 5 in it for it in ids], True)

    def many(self):
        """Images of which more are damaged than are drawn."""
        camera = Camera(10, 50001, 49152, False, 40, 30, 600)
        frames = [it for block in range(1, 231) for it in camera.image(10 * block, block, [2] if block % 8 else [TRAILER])]
        self.report("many", self.write("many.pcapng", capture_of(frames)), "i" * 230, 230, MOST_DRAWN)

    def cost(self):
        """Telling takes at most three times the processor time that `capture | replay` of the file takes."""
        camera = Camera(10, 50001, 49152, True, 1280, 960, 1440)
        frames = camera.image(0, 1)
        frames = [(moment, frame[:50] + block.to_bytes(8, "big") + frame[58:]) for block in range(1, 25) for moment, frame in frames]
        path = self.write("large.pcapng", capture_of(frames))
        replay = f"'{self.program}' capture 49152 1440 1228800 < {path} | '{self.program}' replay > {self.room}/replayed"
        spent = min(cost(["sh", "-c", replay]) for _ in range(2))
        told = min(cost(["tools/losses", path]) for _ in range(2))
        if told > 3 * spent:
            self.faults.append(f"tools/losses takes {told:.2f} s, and capture with replay {spent:.2f} s")

    def browser(self, folder):
        """Loads a page in a browser; gives whether there is one."""
        browser = next(filter(None, map(shutil.which, BROWSERS)), None)
        if not browser:
            return False
        command = [browser, "--headless", "--no-sandbox", "--disable-gpu", "--disable-dev-shm-usage", "--hide-scrollbars"]
        command += ["--window-size=800,600", f"--user-data-dir={self.room}/browser", "--enable-logging=stderr"]
        page = f"file://{folder}/index.html"
        loaded = subprocess.run([*command, "--dump-dom", page], capture_output=True, text=True, timeout=300)
        errors = [it for it in loaded.stderr.splitlines() if "CONSOLE" in it or "ERR_" in it]
        self.wants("the browser's errors", errors, [])
        self.wants("the browser's cells", "".join(Page(loaded.stdout).cells), "riwwiwiaiw")
        shot = f"{self.room}/shot.png"
        subprocess.run([*command, f"--screenshot={shot}", page], capture_output=True, timeout=300)
        with open(shot, "rb") as file:
            shown = sum(pixels(file.read())[1], [])
        # at least the cells of 5 images, of 11 x 22 pixels
        self.wants("red in the browser's picture", shown.count(NEVER) >= 5 * 242, True)
        return True


def cost(command):
    """The processor time of a command in seconds."""
    spent = lambda: sum(resource.getrusage(resource.RUSAGE_CHILDREN)[:2])
    before = spent()
    subprocess.run(command, capture_output=True, check=True, timeout=600)
    return spent() - before


def main():
    with tempfile.TemporaryDirectory() as room:
        check = Check(os.path.abspath(sys.argv[1]), room)
        folder = check.repaired()
        check.formats()
        check.many()
        check.cost()
        seen = check.browser(folder)
    for fault in check.faults:
        print(f"checks/losses: {fault}", file=sys.stderr)
    if check.faults:
        sys.exit(1)
    browser = "loads in a browser" if seen else "wasn't loaded in a browser, since there is none"
    print(f"checks/losses: a report has a cell for each image and in red what never came, and {browser}")


if __name__ == "__main__":
    main()
