"""A report to send to a colleague: index.html, which stands alone, losses.csv, and a picture of each damaged image."""

import base64
import csv
import os
from html import escape

from . import page
from .charts import MOST_CELLS, Plot, strip
from .pictures import damage, full, pictures, thumbnail
from .program import stop
from .telling import rows
from .verdict import Sums
from .words import of

# So many images are drawn, and so many lines of a table are written for each stream.
MOST_DRAWN, MOST_LINES = 200, 20_000
COLUMNS = "from to time ms state block blocks absent cause why missing ids late".split()
COLUMNS += "resent repaired early asked held unrepaired edge image picture".split()
REASONS = {
    "leader": "the leader is missing",
    "small": "the image is larger than its buffer",
    "trailer": "the trailer is missing",
    "payloads": "payload packets are missing",
    "short": "payloads are shorter than the leader says",
}
EDGES = {
    "begin": "the capture may begin within it",
    "end": "the capture may end within it",
    "unfinished": "the camera didn't finish it",
}


class Report:
    """What is written into a folder."""

    def __init__(self, losses, folder):
        self.losses, self.folder = losses, folder
        # of each image that is drawn, by its stream and block, its file, and its thumbnail with columns and rows
        self.drawn = {}

    def writes(self, name, data):
        try:
            with open(f"{self.folder}/{name}", "wb") as file:
                file.write(data)
        except OSError as fault:
            stop(f"{self.folder}/{name}: {fault.strerror}")

    def draws(self, progress):
        """Draws the first damaged images that have a leader."""
        left = MOST_DRAWN
        for stream in self.losses.told:
            wanted = [it for it in stream.images if not it.is_whole and it.leader][:left]
            left -= len(wanted)
            if wanted:
                progress.does(f"drawing {of(len(wanted), 'image')} of {stream.sender}", self.losses.capture.part)
                self.draws_stream(stream, wanted)

    def draws_stream(self, stream, wanted):
        """Draws these images of a stream, which are in the order in which they're taken."""
        wanted = sorted(wanted, key=lambda it: it.pictured)
        with self.losses.capture.runs(stream.capture_words(), ["image", "all"]) as run:
            for number, (_, picture) in enumerate(pictures(run.output), 1):
                if number < wanted[0].pictured:
                    continue
                image = wanted.pop(0)
                if picture.columns != int(image.leader["width"]):
                    break
                marks = damage(stream, image, picture.rows)
                name = f"image-{stream.port}-{image.number}.png"
                self.writes(name, full(picture, marks))
                self.drawn[stream.port, image.block] = (name, *thumbnail(picture, marks))
                if not wanted:
                    break

    def table(self):
        """The rows of losses.csv: what the lines of fields tell."""
        for stream in self.losses.told:
            for block, moment, told, image in rows(stream):
                row = {**told, "from": stream.sender, "to": stream.receiver, "time": self.losses.clock.time(moment), "ms": moment}
                row["state"] = image.state() if image else "absent"
                row["picture"] = self.drawn.get((stream.port, block), ("",))[0]
                yield row

    def writes_table(self):
        try:
            with open(f"{self.folder}/losses.csv", "w", encoding="utf-8", newline="") as file:
                writer = csv.DictWriter(file, COLUMNS, extrasaction="ignore")
                writer.writeheader()
                writer.writerows(self.table())
        except OSError as fault:
            stop(f"{self.folder}/losses.csv: {fault.strerror}")

    def html(self):
        """The page."""
        losses = self.losses
        name = os.path.basename(losses.capture.path)
        yield page.head(f"Lost frames: {name}")
        yield f"<h1>Lost frames <small>{escape(name)}</small></h1>"
        kind = "lost" if Sums(losses.told).is_loss else ""
        yield f'<div class="verdict {kind}">' + "".join(f"<p>{escape(it)}</p>" for it in losses.verdict()) + "</div>"
        for warning in losses.warnings():
            yield f'<p class="warning">{escape(warning)}</p>'
        yield "<dl>" + "".join(f"<div><dt>{what}</dt><dd>{escape(str(told))}</dd></div>" for what, told in self.facts()) + "</dl>"
        for stream in losses.told:
            yield from self.stream(stream)
        yield page.FOOT

    def facts(self):
        end, clock = self.losses.end, self.losses.clock
        if clock.head():
            yield "begins", f"{clock.time(0).replace('T', ' ')} {clock.date(clock.begin).isoformat()[-6:]}"
        yield "lasts", f"{self.losses.last / 1000:.3f} s"
        yield "packets", end["packets"]
        if int(end["dropped"]):
            yield "dropped by the capture itself", end["dropped"]

    def stream(self, stream):
        of_stream, sums = stream.of, Sums([stream])
        yield f"<section><h2>{escape(stream.sender)} <span>to</span> {escape(stream.receiver)}</h2>"
        pixel, size = of_stream["pixel"], f"{of_stream['width']} × {of_stream['height']} pixels"
        packets = f"payloads of {of_stream['payload']} bytes, {of_stream['ids']} ids, blocks {of_stream['first']} to {of_stream['last']}"
        yield f'<p class="facts">{size} of format {pixel}, {of_stream["bytes"]} bytes; {packets}</p>'
        yield self.cards(stream, sums)
        yield self.strip(stream, sums)
        if sums.lost or int(of_stream["resent"]) or stream.absent:
            yield "<h3>Lost and sent again, over time</h3>"
            yield page.PLOT_LEGEND + "".join(Plot(stream, self.losses.clock).svg())
        yield from self.lines(stream)
        yield "</section>"

    def cards(self, stream, sums):
        cards = [("images", sums.all + sums.absent, ""), ("whole", sums.whole, "w"), ("of these repaired", sums.whole_again, "r")]
        cards += [("incomplete", sums.all - sums.whole, "i"), ("absent", sums.absent, "a")]
        cards += [("packets lost", sums.lost, "never"), ("packets repaired", sums.repaired, "again")]
        if stream.heard.has_control:
            cards += [("asked for", sums.asked, ""), ("in vain", sums.unrepaired, "")]
        told = "".join(f'<div class="card {kind}"><b>{value}</b>{name}</div>' for name, value, kind in cards)
        return f'<div class="cards">{told}</div>'

    def strip(self, stream, sums):
        all_images = sums.all + sums.absent
        size = "large" if all_images <= 300 else "small" if all_images <= 3000 else "tiny"
        more = f" (the first {MOST_CELLS} of {all_images})" if all_images > MOST_CELLS else ""
        cells = "".join(strip(stream, anchor(stream)))
        return f'<h3>All images, in their order{more}</h3>{page.STRIP_LEGEND}<div class="strip {size}">{cells}</div>'

    def lines(self, stream):
        """The table of images that aren't whole."""
        lines = [it for it in rows(stream) if not it[3] or not it[3].is_whole]
        if not lines:
            return
        yield "<h3>Images that aren't whole</h3>" + page.TABLE_HEAD
        for block, moment, told, image in lines[:MOST_LINES]:
            time = escape((self.losses.clock.time(moment) or f"{moment} ms").replace("T", " "))
            yield f'<tr id="{anchor(stream)}-{block}"><td>{self.picture(stream, image)}</td><td>{time}</td>'
            yield self.image_cells(stream, image, told) if image else absent_cells(told)
            yield "</tr>"
        yield "</table>"
        if len(lines) > MOST_LINES:
            yield f"<p>{len(lines) - MOST_LINES} more are in losses.csv.</p>"

    def picture(self, stream, image):
        if not image:
            return "–"
        found = self.drawn.get((stream.port, image.block))
        if found:
            name, small, columns, height = found
            data = base64.b64encode(small).decode()
            size = f'width="{columns}" height="{height}"'
            return f'<a href="{name}"><img alt="block {image.name}" {size} src="data:image/png;base64,{data}"></a>'
        return "not drawn" if image.leader else "no leader"

    def image_cells(self, stream, image, told):
        reasons = [REASONS[it] for it in image.note["why"].split(",") if it in REASONS]
        extent = image.kept + image.missing
        more = [EDGES[image.edge]] if image.edge else []
        if image.late:
            more.append(f"{of(len(image.late), 'packet')} came when it was done: {told['late'].replace(',', ', ')}")
        if told.get("repaired"):
            more.append(f"{of(told['repaired'], 'packet')} repaired")
        if told.get("asked"):
            more.append(f"{of(told['asked'], 'packet')} asked for")
        if told.get("unrepaired"):
            more.append(f"{told['unrepaired']} of the missing asked for in vain")
        ids = escape(told["ids"].replace(",", ", ").replace("..", "…"))
        return (
            f"<td>{told['block']}</td><td>{image.number}</td><td>{image.missing} of {extent}</td><td class='wraps'>{ids}</td>"
            f"<td class='wraps'>{escape('; '.join(reasons + more))}</td>"
        )


def absent_cells(told):
    nothing = f"nothing came of {of(told['absent'], 'image')}"
    return f"<td>{told['blocks']}</td><td>–</td><td>all</td><td>–</td><td class='wraps'>{nothing}</td>"


def anchor(stream):
    return f"port-{stream.port}"


def write_report(losses, folder, progress):
    """Writes the report into the folder, and tells where it is."""
    try:
        os.makedirs(folder, exist_ok=True)
    except OSError as fault:
        stop(f"{folder}: {fault.strerror}")
    report = Report(losses, folder)
    report.draws(progress)
    progress.does(f"writing {folder}")
    report.writes_table()
    report.writes("index.html", "\n".join(report.html()).encode())
