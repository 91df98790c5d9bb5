"""The drawings of a report: all images of a stream in a strip, and what was lost and sent again over time."""

from html import escape

from .words import of

# At most so many images have a cell in the strip.
MOST_CELLS = 100_000
WIDTH, HEIGHT, LEFT, BARS = 960, 190, 46, 140
CELLS = {"whole": "w", "repaired": "r", "incomplete": "i", "absent": "a"}


def strip(stream, anchor):
    """A cell for each image, in their order, of those that aren't whole with a word on it and the way to its line in the table."""
    images = {it.block: it for it in stream.images}
    absent = sorted((least, most) for _, least, most in stream.absent)
    block, drawn = stream.first, 0
    while block is not None and block <= stream.last and drawn < MOST_CELLS:
        image = images.get(block)
        if absent and block >= absent[0][0]:
            least, most = absent.pop(0)
            count = min(most - least + 1, MOST_CELLS - drawn)
            yield f'<a class="a" href="#{anchor}-{least}" title="{cell_title(stream, least, most)}"></a>'
            yield '<i class="a"></i>' * (count - 1)
            block, drawn = most + 1, drawn + count
            continue
        if not image or image.state() == "whole":
            yield '<i class="w"></i>'
        elif image.is_whole:
            yield f'<i class="r" title="block {image.name}: {of(image.repaired(), "packet")} repaired"></i>'
        else:
            yield f'<a class="i" href="#{anchor}-{block}" title="block {image.name}: {of(image.missing, "packet")} missing"></a>'
        block, drawn = block + 1, drawn + 1


def cell_title(stream, least, most):
    to = "" if least == most else f" to {stream.block(most)}"
    return f"block {stream.block(least)}{to}: nothing came"


class Plot:
    """Packets that never came, upwards, and that were sent again, downwards, by the time."""

    def __init__(self, stream, clock):
        self.stream, self.clock = stream, clock
        self.end = max(1, stream.heard.last)
        self.begin = max(0, self.end - max(1, int(stream.of["ms"])))
        self.parts = 160
        self.width = max(1, -(-(self.end - self.begin + 1) // self.parts))

    def sums(self, counted):
        """How many there are in each part of the time."""
        found = [0] * self.parts
        for moment, count in counted:
            found[min(self.parts - 1, max(0, (moment - self.begin) // self.width))] += count
        return found

    def x(self, part):
        return LEFT + part * (WIDTH - LEFT - 8) / self.parts

    def svg(self):
        lost = self.sums((it.moment, it.lost()) for it in self.stream.images)
        again = self.sums(self.stream.heard.again.items())
        most_lost, most_again = max(1, *lost), max(1, *again)
        middle = 8 + BARS // 2
        yield f'<svg class="plot" viewBox="0 0 {WIDTH} {HEIGHT}" role="img" aria-label="packets lost and sent again over time">'
        for value, at in ((most_lost, 8), (0, middle), (most_again, 8 + BARS)):
            yield f'<line class="grid" x1="{LEFT}" x2="{WIDTH - 8}" y1="{at}" y2="{at}"/>'
            yield f'<text class="tick" x="{LEFT - 6}" y="{at + 4}" text-anchor="end">{value}</text>'
        for what, counts, most, up in (("never came", lost, most_lost, True), ("sent again", again, most_again, False)):
            for part, count in enumerate(counts):
                if count:
                    yield self.bar(part, count, most, middle, up, what)
        for moment, least, end in self.stream.absent:
            part = min(self.parts, max(0, (moment - self.begin) / self.width))
            title = escape(f"{of(end - least + 1, 'image')} of which nothing came")
            yield f'<rect class="gone" x="{self.x(part) - 1.5:.1f}" y="{BARS + 12}" width="3" height="9"><title>{title}</title></rect>'
        yield from self.times()
        yield "</svg>"

    def bar(self, part, count, most, middle, up, what):
        height = max(1.5, count * (BARS / 2) / most)
        top = middle - height if up else middle
        width = max(1.2, self.x(1) - self.x(0) - 1)
        title = escape(f"{count} {what} at {self.told(self.begin + part * self.width)}")
        place = f'x="{self.x(part):.1f}" y="{top:.1f}" width="{width:.1f}" height="{height:.1f}"'
        return f'<rect class="{"never" if up else "again"}" {place}><title>{title}</title></rect>'

    def times(self):
        """The times below."""
        for part in range(0, self.parts + 1, self.parts // 4):
            anchor = "start" if part == 0 else "end" if part == self.parts else "middle"
            told = escape(self.told(self.begin + part * self.width))
            yield f'<text class="tick" x="{self.x(part):.1f}" y="{HEIGHT - 8}" text-anchor="{anchor}">{told}</text>'

    def told(self, moment):
        time = self.clock.time(moment)
        return time.split("T")[1] if time else f"{moment} ms"
