"""What is told of a capture: lines of fields, and warnings."""

import datetime

from .images import MOST_IMAGE, MOST_PAYLOAD, REASONS
from .verdict import Sums
from .words import of, spans_text


class Clock:
    """Tells moments of the capture, in milliseconds, as times where the time of its begin is known."""

    def __init__(self, begin):
        self.begin = begin if begin and self.date(begin) else None

    def date(self, time):
        try:
            return datetime.datetime.fromtimestamp(time // 1000).astimezone() + datetime.timedelta(milliseconds=time % 1000)
        except (OverflowError, ValueError, OSError):
            return None

    def time(self, moment):
        """The time, as ISO 8601 writes it, without its zone."""
        date = self.begin and self.date(self.begin + moment)
        return date.replace(tzinfo=None).isoformat(timespec="milliseconds") if date else None

    def field(self, moment):
        time = self.time(moment)
        return f"time={time}" if time else f"ms={moment}"

    def head(self):
        return f"begin={self.time(0)} zone={self.date(self.begin).isoformat()[-6:]}" if self.begin else None


def counts(stream):
    """The line of counts of a stream."""
    sums, told = Sums([stream]), {}
    told["images"], told["complete"] = sums.all, sums.whole
    told["incomplete"] = sums.all - sums.whole
    for word in REASONS:
        told[word] = sum(word in it.note["why"].split(",") for it in stream.images)
    told["absent"], told["missing"] = sums.absent, sum(it.missing for it in stream.images)
    told["late"], told["repeat"] = stream.counts["end.late"], stream.counts["end.repeat"]
    told["repaired"], told["early"] = sums.repaired, sums.early
    if stream.heard.has_control:
        told["asked"], told["held"], told["unrepaired"] = sums.asked, sums.held, sums.unrepaired
    told.update({name: stream.counts[f"end.{name}"] for name in ("misfit", "notice", "foreign") if stream.counts[f"end.{name}"]})
    return " ".join(f"{name}={value}" for name, value in told.items())


def image_fields(stream, image):
    """The fields of an image, behind its time."""
    note = image.note
    told = {"block": stream.block(image.block), "complete": note["complete"], "cause": note["cause"], "why": note["why"]}
    told["missing"], told["ids"] = image.missing, note["ids"]
    if image.late:
        told["late"] = spans_text(image.late)
    again = image.resends
    found = {"resent": again.resent, "repaired": image.repaired(), "early": again.early, "asked": again.asked}
    found.update(held=again.held, unrepaired=min(again.unrepaired, image.lost()))
    told.update({name: value for name, value in found.items() if value})
    if image.edge:
        told["edge"] = image.edge
    return {**told, "image": image.number}


def absent_fields(stream, least, most):
    """The fields of images of which nothing came."""
    blocks = stream.block(least) if least == most else f"{stream.block(least)}-{stream.block(most)}"
    return {"blocks": blocks, "absent": most - least + 1}


def rows(stream):
    """The images that aren't whole or of which packets came again or were asked for, and those of which nothing came, in order: of each its
    first block, its moment, its fields, and the image, where there is one."""
    found = [(it.block, it.moment, image_fields(stream, it), it) for it in stream.images]
    found += [(least, moment, absent_fields(stream, least, most), None) for moment, least, most in stream.absent]
    return sorted(found, key=lambda it: it[0])


def stream_lines(stream, clock):
    yield counts(stream)
    for _, moment, told, _ in rows(stream):
        yield f"{clock.field(moment)} " + " ".join(f"{name}={value}" for name, value in told.items())


def stream_warnings(stream):
    """What isn't told of a stream."""
    pair = f"{stream.sender} to {stream.receiver}"
    if stream.heard.anew > 1:
        untold = f"of {stream.heard.anew} images whose block ids aren't new nothing is told"
        yield f"{pair}: {untold}: if the camera was started anew, cut the capture there (editcap)"
    if int(stream.of["payload"]) > MOST_PAYLOAD or int(stream.of["bytes"]) > MOST_IMAGE:
        yield f"{pair}: payloads above {MOST_PAYLOAD} bytes, or images above {MOST_IMAGE}, aren't taken"
    if int(stream.of["ms"]) == 0 and int(stream.of["leaders"]) > 1:
        yield f"{pair}: all its packets have one moment: times in the capture go back"


def end_warnings(end, path):
    """What the end line of `streams` warns of."""
    dropped = int(end["dropped"])
    if dropped:
        yield f"the capture itself dropped {of(dropped, 'packet')}: so many of those that are missing here may have come"
    if int(end["cut"]):
        yield f"of {of(int(end['cut']), 'packet')} not all bytes were captured, and they count as missing: capture with -s 0"
    if int(end["fragments"]):
        yield f"{of(int(end['fragments']), 'fragment')} of packets, which count as missing: the camera's are larger than the network's"
    if int(end["unlisted"]):
        yield f"{path} has more than 256 streams: nothing is told of the others"
