"""What a capture says, in a sentence: what is lost and repaired, of all its streams together, and where to look."""

import re

from .words import of

GUIDE = "docs/LOST_FRAMES.md"


class Sums:
    """What is lost and repaired, of one stream or of several."""

    def __init__(self, streams):
        images = [it for stream in streams for it in stream.images]
        self.images = images
        self.lost, self.late = sum(it.lost() for it in images), sum(len(it.late) for it in images)
        self.lacking = sum(it.lost() > 0 for it in images)
        self.absent = sum(stream.counts["blocks.absent"] for stream in streams)
        self.whole = sum(stream.counts["blocks.complete"] for stream in streams)
        self.all = self.whole + sum(stream.counts["blocks.incomplete"] for stream in streams)
        self.notices = sum(stream.counts["end.notice"] for stream in streams)
        self.again_late, self.repaired = sum(it.again_late() for it in images), sum(it.repaired() for it in images)
        self.whole_again = sum(it.state() == "repaired" for it in images)
        self.repaired_images = sum(it.repaired() > 0 for it in images)
        for name in ("early", "asked", "held"):
            setattr(self, name, sum(getattr(it.resends, name) for it in images))
        self.unrepaired = sum(min(it.resends.unrepaired, it.lost()) for it in images)
        self.unfinished = [it for it in images if it.edge == "unfinished"]
        self.is_loss = bool(self.lost or self.absent or self.late or self.unfinished)
        self.has_edges = any(it.edge in ("begin", "end") for it in images)
        self.sizes = any(it.note["why"] in ("small", "short", "small,short") for it in images)


def sentences(sums, dropped, warned):
    """What it says, where the capture itself dropped so many packets, and of some things nothing was told; the guide is named once."""
    named = False
    for it in all_sentences(sums, dropped, warned):
        yield re.sub(f",? in {GUIDE}", "", it) if named else it
        named = named or GUIDE in it


def all_sentences(sums, dropped, warned):
    held_up = sums.late - sums.again_late
    if sums.lost or sums.absent:
        yield lost_sentence(sums, dropped)
    elif sums.sizes and not sums.late:
        yield "Nothing was lost on the way, but images aren't as large as their leaders say."
    if held_up:
        nothing = "No packet was lost of the images that are told here, but " if warned else "Nothing was lost on the way, but "
        it = "it" if held_up == 1 else "them"
        were = f"{of(held_up, 'packet')} came when the image was done: the camera or the network held {it} up."
        yield were if sums.lost or sums.absent or sums.repaired or sums.again_late else nothing + were
    yield from again_sentences(sums)
    for image in sums.unfinished:
        last = f"none of its last {image.beyond} packets" if image.beyond > 1 else "its last packet never"
        yield f"The camera didn't finish block {image.name}: {last} came, and the capture goes on for {image.silence} ms."
    if sums.lost or sums.absent or sums.late or sums.sizes:
        return
    but = ", but for what may lie before its begin or behind its end" if sums.has_edges else ""
    if warned:
        which = "other images" if sums.unfinished else "images"
        yield f"No packet is missing of the {which} that are told here{but}; the warnings say of what nothing is told."
        return
    so = f"So all packets of all {of(sums.all, 'image')}" if sums.repaired else "All packets of all images"
    so = "All packets of all other images" if sums.unfinished else so
    yield f"{so} are in the capture{but}: what the application lacks was lost behind it: see (b) in {GUIDE}."


def lost_sentence(sums, dropped):
    """Of what isn't in the capture."""
    found = []
    if sums.lost:
        found.append(f"{of(sums.lost, 'packet')} of {of(sums.lacking, 'image')}")
    if sums.absent:
        found.append(of(sums.absent, "whole image"))
    told = f"{' and '.join(found)} {'is' if sums.lost + sums.absent == 1 else 'are'}n't in the capture"
    if dropped:
        told += f": see (a) in {GUIDE}, since the capture itself dropped {of(dropped, 'packet')}."
    else:
        told += f": where it dropped none itself, they were lost before it: see (a), then (c), in {GUIDE}."
    if sums.unrepaired:
        notices = f", and the camera sent {of(sums.notices, 'notice')} that it can't send packets again" if sums.notices else ""
        told += f" {of(sums.unrepaired, 'of them was', 'of them were')} asked for and not repaired{notices}: see (d)."
    return told


def again_sentences(sums):
    """Of packets that came again, or were asked for without need."""
    if sums.repaired:
        beside = "Beside these " if sums.lost or sums.absent else ""
        were = f"{of(sums.repaired, 'packet')} of {of(sums.repaired_images, 'image')} {'was' if sums.repaired == 1 else 'were'}"
        yield f"{beside}{were} lost and repaired by being sent again: see (d) in {GUIDE}."
    if sums.again_late:
        were = of(sums.again_late, "lost packet was", "lost packets were")
        yield f"{were} sent again too late, when the image was done: see (d) in {GUIDE}."
    if sums.early:
        were = of(sums.early, "packet was", "packets were")
        yield f"{were} sent again though the first one came too: asked for too early, see (d) in {GUIDE}."
    if sums.held:
        were, it = of(sums.held, "packet was", "packets were"), "it" if sums.held == 1 else "them"
        yield f"{were} asked for that had come: the application lost {it} or hadn't read {it}, see (b) in {GUIDE}."
