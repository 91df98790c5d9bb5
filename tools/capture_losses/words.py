"""The words of lines: fields, spans of numbers, and counts."""


def fields(line):
    """The fields `<name>=<value>` of a line."""
    return dict(word.split("=", 1) for word in line.split() if "=" in word)


def spans_of(ids):
    """The spans of a list of ids, as the notes have it: the first eight, and whether there are more."""
    named = [it for it in ids.split(",") if it not in ("-", "..")]
    return [tuple(int(end) for end in (it.split("-") * 2)[:2]) for it in named], ids.endswith(",..")


def spans_text(ids):
    """Rising ids as spans, as the notes write them."""
    spans = []
    for it in ids:
        if spans and spans[-1][1] == it - 1:
            spans[-1][1] = it
        else:
            spans.append([it, it])
    return ",".join(str(least) if least == most else f"{least}-{most}" for least, most in spans)


def of(count, what, whats=None):
    """A count with its word: one packet, two packets."""
    return f"{count} {what if count == 1 else whats or what + 's'}"
