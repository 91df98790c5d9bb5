"""The manual pages, in the form and with the sections of man-pages(7): the program's of its help, and of the table of statuses in
docs/FORMATS.md; a tool's of its own help."""

import re

from program import Refusal

SIGNALS = """\
.SS Signals
.B receive
and
.B simulate
end in order where SIGINT (Control\\-C), SIGTERM or SIGHUP comes: the camera is stopped and let go, the last line is written, and the status
is the program's.
A second signal, a second or more behind the first, ends them at once.
For this the program's standard input is a pipe, whose name stands for a moment in the folder of
.BR TMPDIR .
A camera that wasn't let go is free again when its heartbeat limit is over, mostly 3 seconds.
"""

# What the part that ends the program in order answers by itself.
OWN_STATUSES = """\
.TP
.B 126
.B receive
or
.B simulate
could make no pipe in the folder of
.BR TMPDIR .
.TP
.B 128 + n
the signal of number n ended it: the second one of
.B receive
or
.BR simulate .
"""

ENVIRONMENT = """\
.TP
.B GEVACQ
The program that
.BR gevacq\\-losses (1)
and
.BR gevacq\\-features (1)
run, where it isn't the
.B gevacq
beside them.
"""


def escaped(text):
    """The text as the formatter takes it. An apostrophe or a dot begins no line as text does."""
    text = text.replace("\\", "\\e").replace("-", "\\-").replace("^", "\\(ha").replace("~", "\\(ti")
    return re.sub(r"(?m)^(?=[.'])", r"\\&", text)


def marked(text):
    """The text with what stands in backquotes in bold, and what stands for a value in italic letters."""
    text = re.sub(r"`([^`]+)`", r"\\fB\1\\fR", escaped(text))
    return re.sub(r"<([a-z][a-z|0-9 \\\-]*)>", r"\\fI\1\\fR", text)


def command_line(head):
    """A command's own line: all but the values in bold."""
    return re.sub(r"<([^>]+)>", r"\\fI\1\\fB", f"\\fB{escaped(head)}\\fR")


def body(lines):
    """A part's text; lines that are indented have a word each, and behind two spaces what it means."""
    text, listed = [], False
    for line in lines:
        word = re.fullmatch(r" {2}(\S+) {2,}(\S.*)", line)
        if word and not listed:
            text.append(".RS")
        if word:
            text += [".TP", command_line(word[1]), marked(word[2])]
        else:
            if listed and not line.startswith(" "):
                text += [".RE", ".IP"]
            text.append(marked(line.strip()))
        listed = bool(word) or (listed and line.startswith(" "))
    return "\n".join([*text, ".RE"] if listed else text)


def commands(it):
    text = []
    for heading, parts in it.groups:
        if parts and heading:
            text.append(f".SS {marked(heading)}")
        for part in parts:
            text += [".TP", command_line(part.head), body(part.lines)]
    return "\n".join(text)


def cells(line):
    return [it.strip().replace("\\|", "|") for it in re.split(r"(?<!\\)\|", line)[1:-1]]


def table(page, head):
    """The rows of the table with this first line."""
    lines = page.split("\n")
    if head not in lines:
        raise Refusal(f"docs/FORMATS.md has no table of this head: {head}")
    rows = []
    for line in lines[lines.index(head) + 2 :]:
        if not line.startswith("|"):
            return rows
        rows.append([re.sub(r"\[([^\]]*)\]\([^)]*\)", r"\1", it) for it in cells(line)])
    return rows


def statuses(formats):
    """What each exit status says, by docs/FORMATS.md."""
    text = []
    for status, comes, says, _ in table(formats, "| Status | Comes where | Standard error | Standard output |"):
        text += [".TP", f".B {status}", marked(comes) + ("." if says == "nothing" else f".\nStandard error: {marked(says)}.")]
        if status == "0":
            text.append(".RS")
            for names, comes in table(formats, "| Command | It comes where |"):
                text += [".TP", marked(names), marked(comes) + "."]
            text.append(".RE")
    return "\n".join(text)


def examples(it):
    """An example of each command. Those whose files aren't installed are left out."""
    told = [part.example for part in it.commands if "cases/" not in part.example]
    return "\n".join([".EX", *(escaped(example) for example in told), ".EE"])


def program_page(it, formats, version, date, prefix):
    name, purpose = it.title.split(": ", 1)
    options = [line for part in it.options for line in (".TP", command_line(part.head), body(part.lines))]
    ranges = [line for words, range_ in it.ranges for line in (".TP", marked(words), marked(range_))]
    files = [
        (f"{prefix}/lib/gevacq/gevacq", "The program itself, which no signal ends in order."),
        (f"{prefix}/share/doc/gevacq", "The documents, with the examples, and what was proved of this program."),
    ]
    return "\n".join([
        f'.TH {name.upper()} 1 "{date}" "{name} {version}" "User Commands"',
        ".SH NAME", f"{name} \\- {escaped(purpose)}",
        ".SH SYNOPSIS", ".nf", *(command_line(part.head) for part in it.commands), ".fi",
        ".SH DESCRIPTION", commands(it),
        ".SS The ranges of words", *ranges, ".PP", marked(it.closing), SIGNALS.rstrip("\n"),
        ".SH OPTIONS", *options,
        ".SH EXIT STATUS", statuses(formats), OWN_STATUSES.rstrip("\n"),
        ".SH ENVIRONMENT", ENVIRONMENT.rstrip("\n"), ".TP", ".B TMPDIR", "A folder that can be written to, where it isn't /tmp.",
        ".SH FILES", *(line for path, text in files for line in (".TP", f".I {escaped(path)}", text)),
        ".SH EXAMPLES", f"Files are those in\n.IR {escaped(prefix)}/share/doc/gevacq .\n.PP", examples(it),
        ".SH SEE ALSO", ".BR gevacq\\-losses (1),\n.BR gevacq\\-features (1)", "",
    ])


def tool_page(name, purpose, help_text, version, date):
    """The page of a tool, of its own help: the lines that say how it's called are the synopsis, and all else the description."""
    usage, text = [], []
    for paragraph in help_text.strip("\n").split("\n\n"):
        lines = paragraph.split("\n")
        if paragraph.startswith("usage: "):
            usage += [" ".join(it.strip() for it in lines).removeprefix("usage: ")]
        elif all(it.startswith(f"    {name} ") for it in lines) and not usage:
            usage += [it.strip() for it in lines]
        else:
            # (what is indented is laid out by hand)
            by_hand = any(it.startswith((" ", "-")) for it in lines)
            text += [".PP", *([".nf", escaped(paragraph), ".fi"] if by_hand else [marked(paragraph)])]
    return "\n".join([
        f'.TH {name.upper()} 1 "{date}" "gevacq {version}" "User Commands"',
        ".SH NAME", f"{escaped(name)} \\- {escaped(purpose)}",
        ".SH SYNOPSIS", *(line for it in usage or [f"{name} [WORD..]"] for line in (f".B {escaped(it)}", ".br")),
        ".SH DESCRIPTION", *text[1:],
        ".SH ENVIRONMENT", ENVIRONMENT.rstrip("\n"),
        ".SH SEE ALSO", ".BR gevacq (1)", "",
    ])
