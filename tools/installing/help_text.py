"""The help of the program, in its parts: of these the manual page and the completion are made."""

import re
import subprocess

# What a part of the help shows that can be typed as it stands, or up to its value.
KEYS = (r"\b([a-z]+:)<register>", r"\b([a-z]+=[a-z][a-z0-9]*)\b", r"\b([a-z]+=)<")
# In the line of a command: `[short]`, and the `all` of `<k|all>`.
WORDS = (r"\[([a-z]+)\]", r"<[a-z]+\|([a-z]+)>")


class Part:
    """What the help says of a command or of an option: its own line, and those below it without their indentation."""

    def __init__(self, text):
        self.head, *below = text.split("\n")
        self.lines = [it[4:] for it in below]
        self.example = None

    def command(self):
        return self.head.split()[1]

    def keys(self):
        """The words behind the command that can be completed, each once, in the order in which the help has them."""
        places = {}
        for text, patterns in (("\n".join(self.lines), KEYS), (self.head, WORDS)):
            for pattern in patterns:
                for found in re.finditer(pattern, text):
                    places.setdefault(found[1], found.start())
        return sorted(places, key=places.get)


class Help:
    """The parts of the whole help: commands under their headings, options, ranges of words, and the texts around them."""

    def __init__(self, program):
        texts = asked(program, "--help").rstrip("\n").split("\n\n")
        self.title, self.closing = texts[0], texts[-1]
        self.groups, self.options, self.ranges = [(None, [])], [], []
        for text in texts[1:-1]:
            self.adds(text)
        self.commands = [part for _, parts in self.groups for part in parts]
        for part in self.commands:
            part.example = asked(program, part.command(), "--help").rstrip("\n").split("\n")[-1].strip().replace("./gevacq", "gevacq")

    def adds(self, text):
        if text.startswith("<"):
            self.ranges += [re.fullmatch(r"(<.*?) {2,}(.*)", line).groups() for line in text.split("\n")]
        elif text.startswith("gevacq -"):
            self.options.append(Part(text))
        elif text.startswith("gevacq "):
            self.groups[-1][1].append(Part(text))
        else:
            self.groups.append((text.rstrip(":"), []))


def asked(program, *words):
    """What the program writes with these words."""
    return subprocess.run([program, *words], check=True, stdin=subprocess.DEVNULL, capture_output=True, text=True).stdout
