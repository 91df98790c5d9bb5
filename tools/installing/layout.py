"""What is installed: each file by its path below the prefix."""

import os
import re
import sys

import completion
import help_text
import manual_page
import program as programs

# The tools that are installed as gevacq-NAME, and what each one's manual page says that it's for.
TOOLS = {
    "losses": "tell what a capture of a network lost of a camera's images",
    "features": "tell a camera's registers by the names of its description",
}
# Where the files are of which some are written with the prefix or a name in them.
FILES = f"{os.path.dirname(os.path.realpath(__file__))}/files"
DOCUMENTS = ("README.md", "CHANGELOG.md", "CONTRIBUTING.md")
PROGRAM = "lib/gevacq/gevacq"


def read(path):
    with open(path, "rb") as file:
        return file.read()


def filled(name, **words):
    """One of the files with these words in the places that it has for them."""
    text = read(f"{FILES}/{name}").decode()
    for word, value in words.items():
        text = text.replace(f"@{word}@", value)
    return text.encode()


def below(folder, endings=("",)):
    """The files below a folder, by their paths from there on, but for what Python or an editor leaves."""
    for place, folders, names in os.walk(folder):
        folders[:] = sorted(it for it in folders if it != "__pycache__")
        for name in sorted(names):
            if name.endswith(endings) and not name.startswith("."):
                yield os.path.relpath(f"{place}/{name}", folder)


def module_folders(top):
    """The folders beside the tools in which they have their modules: all but the one of this installation."""
    found = [it for it in sorted(os.listdir(f"{top}/tools")) if os.path.isdir(f"{top}/tools/{it}")]
    return [it for it in found if it not in ("installing", "__pycache__")]


class Layout:
    """The files that a program and its sources make below a prefix: their bytes and modes."""

    def __init__(self, top, program, is_trial, prefix, date):
        self.top, self.program, self.prefix, self.date = top, program, prefix, date
        self.version = programs.version(program)
        self.files = {}
        self.adds_programs()
        self.adds_tools()
        self.adds_documents()
        self.adds("share/doc/gevacq/what_was_proved", programs.what_was_proved(top, program, is_trial).encode())

    def adds(self, path, data, mode=0o644):
        self.files[path] = (data, mode)

    def adds_programs(self):
        self.adds(PROGRAM, read(self.program), 0o755)
        self.adds("lib/gevacq/run_in_order", read(f"{self.top}/tools/run_in_order"), 0o755)
        self.adds("bin/gevacq", filled("front"), 0o755)
        parts = help_text.Help(self.program)
        formats = read(f"{self.top}/docs/FORMATS.md").decode()
        self.adds("share/man/man1/gevacq.1", manual_page.program_page(parts, formats, self.version, self.date, self.prefix).encode())
        self.adds("share/bash-completion/completions/gevacq", completion.of_program(parts).encode())

    def adds_tools(self):
        for folder in module_folders(self.top):
            for path in below(f"{self.top}/tools/{folder}"):
                self.adds(f"lib/gevacq/{folder}/{path}", read(f"{self.top}/tools/{folder}/{path}"))
        for tool, purpose in TOOLS.items():
            name, path = f"gevacq-{tool}", f"{self.top}/tools/{tool}"
            self.adds(f"lib/gevacq/{name}", read(path), 0o755)
            self.adds(f"bin/{name}", filled("tool", NAME=name), 0o755)
            says = re.sub(rf"tools/{tool}\b|(?<=usage: ){tool}\b", name, self.asked(path))
            self.adds(f"share/man/man1/{name}.1", manual_page.tool_page(name, purpose, says, self.version, self.date).encode())
            self.adds(f"share/bash-completion/completions/{name}", completion.of_tool(name, says).encode())

    def asked(self, path):
        """A tool's own help, in lines of one width everywhere."""
        return programs.run(sys.executable, "-B", path, "--help", COLUMNS="100")

    def adds_documents(self):
        for path in DOCUMENTS:
            self.adds(f"share/doc/gevacq/{path}", read(f"{self.top}/{path}"))
        for folder, endings in (("docs", (".md", ".png")), ("examples", (".script", ".report", ".pcap"))):
            for path in below(f"{self.top}/{folder}", endings):
                self.adds(f"share/doc/gevacq/{folder}/{path}", read(f"{self.top}/{folder}/{path}"))
        self.adds("share/doc/gevacq/examples/gevacq@.service", filled("gevacq@.service", PREFIX=self.prefix))
