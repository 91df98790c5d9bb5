"""The program, and what it makes of a capture."""

import os
import shutil
import signal
import subprocess
import sys
import tempfile

TOP = os.path.dirname(os.path.dirname(os.path.dirname(os.path.realpath(__file__))))
# The status for a capture with a record that is refused: what came before it was told.
REFUSED = 12


def stop(why, status=1):
    print(f"losses: {why}", file=sys.stderr)
    sys.exit(status)


def find_program():
    """The program: by the variable GEVACQ, else beside this repository's tools, else on the PATH."""
    named = os.environ.get("GEVACQ")
    if named:
        return shutil.which(named) or stop(f"there is no program {named}, which GEVACQ names")
    beside = f"{TOP}/gevacq"
    if os.path.isfile(beside) and os.access(beside, os.X_OK):
        return beside
    return shutil.which("gevacq") or stop("there is no program gevacq: neither beside the tools nor on the PATH; GEVACQ may name it")


def make_ready(program):
    """Has the program built where there is none, which tells on standard error that it takes a minute."""
    ran = subprocess.Popen([program, "--version"], stdout=subprocess.DEVNULL, stderr=subprocess.PIPE, text=True)
    said = []
    for line in ran.stderr:
        said.append(line.strip())
        if "building" in line:
            print(line, end="", file=sys.stderr, flush=True)
    if ran.wait():
        stop(f"there is no program to read it with: {said[-1] if said else f'{program} --version fails'}")


class Run:
    """Commands of the program, each of which reads what the one before wrote, and the first the capture."""

    def __init__(self, capture, commands):
        self.capture, self.commands = capture, commands
        self.ran = []

    def __enter__(self):
        source = self.capture.opens()
        for words in self.commands:
            errors = tempfile.TemporaryFile()
            one = subprocess.Popen([self.capture.program, *words], stdin=source, stdout=subprocess.PIPE, stderr=errors)
            source.close()
            source = one.stdout
            self.ran.append((words[0], one, errors))
        self.output = source
        return self

    def __exit__(self, *_):
        self.output.close()
        for _, one, _ in self.ran:
            one.wait()

    def lines(self):
        """The lines that the last command writes, to the end."""
        yield from (line.decode("ascii", "replace").rstrip("\n") for line in self.output)
        self.ends()

    def ends_last(self):
        """Tells what went wrong with the last command; those before it may have written more than it read."""
        self.ran = self.ran[-1:]
        self.ends()

    def ends(self):
        """Tells what went wrong, when all was read."""
        for command, one, errors in self.ran:
            status = one.wait()
            errors.seek(0)
            said = errors.read().decode("utf-8", "replace").splitlines() or ["it says nothing"]
            if status == REFUSED:
                self.capture.adds(f"{said[0].removeprefix('gevacq: ')}: the capture is refused there, and nothing is told of the rest")
            elif status:
                stop(f"gevacq {command} ends with {status}: {said[0]}")
        self.capture.is_unpacked()


class Capture:
    """The file, which each run of the program reads from its begin on."""

    def __init__(self, path, program):
        self.path, self.program = path, program
        self.faults = []
        self.source = self.unpacking = None
        try:
            with open(path, "rb") as file:
                self.packed = file.read(2) == b"\x1f\x8b"
        except OSError as fault:
            stop(f"{path}: {fault.strerror}")
        if not os.path.isfile(path):
            stop(f"{path} isn't a file that can be read more than once")
        if self.packed and not shutil.which("gzip"):
            stop(f"{path} is packed by gzip, and there is no gzip here")

    def opens(self):
        """The capture's bytes from the begin on."""
        if self.source:
            self.source.close()
        self.source = open(self.path, "rb")
        # (whoever reads it shares its place with this one, which tells how far it is read)
        shared = os.dup(self.source.fileno())
        if not self.packed:
            return os.fdopen(shared, "rb", 1 << 20)
        self.unpacking = subprocess.Popen(["gzip", "-dc"], stdin=shared, stdout=subprocess.PIPE, stderr=subprocess.DEVNULL, bufsize=1 << 20)
        os.close(shared)
        return self.unpacking.stdout

    def part(self):
        """How much of the file is read, from 0 to 1."""
        return os.lseek(self.source.fileno(), 0, os.SEEK_CUR) / max(1, os.path.getsize(self.path))

    def is_unpacked(self):
        # (a program that reads no more ends gzip by this signal)
        if self.unpacking and self.unpacking.wait() not in (0, -signal.SIGPIPE):
            self.adds("gzip couldn't unpack all of it, and nothing is told of the rest")

    def runs(self, *commands):
        return Run(self, commands)

    def adds(self, fault):
        if fault not in self.faults:
            self.faults.append(fault)
