"""runs.py PROGRAM FILE..: runs the program as files of many short runs tell, and compares what it writes and its exit status.

A line of such a file is a mark, a space, and a text. The marks:
  $    begins a run: the words of the command line, `""` for an empty one
  >    a line of standard input; x> its bytes in hex digits
  >*   a line of it for each number from one to another, which in it stands in eight hex digits for `{#}`
  <    a line of standard output; x< its bytes in hex digits; s< how many bytes it has, and their SHA-256 digest
  !    a line of standard error
  =    the exit status, which is 0 where none is told
  ?    the place of the first word that isn't understood: standard error tells it and the usage, and the status is 2
  :    a name and bytes in hex digits, for which `{name}` stands in lines of input below
Hex digits stand in words; `61*528` is a word of so many such bytes. What stands on which line of input isn't compared: lines of output
stand where they're best read. Each other line is a comment. Prints how many runs there were; ends with 1 where one differs."""

import hashlib
import re
import subprocess
import sys
from pathlib import Path

# what stands behind the place of a word that isn't understood, as the case without words has it
USAGE = (Path(__file__).resolve().parents[2] / "cases/no_word/stderr").read_bytes().partition(b"\n")[2]


def bytes_of(words):
    """The bytes of words in hex digits, each repeated as often as a number behind `*` says."""
    found = b""
    for word in words.split():
        digits, _, count = word.partition("*")
        found += bytes.fromhex(digits) * int(count or 1)
    return found


class Run:
    """A run: its words, what it reads, and what it has to write."""

    def __init__(self, place, words):
        self.place = place
        self.words = ["" if word == '""' else word for word in words.split()]
        self.input, self.output, self.errors = b"", b"", b""
        self.digest = None
        self.status = 0

    def add(self, mark, text):
        """Takes a line that goes on with the run."""
        if mark == ">":
            self.input += text.encode() + b"\n"
        elif mark == ">*":
            first, last, line = text.split(" ", 2)
            self.input += b"".join(line.replace("{#}", f"{number:08x}").encode() + b"\n" for number in range(int(first), int(last) + 1))
        elif mark == "x>":
            self.input += bytes_of(text)
        elif mark == "<":
            self.output += text.encode() + b"\n"
        elif mark == "x<":
            self.output += bytes_of(text)
        elif mark == "s<":
            self.digest = text
        elif mark == "!":
            self.errors += text.encode() + b"\n"
        elif mark == "?":
            self.errors = f"gevacq: word {text} isn't understood\n".encode() + USAGE
            self.status = 2
        else:
            self.status = int(text)

    def faults(self, program):
        """What differs."""
        done = subprocess.run([program, *self.words], input=self.input, capture_output=True, timeout=60, check=False)
        output, wanted = done.stdout, self.output
        if self.digest:
            output, wanted = f"{len(output)} {hashlib.sha256(output).hexdigest()}".encode(), self.digest.encode()
        if done.returncode != self.status:
            yield f"status {done.returncode}, not {self.status}"
        if output != wanted:
            yield f"writes {output[:400]!r}, not {wanted[:400]!r}"
        if done.stderr != self.errors:
            yield f"tells {done.stderr[:400]!r}, not {self.errors[:400]!r}"


def runs_of(path):
    """The runs of a file."""
    runs, names = [], {}
    with open(path, encoding="utf-8") as file:
        for number, line in enumerate(file, 1):
            mark, _, text = line.rstrip("\n").partition(" ")
            if mark == "$":
                runs.append(Run(f"{path}:{number}", text))
            elif mark == ":":
                name, _, words = text.partition(" ")
                names[name] = bytes_of(words).hex()
            elif mark in (">", ">*", "x>"):
                runs[-1].add(mark, re.sub(r"\{(\w+)\}", lambda found: names[found[1]], text))
            elif mark in ("<", "x<", "s<", "!", "=", "?"):
                runs[-1].add(mark, text)
    return runs


def main(program, paths):
    """Runs the files, and answers the exit status."""
    ran, differing = 0, 0
    for path in paths:
        for run in runs_of(path):
            ran += 1
            for fault in run.faults(program):
                differing += 1
                print(f"checks/program: {run.place}: {fault}", file=sys.stderr)
    print(ran)
    return 1 if differing or not ran else 0


if __name__ == "__main__":
    sys.exit(main(sys.argv[1], sys.argv[2:]))
