"""What is known of a camera's registers: words of four bytes, as `gevacq register` tells and takes them."""

import os
import re
import shutil
import subprocess

from refusal import Failed, Refused

NUMBER = re.compile(r"0x[0-9A-Fa-f]{1,8}|0|[1-9][0-9]{0,9}", re.ASCII)
TOLD = re.compile(r"register (0x[0-9a-f]{8}) value=(0x[0-9a-f]{8})", re.ASCII)
# The status where the camera refuses that register.
REFUSED = 10
# Those that the program writes itself, and what its word for one is.
OWN = {0x0A00: "", 0x0D00: "", 0x0D04: ": the word of receive is packet=", 0x0D18: ""}


def number(text):
    """A number as in the words of the program, or None."""
    if not NUMBER.fullmatch(text):
        return None
    value = int(text, 0)
    return value if value >> 32 == 0 else None


def access(text):
    """Register and value of `<register>=<value>`, or None."""
    register, _, value = text.partition("=")
    register, value = number(register), number(value)
    return None if register is None or value is None or register % 4 else (register, value)


def shown(register):
    return f"0x{register:04x}"


def program(top):
    """The program: as GEVACQ names it, else beside this tool, else by PATH."""
    beside = f"{top}/gevacq"
    found = os.environ.get("GEVACQ") or (beside if os.path.isfile(beside) else shutil.which("gevacq"))
    if not found:
        raise Refused("there is no program gevacq by PATH, and GEVACQ doesn't name it")
    return found


class Registers:
    """The values that are known, by their registers; where a camera's address is given, the others are read from it."""

    def __init__(self, top, camera=None):
        self.top, self.camera, self.known = top, camera, {}

    def told(self, lines):
        """Takes the lines of `gevacq register`; others are passed over."""
        for line in lines:
            found = TOLD.fullmatch(line.strip())
            if found:
                self.known[int(found[1], 16)] = int(found[2], 16)

    def word(self, register, why, readable=True):
        """The word in this register, of which `why` says why it's wanted."""
        if register not in self.known:
            if not readable:
                raise Refused(f"{why}, which can't be read: --value {shown(register)}=VALUE says what it has, as 0")
            if not self.camera:
                ways = f"--camera ADDRESS reads it, or --value {shown(register)}=VALUE gives it"
                raise Refused(f"{why}, whose present value is needed: {ways}")
            self.known[register] = self.read(register)
        return self.known[register]

    def read(self, register):
        words = [program(self.top), "register", self.camera, shown(register)]
        try:
            ran = subprocess.run(words, stdin=subprocess.DEVNULL, capture_output=True, text=True, errors="replace", timeout=600)
        except (OSError, subprocess.TimeoutExpired) as fault:
            raise Failed(f"{shown(register)} can't be read by {words[0]}: {fault}") from None
        found = TOLD.fullmatch(ran.stdout.strip())
        if ran.returncode == 0 and found and int(found[1], 16) == register:
            return int(found[2], 16)
        said = (ran.stderr.strip().splitlines() or ["it tells no value"])[-1]
        kind = Refused if ran.returncode == REFUSED else Failed
        raise kind(f"gevacq register {self.camera} {shown(register)} ends with {ran.returncode}: {said}")
