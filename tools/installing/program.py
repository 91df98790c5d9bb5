"""The program that is installed: where it is, what it is, and on which C library it runs."""

import hashlib
import os
import re
import shutil
import struct
import subprocess

# The architectures of Debian, by the machine in the head of the file.
ARCHITECTURES = {62: "amd64", 183: "arm64"}


class Refusal(Exception):
    """Why something can't be done, in a sentence."""


def run(*words, **variables):
    """What the command writes, with these variables of the environment set; where it fails, what it said."""
    env = {**os.environ, **variables}
    try:
        ran = subprocess.run(words, check=False, stdin=subprocess.DEVNULL, capture_output=True, text=True, env=env)
    except OSError as fault:
        raise Refusal(f"{words[0]}: {fault.strerror}") from fault
    if ran.returncode:
        raise Refusal(ran.stderr.strip().removeprefix("gevacq: ") or f"{words[0]} ended with {ran.returncode}")
    return ran.stdout.strip()


def proved(top):
    """The path of the proved program."""
    try:
        return f"{top}/{run(f'{top}/tools/proved_program')}"
    except Refusal as why:
        raise Refusal(f"{why}; --trial takes a trial of the same sources, of which nothing is proved") from why


def trial(top):
    """The path of the trial, which is built where it isn't there."""
    if subprocess.run([f"{top}/tools/build_trial"], check=False, stdin=subprocess.DEVNULL).returncode:
        raise Refusal("there is no trial")
    return f"{top}/out/trial/gevacq"


def version(program):
    return run(program, "--version").split()[1]


def toolchain(top):
    """The line that says with which toolchain the program was proved: that of this machine's kit, else the one that README names."""
    if shutil.which("rt"):
        return run("rt", "version")
    with open(f"{top}/README.md", encoding="utf-8") as page:
        found = re.search(r"`(rattle-kit-\S+ logic [0-9a-f]+)`", page.read())
    return found[1] if found else "unknown"


def digest(path):
    with open(path, "rb") as file:
        return hashlib.sha256(file.read()).hexdigest()


def what_was_proved(top, program, is_trial, stripped=None):
    """Which program this is: what was proved of it, by which toolchain, and its digests as it was built and as it's here."""
    says = "program: a trial, of which nothing is proved" if is_trial else "program: proved, as docs/PROVED.md says"
    lines = [f"gevacq {version(program)}", says, f"toolchain: {toolchain(top)}", f"sha256 as built: {digest(program)}"]
    if stripped:
        lines.append(f"sha256 as stripped: {digest(stripped)}")
    return "\n".join([*lines, ""])


def architecture(program):
    with open(program, "rb") as file:
        head = file.read(20)
    machine = struct.unpack("<H", head[18:20])[0]
    if head[:4] != b"\x7fELF" or machine not in ARCHITECTURES:
        raise Refusal(f"{program} is no program of {' or '.join(ARCHITECTURES.values())}")
    return ARCHITECTURES[machine]


def least_library(program):
    """The least version of the C library that has all symbols that the program takes from it."""
    with open(program, "rb") as file:
        found = re.findall(rb"\0GLIBC_(\d+(?:\.\d+)+)(?=\0)", file.read())
    if not found:
        raise Refusal(f"{program} names no version of the C library")
    newest = max(tuple(map(int, it.split(b"."))) for it in found)
    return ".".join(map(str, newest))
