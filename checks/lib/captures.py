"""Runs the program over captures that come in pieces of a chosen size, and compares what it answers with what is wanted."""

import collections
import hashlib
import multiprocessing
import os
import signal
import socket
import subprocess
import sys
import tempfile

PIECES = (1, 7, 4096)

# The status of `capture` where no datagram goes to its port; of that `streams` says nothing.
NO_DATAGRAM = 18

# How long one run may take, in seconds.
RUN_SECONDS = 300

# The room into which the program reads a capture, in bytes; behind its end, less than a piece may be asked for.
ROOM = 1_114_112

CAPTURED = "checks/captured"

# What is wanted of a capture: the words behind `capture`, the exit status, the line on standard error, the lines of
# `streams`; of the script its digest and its lines, with a digest for each datagram; and the digests of its report
# and its explanation, where they are told.
Answer = collections.namedtuple("Answer", "path words status error streams digest script report explanation")


def answers():
    """The answers that stand in the file, each a paragraph of lines, a word and what it tells."""
    with open(f"{CAPTURED}/answers", encoding="ascii") as file:
        paragraphs = file.read().split("\n\n")
    found = []
    for paragraph in paragraphs:
        told = collections.defaultdict(list)
        for line in paragraph.splitlines():
            if not line.startswith("#"):
                word, _, rest = line.partition(" ")
                told[word].append(rest)
        if told:
            one = {word: lines[0] for word, lines in told.items()}
            found.append(
                Answer(
                    os.path.normpath(os.path.join(CAPTURED, one["capture"])),
                    one["words"].split(),
                    int(one["status"]),
                    "".join(line + "\n" for line in told["error"]),
                    "".join(line + "\n" for line in told["streams"]),
                    one["sha256"],
                    told["script"],
                    one.get("report"),
                    one.get("explanation"),
                )
            )
    return found


def run(program, words, data, piece):
    """The exit status, standard output and standard error, where each read finds the next piece. The sockets keep the
    borders of what is sent, so no read gets more than one piece; what a read doesn't ask for would be lost, but the
    program asks for all of its room."""
    ours, theirs = socket.socketpair(socket.AF_UNIX, socket.SOCK_SEQPACKET)
    with ours, tempfile.TemporaryFile() as output, tempfile.TemporaryFile() as errors:
        with theirs:
            ran = subprocess.Popen([program, *words], stdin=theirs, stdout=output, stderr=errors)
        signal.signal(signal.SIGALRM, lambda *_: ran.kill())
        signal.alarm(RUN_SECONDS)
        view, send = memoryview(data), ours.send
        try:
            for at in range(0, len(data), piece):
                send(view[at : at + piece])
            ours.shutdown(socket.SHUT_WR)
        except (BrokenPipeError, ConnectionResetError):
            pass  # a record was refused, and the program reads no more
        status = ran.wait()
        signal.alarm(0)
        output.seek(0)
        errors.seek(0)
        return status, output.read(), errors.read().decode("ascii", "replace")


def digest(data):
    return hashlib.sha256(data).hexdigest()


def line_told(line):
    """A line of a script as the answers tell it."""
    if not line.startswith(b"d "):
        return line.decode("ascii", "replace")
    data = bytes.fromhex(line[2:].decode("ascii"))
    return f"d {len(data)} {digest(data)[:8]}"


def first_difference(wanted, found):
    """Where two texts differ, by their lines."""
    for number, (left, right) in enumerate(zip(wanted, found), 1):
        if left != right:
            return f"line {number} is {right!r}, not {left!r}"
    return f"{len(found)} lines, not {len(wanted)}"


def faults_of(program, answer, piece):
    """What differs of a capture, read in such pieces, and how many runs were made."""
    with open(answer.path, "rb") as file:
        data = file.read()
    if len(data) > ROOM - max(PIECES):
        return [f"{answer.path}: too large to be read in pieces"], 0
    faults = []

    def wants(words, status, error):
        ran = run(program, words, data, piece)
        where = f"{answer.path} in pieces of {piece}: {words[0]}"
        if ran[0] != status:
            faults.append(f"{where}: status {ran[0]}, not {status}")
        if ran[2] != error:
            faults.append(f"{where}: {ran[2]!r} on standard error, not {error!r}")
        return where, ran[1]

    told = (0, "") if answer.status == NO_DATAGRAM else (answer.status, answer.error)
    where, text = wants(["streams"], *told)
    found = text.decode("ascii", "replace")
    if found != answer.streams:
        faults.append(f"{where}: {first_difference(answer.streams.splitlines(), found.splitlines())}")
    where, script = wants(["capture", *answer.words], answer.status, answer.error)
    if digest(script) != answer.digest:
        lines = [line_told(line) for line in script.splitlines()]
        faults.append(f"{where}: another script: {first_difference(answer.script, lines)}")
    runs = 2
    for word, right in (("replay", answer.report), ("explain", answer.explanation)):
        if right is not None:
            ran = subprocess.run([program, word], input=script, capture_output=True, timeout=RUN_SECONDS)
            runs += 1
            if (ran.returncode, ran.stderr, digest(ran.stdout)) != (0, b"", right):
                faults.append(f"{answer.path} in pieces of {piece}: {word} makes another text of its script")
    return faults, runs


def main():
    program = os.path.abspath(sys.argv[1])
    wanted = answers()
    there = {f"{CAPTURED}/{name}" for name in os.listdir(CAPTURED) if name != "answers"}
    told = {answer.path for answer in wanted}
    faults = [f"{path} has no answer" for path in sorted(there - told)]
    # the largest first, so that no worker is left with one at the end
    wanted.sort(key=lambda answer: -os.path.getsize(answer.path))
    jobs = [(program, answer, piece) for piece in PIECES for answer in wanted]
    with multiprocessing.Pool() as pool:
        results = pool.starmap(faults_of, jobs, chunksize=1)
    faults += [fault for found, _ in results for fault in found]
    for fault in faults:
        print(f"checks/captures: {fault}", file=sys.stderr)
    if faults or not wanted:
        sys.exit(1)
    runs = sum(count for _, count in results)
    print(f"checks/captures: all of {runs} runs over {len(wanted)} captures in pieces of 1, 7 and 4096 bytes gave what is wanted")


if __name__ == "__main__":
    main()
