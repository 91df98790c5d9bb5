#!/usr/bin/env python3
"""refused_cameras.py PROGRAM LIBRARY: refuses each allocation of PROGRAM's `discover`, `description` and `receive`, one at a
time, by LIBRARY (checks/lib/refusing.c), beside cameras that checks/lib/cameras.py and checks/lib/receiving.py play. Each run has to end
with 7, and to have written a front of its text; and `receive` to have stopped the camera where it had control. So it has to
where no thread can be made. Where the one that it made first can be and the reader's can't, no image is received, and it ends
when its input does. Prints how many runs there were; ends with 1 where one isn't so."""
import os
import subprocess
import sys
import tempfile

import cameras
import receiving

LIBRARY = sys.argv[2]
DATA = bytes((7 * n + n // 256) % 256 for n in range(1501))


def ended(child):
    """What it wrote. Its input ends after a while."""
    try:
        child.wait(4)
    except subprocess.TimeoutExpired:
        pass
    return child.communicate(timeout=60)


def run(here, allocation, camera, words, thread=0):
    counted = os.path.join(here, "count")
    env = dict(os.environ, LD_PRELOAD=LIBRARY, REFUSED_ALLOCATION=str(allocation), REFUSED_THREAD=str(thread), COUNTED=counted)
    child = subprocess.Popen([cameras.PROGRAM, *words], stdin=subprocess.PIPE, stdout=subprocess.PIPE, stderr=subprocess.PIPE, env=env)
    try:
        out, said = ended(child)
    finally:
        child.kill()
        camera.end()
    with open(counted) as it:
        count = int(it.read())
    return child.returncode, out, said, count


def sweep(here, name, answers):
    """How many runs it made."""
    words = (name, "127.83.3.1")
    made = lambda: cameras.Camera("127.83.3.1", answers())
    status, whole, _, many = run(here, 0, made(), words)
    if status != 0:
        cameras.note(name, "status %d" % status)
    for number in range(1, many + 1):
        status, out, said, _ = run(here, number, made(), words)
        if status != 7 or said != b"gevacq: out of memory\n" or not whole.startswith(out):
            cameras.note("allocation %d of %s" % (number, name), "status %d, %r, %d bytes" % (status, said, len(out)))
    return many + 1


def sweep_receive(here):
    """The same of `receive`, whose number of allocations differs a little from run to run, until three in a row weren't made."""
    number, quiet = 0, 0
    words = ("receive", "127.83.3.1", "2", "until=stdin", *receiving.WORDS)
    while quiet < 3:
        number += 1
        camera = receiving.Sender("127.83.3.1")
        status, out, said, many = run(here, number, camera, words)
        quiet = quiet + 1 if number > many else 0
        case = "allocation %d of receive" % number
        if ("write", cameras.CCP, 2) in camera.heard:
            receiving.wants(case, "commands", camera.heard, receiving.SETUP + receiving.STOP)
        if status == 7:
            receiving.wants(case, "standard error", said, b"gevacq: out of memory\n")
            receiving.judge_images(case, out.decode().splitlines(), out.count(b"\n"))
        elif status == 0:
            receiving.judge_lines(case, out.decode(), 2, out.count(b"\n") - 1)
        else:
            cameras.note(case, "status %d, %r" % (status, said))
    return number


def refuse_threads(here):
    """`receive` where the first thread isn't made, where the second one isn't, and where all are."""
    words = ("receive", "127.83.3.1", "2", "until=stdin", *receiving.WORDS)
    for number, status, taken in ((1, 7, None), (2, 0, 0), (3, 0, 2)):
        camera = receiving.Sender("127.83.3.1")
        got, out, said, _ = run(here, 0, camera, words, number)
        case = "thread %d of receive" % number
        receiving.wants(case, "status", (got, said), (status, b"gevacq: out of memory\n" if status else b""))
        receiving.wants(case, "commands", camera.heard, receiving.SETUP + receiving.STOP)
        if taken is None:
            receiving.wants(case, "text", out, b"")
        else:
            receiving.judge_lines(case, out.decode(), 2, taken)
    return 3


def main():
    with tempfile.TemporaryDirectory() as here:
        runs = sweep(here, "discover", lambda: cameras.finds(cameras.registers("127.83.3.1")))
        runs += sweep_receive(here)
        runs += refuse_threads(here)
        runs += sweep(here, "description", lambda: cameras.memory((b"Local:a.xml;10000;5dd", b""), 0x10000, DATA))
    for fault in cameras.faults:
        print(fault.replace("checks/cameras:", "checks/refused_memory:"), file=sys.stderr)
    print(runs)
    return 1 if cameras.faults else 0


if __name__ == "__main__":
    sys.exit(main())
