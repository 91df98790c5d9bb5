#!/usr/bin/env python3
"""interrupting.py PROGRAM [SIGNALS [SEED]]: ends `receive`, run by tools/run_in_order, by so many signals, 20 where it isn't said: INT,
TERM and HUP, to that process alone or to its group, most of them at a random moment of its first 300 ms, the others later. The same
with `simulate`, by 6.

Whenever one comes: a camera that was taken (CCP = 2) is let go by the last command that it hears (CCP = 0), what was begun ends with 0
and its last line, and no process and nothing in TMPDIR is left. A signal that comes before the shell can take one ends it as any other.
Then what a second signal does, what a reader that goes away does, and which words are refused.

Needs Linux. Prints a line for each thing that differs, and ends with 1 where there is one."""
import fcntl
import os
import random
import re
import shutil
import signal
import subprocess
import sys
import tempfile
import time

from cameras import CCP, PROGRAM, note, run_all
from receiving import END, SETUP, STOP, WORDS, Sender, wants

ADDRESS = "127.83.5.1"
ENDINGS = (signal.SIGINT, signal.SIGTERM, signal.SIGHUP)
TAKE, RELEASE = ("write", CCP, 2), ("write", CCP, 0)


def with_defaults():
    """In what is started: signals that were ignored where the check runs could not be taken."""
    for number in ENDINGS:
        signal.signal(number, signal.SIG_DFL)


class Launched:
    """PROGRAM run by tools/run_in_order with these words, in a group of its own, with a folder of its own as TMPDIR."""

    def __init__(self, *words, **streams):
        self.folder = tempfile.mkdtemp()
        streams = dict(dict(stdin=subprocess.PIPE, stdout=subprocess.PIPE, stderr=subprocess.PIPE), **streams)
        self.process = subprocess.Popen(["tools/run_in_order", PROGRAM, *words], start_new_session=True, preexec_fn=with_defaults,
                                        env=dict(os.environ, TMPDIR=self.folder), bufsize=0, **streams)

    def send(self, number, to_group=False):
        """A signal, where it still runs."""
        if self.process.poll() is None:
            (os.killpg if to_group else os.kill)(self.process.pid, number)

    def end(self, case):
        """Waits for its end with its input open: status, output and standard error. Nothing of it may be left then."""
        held, self.process.stdin = self.process.stdin, None
        try:
            out, err = self.process.communicate(timeout=60)
        except subprocess.TimeoutExpired:
            note(case, "it runs on")
            os.killpg(self.process.pid, signal.SIGKILL)
            out, err = self.process.communicate()
        if held:
            held.close()
        wants(case, "processes left", in_session(self.process.pid), [])
        wants(case, "files left", os.listdir(self.folder), [])
        shutil.rmtree(self.folder)
        return self.process.returncode, (out or b"").decode(), (err or b"").decode()


def in_session(leader):
    """The processes of this session: their names."""
    found = []
    for number in filter(str.isdigit, os.listdir("/proc")):
        try:
            with open("/proc/%s/stat" % number, encoding="utf-8", errors="replace") as it:
                name, rest = re.fullmatch(r"\d+ \((.*)\) (.*)\n?", it.read(), re.S).groups()
        except OSError:
            continue
        if int(rest.split()[3]) == leader:
            found.append(name)
    return found


def ends_in_order(case, heard, ended, number):
    """Whether the camera's commands and what the run answered and wrote are those of a run that this signal ended in order."""
    status, out, err = ended
    if TAKE in heard:
        wants(case, "last command", heard[-1], RELEASE)
    if (status, out, err, heard) != (-number, "", "", []):
        wants(case, "status", (status, err), (0, ""))
        wants(case, "last line", bool(re.search(r"(?m)^%s\n\Z" % (END % 100000), out)), True)


def check_moments(signals, seed):
    chance = random.Random(seed)
    for turn in range(signals):
        moment = chance.uniform(0, 0.3) if turn % 5 else chance.uniform(0.3, 1.5)
        number, to_group, words = chance.choice(ENDINGS), chance.random() < 0.5, chance.choice(([], ["until=stdin"], ["until=frames"]))
        case = "%s to %s at %.4f s, %s" % (signal.Signals(number).name, "the group" if to_group else "it alone", moment, words)
        camera = Sender(ADDRESS)
        try:
            run = Launched("receive", ADDRESS, "100000", *WORDS, *words)
            time.sleep(moment)
            run.send(number, to_group)
            ended = run.end(case)
        finally:
            camera.end()
        ends_in_order(case, camera.heard, ended, number)


def check_simulate(seed):
    """`simulate` ends behind a turn, with its line."""
    chance = random.Random(seed)
    for number in ENDINGS:
        for to_group in (False, True):
            moment = chance.uniform(0, 0.3)
            case = "%s to %s at %.4f s, simulate" % (signal.Signals(number).name, "the group" if to_group else "it alone", moment)
            run = Launched("simulate", ADDRESS, "rate=50", *chance.choice(([], ["until=turns"], ["until=stdin"])))
            time.sleep(moment)
            run.send(number, to_group)
            ended = run.end(case)
            if ended != (-number, "", "") and not (ended[::2] == (0, "") and re.fullmatch(r"simulate frames=0 turns=\d+\n", ended[1])):
                note(case, "%r" % (ended,))


def full_pipe():
    """The ends of a pipe that takes no more bytes."""
    ends = os.pipe()
    flags = fcntl.fcntl(ends[1], fcntl.F_GETFL)
    fcntl.fcntl(ends[1], fcntl.F_SETFL, flags | os.O_NONBLOCK)
    try:
        while True:
            os.write(ends[1], bytes(1024))
    except BlockingIOError:
        fcntl.fcntl(ends[1], fcntl.F_SETFL, flags)
    return ends


def check_second():
    """A second signal within a second is the first; one behind it ends at once a run whose output nobody reads."""
    camera = Sender(ADDRESS)
    try:
        run = Launched("receive", ADDRESS, "100000", *WORDS)
        await_images(camera)
        run.send(signal.SIGHUP)
        run.send(signal.SIGHUP)
        ends_in_order("two signals at once", camera.heard, run.end("two signals at once"), signal.SIGHUP)
    finally:
        camera.end()
    for words in ([], ["until=stdin"]):
        case, camera, ends = "a second signal %s" % words, Sender(ADDRESS), full_pipe()
        try:
            run = Launched("receive", ADDRESS, "100000", *WORDS, *words, stdout=ends[1])
            await_images(camera)
            run.send(signal.SIGTERM, True)
            run.send(signal.SIGTERM, True)
            time.sleep(1.5)
            wants(case, "status while nobody reads", run.process.poll(), None)
            # (again, where a busy machine took the first ones less than a second before)
            for _ in range(20):
                run.send(signal.SIGINT)
                try:
                    run.process.wait(0.5)
                    break
                except subprocess.TimeoutExpired:
                    pass
            wants(case, "status", run.end(case)[::2], (128 + signal.SIGINT, ""))
        finally:
            camera.end()
            os.close(ends[0])
            os.close(ends[1])


def await_images(camera):
    """Waits, a while at most, until the camera has sent some."""
    for _ in range(200):
        if camera.block >= 10:
            return
        time.sleep(0.05)


def check_readers():
    """A reader that goes away, and an input that ends."""
    camera = Sender(ADDRESS)
    try:
        run = Launched("receive", ADDRESS, "100000", *WORDS)
        run.process.stdout.readline()
        run.process.stdout.close()
        run.process.stdout = None
        wants("a reader that goes away", "status", run.end("a reader that goes away"), (5, "", "gevacq: writing failed\n"))
        wants("a reader that goes away", "commands", camera.heard, SETUP + STOP)
    finally:
        camera.end()
    for words, text in ((["until=stdin"], b"what is dropped\n"), (["until=stdin"], b"")):
        case, camera = "an input that ends %r" % text, Sender(ADDRESS)
        try:
            run = Launched("receive", ADDRESS, "100000", *WORDS, *words)
            await_images(camera)
            run.process.stdin.write(text)
            run.process.stdin.close()
            run.process.stdin = None
            ends_in_order(case, camera.heard, run.end(case), 0)
        finally:
            camera.end()


def check_words():
    """Words that are refused, and those of other commands: as by PROGRAM itself."""
    lines = ("", "receive", "receive --help", "simulate --help", "receive A --help", "receive A", "receive 1.2.3", "receive A 0", "receive A 1 packet=1",
             "receive A 1 until=turns", "receive A 1 until=frames x", "receive A 1 until=frames until=frames", "receive A 1 until=",
             "receive A 1" + " set:0x0124=1" * 65, "simulate", "simulate A until=frames", "simulate A until=turns rate=0", "help", "--version", "explain receive")
    for words in [line.replace("A", ADDRESS).split() for line in lines] + [["receive", ADDRESS, "1", "a b", ""]]:
        alone = subprocess.run([PROGRAM, *words], capture_output=True, stdin=subprocess.DEVNULL, timeout=60)
        run = Launched(*words, stdin=subprocess.DEVNULL)
        wants(" ".join(words)[:60], "answer", run.end("words"), (alone.returncode, alone.stdout.decode(), alone.stderr.decode()))
    run = Launched("simulate", "127.83.5.2", "turns=3", "until=turns", "rate=1000")
    wants("an end by itself", "answer", run.end("an end by itself"), (0, "simulate frames=0 turns=3\n", ""))


def main():
    signals, seed = (int(word) for word in (sys.argv[2:4] + ["20", "1"][len(sys.argv[2:4]) :]))
    checks = (lambda: check_moments(signals, seed), lambda: check_simulate(seed), check_second, check_readers, check_words)
    return run_all("interrupts", ADDRESS, Sender, checks, lambda: "", "signals end receive and simulate in order, whenever they come")


if __name__ == "__main__":
    sys.exit(main())
