#!/usr/bin/env python3
"""another_host.py PROGRAM: runs PROGRAM's `discover`, `description` and `receive` against cameras in another network, which a pair of
interfaces joins with this one: cameras that this script plays, and PROGRAM's own `simulate`, where tc is there on links of 100 Mbit/s and
1 Gbit/s too, and with interfaces that are down for a moment.
A program whose links are those of 127.0.0.1 reaches none of them.

Needs Linux, root and ip; else it's skipped with a line. Prints a line for each thing that differs, and ends with 1 where there is one."""
import errno
import re
import shutil
import sys
import threading
import time

from cameras import (Camera, await_camera, description, discover, finds, line, memory, network_failed, note, registers, run, run_all,
                     simulated)
from networks import Pair
from receiving import Sender, check_two_processes, judge_lines, packets, receive

HOST, CAMERA, STRANGER, BROADCAST = "192.168.10.1", "192.168.10.7", "192.168.10.8", "192.168.10.255"


class Host:
    """The host's side, from which cameras are reached by the commands."""

    def __init__(self, pair):
        self.pair = pair
        self.senders = []

    def camera(self, address, answers):
        return self.pair.beyond(Camera, address, answers)

    def sender(self, address, **how):
        self.senders.append(self.pair.beyond(Sender, address, **how))
        return self.senders[-1]

    def check_discover(self):
        """The camera hears what is sent to any address: its own, its network's broadcast address, and that of all networks, for which
        there has to be a default route."""
        ended = run([], "discover")
        if ended != (6, b"", network_failed("send", errno.ENETUNREACH)):
            note("no default route", "%r" % (ended,))
        self.pair.near.runs("ip route add default dev near")
        everywhere = lambda _, answers: self.camera("", answers)
        for case, words in (("all networks", []), ("the camera's network", [BROADCAST]), ("the camera's address", [CAMERA])):
            discover("another host: " + case, CAMERA, finds(registers(CAMERA)), [line(CAMERA)], everywhere, words)

    def check_description(self):
        data = bytes((7 * n + n // 256) % 256 for n in range(1501))
        answers = memory((b"Local:a.xml;10000;5dd", b""), 0x10000, data)
        description("another host's description", answers, data, address=CAMERA, made=self.camera)

    def check_receive(self):
        judge = lambda out: judge_lines("another host", out.decode(), 20, 20, strangers=False)
        receive("another host", CAMERA, 20, judge=judge, made=self.sender)

    def check_strangers(self):
        """A third address sends to both ports, for more than a heartbeat's time. Of an image that was received the stranger's packets came
        before it; what comes before the first leader isn't counted."""
        frames, case = 30, "a stranger beside another host's camera"

        def judge(out):
            judge_lines(case, out.decode(), frames, frames, strangers=True)
            counted = [int(it) for it in re.findall(r" strangers=(\d+)$", out.decode(), re.M)]
            least, most = (frames - 1) * len(packets(1, 1)), self.senders[-1].strange
            if len(counted) != 1 or not least <= counted[0] <= most:
                note(case, "counted %r of %d to %d datagrams" % (counted, least, most))

        receive(case, CAMERA, frames, judge=judge, made=self.sender, stranger=STRANGER, rate=20)

    def check_slow_link(self):
        """What the camera sends waits for room, as on an interface of 100 Mbit/s or of 1 Gbit/s: a camera that this script plays, and
        `simulate`. Of it each packet of an image waits in its socket, and none is lost."""
        case = "another host behind a slow link"
        for rate, burst in (("100mbit", "2kb"), ("1gbit", "20kb")):
            try:
                if not shutil.which("tc"):
                    raise OSError(0, "there is no tc")
                self.pair.far.runs("tc qdisc add dev far root tbf rate %s burst %s latency 400ms" % (rate, burst))
            except OSError as why:
                print("checks/cameras: %s: skipped, since %s" % (case, why.strerror))
                return
            try:
                if rate == "100mbit":
                    receive(case, CAMERA, 20, judge=lambda out: judge_lines(case, out.decode(), 20, 20, strangers=False), made=self.sender)
                check_two_processes("%s of %s" % (case, rate), CAMERA, self.pair.far.enter)
            finally:
                self.pair.far.runs("tc qdisc del dev far root")

    def check_simulate(self):
        check_two_processes("another host's simulate", CAMERA, self.pair.far.enter)

    def check_interface_down(self):
        """An interface that is down for a moment, whosever it is, ends no run: what is sent meanwhile is lost."""
        for network, interface in ((self.pair.near, "near"), (self.pair.far, "far")):
            case, got = "an interface that is down for 50 ms: " + interface, []
            pause = threading.Timer(0.4, self.pause, (network, interface))
            pause.start()
            simulated(case, [CAMERA, "rate=25", "turns=400", "until=stdin"], lambda: got.append(run([], "receive", CAMERA, "30")),
                      lambda want, frames, turns: 30 <= frames <= turns, self.pair.far.enter)
            pause.join()
            status, out, err = got[0]
            if (status, err) != (0, "") or out.count(b"\n") != 31 or out.count(b" complete=1 ") < 27:
                note(case, "status %d, %r, %d whole images, %.300r" % (status, err, out.count(b" complete=1 "), out[-300:]))

    def pause(self, network, interface):
        network.runs("ip link set %s down" % interface)
        time.sleep(0.05)
        network.runs("ip link set %s up" % interface)


def main():
    try:
        pair = Pair(HOST, CAMERA, STRANGER)
    except OSError as why:
        print("checks/cameras: another host: skipped, since it can't be made here: %s" % why.strerror)
        return 0
    host = Host(pair)
    # (the interfaces may need a moment before they carry anything)
    answering = host.camera(CAMERA, lambda command: [command])
    await_camera(CAMERA)
    answering.end()
    checks = (host.check_discover, host.check_description, host.check_receive, host.check_strangers, host.check_slow_link,
              host.check_simulate, host.check_interface_down)
    passed = "discover, description and receive reach a camera of another host"
    return run_all("another host", CAMERA, lambda address: host.camera(address, lambda command: []), checks, lambda: "", passed)


if __name__ == "__main__":
    sys.exit(main())
