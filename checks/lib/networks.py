"""Two networks of this machine, a host's and a camera's, which a pair of interfaces joins: what is sent from one to the other goes the way
of a network, and reaches no address of this machine beside them."""
import ctypes
import os
import shutil
import subprocess

# the word by which Linux knows the kind of namespace
NETWORK = 0x40000000


def system_call(name, *words):
    """Python has these two from 3.12 on."""
    call = getattr(ctypes.CDLL(None, use_errno=True), name, None)
    if call is None:
        raise OSError(0, "there is no " + name)
    if call(*words):
        raise OSError(ctypes.get_errno(), "%s: %s" % (name, os.strerror(ctypes.get_errno())))


class Network:
    """A network of its own, into which this process goes when it's made."""

    def __init__(self):
        system_call("unshare", NETWORK)
        self.file = os.open("/proc/self/ns/net", os.O_RDONLY)

    def enter(self):
        system_call("setns", self.file, NETWORK)

    def runs(self, line):
        """Runs this command there, and raises where it fails."""
        done = subprocess.run(line.split(), preexec_fn=self.enter, capture_output=True)
        if done.returncode:
            raise OSError(done.returncode, "%s: %s" % (line, done.stderr.decode().strip()))


class Pair:
    """A host's network, in which this process is, and a camera's, of these addresses and one subnet of 24 bits. The host's has no default
    route. Interfaces are `near` and `far`. Raises OSError where the system makes no such thing."""

    def __init__(self, host, *cameras):
        if not shutil.which("ip"):
            raise OSError(0, "there is no ip")
        self.far = Network()
        self.near = Network()
        self.far.runs("ip link add far type veth peer name near netns %d" % os.getpid())
        for network, interface, addresses in ((self.near, "near", [host]), (self.far, "far", cameras)):
            for address in addresses:
                network.runs("ip address add %s/24 dev %s" % (address, interface))
            network.runs("ip link set lo up")
            network.runs("ip link set %s up" % interface)

    def beyond(self, make, *words, **how):
        """What `make` makes in the camera's network: its sockets stay there."""
        self.far.enter()
        try:
            return make(*words, **how)
        finally:
            self.near.enter()
