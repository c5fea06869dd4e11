"""Hosts of this machine's own that can be taken off their cable."""
import ctypes
import os
import subprocess
from contextlib import contextmanager


class Hosts:
    """Two hosts of this machine's own, each a network namespace, joined by a cable that can be pulled: a host at its far end is
    gone then without a word."""

    NEAR, FAR = "10.0.0.1", "10.0.0.2"
    NEW_NETWORK = 0x40000000

    def __init__(self):
        self.system = ctypes.CDLL(None, use_errno=True)
        self.home = self.here = os.open("/proc/thread-self/ns/net", os.O_RDONLY)
        self.near, self.far = self.namespace(), self.namespace()
        cable = "ip link add near type veth peer name far netns /proc/%d/fd/%d" % (os.getpid(), self.far)
        with self.at(self.near):
            self.run(f"{cable} && ip addr add {self.NEAR}/24 dev near && ip link set near up && ip link set lo up")
        with self.at(self.far):
            self.run(f"ip addr add {self.FAR}/24 dev far && ip link set far up")

    def namespace(self):
        if self.system.unshare(self.NEW_NETWORK) != 0:
            raise PermissionError("no network namespace")
        made = os.open("/proc/thread-self/ns/net", os.O_RDONLY)
        self.system.setns(self.home, 0)
        return made

    @contextmanager
    def at(self, namespace):
        """Sockets that are made in this block, and processes that are started, belong to this host."""
        before, self.here = self.here, namespace
        self.system.setns(self.here, 0)
        try:
            yield
        finally:
            self.here = before
            self.system.setns(self.here, 0)

    @staticmethod
    def run(words):
        subprocess.run(words, shell=True, check=True, stdout=subprocess.DEVNULL, stderr=subprocess.DEVNULL)

    def pull_the_cable(self):
        with self.at(self.far):
            self.run("ip link set far down")

    def mend_the_cable(self):
        with self.at(self.far):
            self.run("ip link set far up")

    def lose(self, peers):
        """The far host goes, and comes back when it has forgotten these connections, of which the near one isn't told."""
        self.pull_the_cable()
        for peer in peers:
            peer.reset()
        self.mend_the_cable()

    def close(self):
        for namespace in (self.near, self.far, self.home):
            os.close(namespace)


@contextmanager
def at_a_host():
    """Two hosts, of which the near one has what is made in this block; or none, and it is made at home, where this machine makes no
    namespaces."""
    try:
        hosts = Hosts()
    except (OSError, AttributeError, subprocess.SubprocessError):
        print("this machine makes no network namespaces: no host was taken off its cable")
        yield None
        return
    try:
        with hosts.at(hosts.near):
            yield hosts
    finally:
        hosts.close()
