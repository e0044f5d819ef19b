"""The network of `tools/try-cluster`: a namespace for each machine, and a switch between them."""
import contextlib
import ctypes
import os
import subprocess
import sys

# CLONE_NEWNET of <sched.h>.
NETWORK = 0x40000000

# The addresses are those of dist/haproxy.cfg. `far` is a second machine of clients, whose link is cut. Clients connect to PROXY, which a
# machine with HAProxy has beside its own address.
PROXY, FIRST, SECOND = "10.0.0.2", "10.0.0.4", "10.0.0.3"
RELAYS = [f"10.0.0.{11 + place}" for place in range(4)]
EDGES = [f"10.0.0.{21 + place}" for place in range(3)]
CLIENTS, FAR = "10.0.0.100", "10.0.0.101"
MACHINES = {
    "proxy": FIRST, "proxy2": SECOND, "clients": CLIENTS, "far": FAR,
    **{f"relay{place + 1}": it for place, it in enumerate(RELAYS)},
    **{f"edge{place + 1}": it for place, it in enumerate(EDGES)},
}

# The proxies are as the head of dist/haproxy.cfg says. Clients need 200,000 ports in some minutes.
REUSE = "net.ipv4.tcp_tw_reuse=1"
SETTINGS = {"proxy": (REUSE,), "proxy2": (REUSE,), "clients": (REUSE, "net.ipv4.ip_local_port_range=1024 65535")}


def run(*words):
    done = subprocess.run(words, capture_output=True, text=True, timeout=20)
    if done.returncode:
        raise OSError(f"{' '.join(words)}: {done.stderr.strip()}")


class Network:
    """Namespaces `vkPID-NAME` with one address each. They are deleted at the end, whatever happens meanwhile."""

    def __init__(self):
        self.head, self.made = f"vk{os.getpid()}-", []

    def __enter__(self):
        try:
            self.make("switch")
            self.ip("switch", "link add name br0 type bridge")
            self.ip("switch", "link set br0 up")
            for name, address in MACHINES.items():
                self.join(name, address)
            self.ip("proxy", f"addr add {PROXY}/24 dev eth0")
        except BaseException:
            self.__exit__()
            raise
        return self

    def __exit__(self, *_):
        for name in self.made:
            with contextlib.suppress(OSError, subprocess.TimeoutExpired):
                run("ip", "netns", "del", self.head + name)

    def make(self, name):
        run("ip", "netns", "add", self.head + name)
        self.made.append(name)
        self.ip(name, "link set lo up")

    def join(self, name, address):
        """A machine with a link to the switch."""
        self.make(name)
        self.ip("switch", f"link add name {name} type veth peer name eth0 netns {self.head}{name}")
        self.ip("switch", f"link set {name} master br0 up")
        self.ip(name, f"addr add {address}/24 dev eth0")
        self.ip(name, "link set eth0 up")
        for it in SETTINGS.get(name, ()):
            self.set(name, it)

    def ip(self, name, words):
        run("ip", "-n", self.head + name, *words.split())

    def set(self, name, setting):
        """Sets a kernel setting of this machine's network."""
        run(*self.command(name), "sysctl", "-qw", setting)

    def command(self, name):
        """The words before a command that runs on this machine."""
        return ["ip", "netns", "exec", self.head + name]

    def cut(self, name):
        """Cuts the link between the machine and the switch. No reset is sent."""
        self.ip("switch", f"link set {name} down")

    def mend(self, name):
        self.ip("switch", f"link set {name} up")

    @contextlib.contextmanager
    def on(self, name):
        """Sockets that this thread makes meanwhile are of this machine."""
        libc = ctypes.CDLL(None, use_errno=True)
        with open(f"/var/run/netns/{self.head}{name}") as there, open("/proc/thread-self/ns/net") as here:
            self.enter(libc, there)
            try:
                yield
            finally:
                self.enter(libc, here)

    def enter(self, libc, namespace):
        if libc.setns(namespace.fileno(), NETWORK) != 0:
            sys.exit(f"setns: {os.strerror(ctypes.get_errno())}")
