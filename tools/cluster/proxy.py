"""HAProxy of `tools/try-cluster`: dist/haproxy.cfg on the machine `proxy`."""
import os
import pathlib
import re
import signal
import socket
import subprocess

from peers import until

CONFIG = pathlib.Path(__file__).resolve().parent.parent.parent / "dist/haproxy.cfg"


def config():
    return CONFIG.read_text(encoding="utf-8")


def adapted(text, folder):
    """The configuration with its files in this folder. Its addresses are those of the machines."""
    return text.replace("/run/haproxy/", f"{folder}/").replace("log /dev/log local0", "log stderr format raw local0")


def with_edges(text, name):
    """The configuration with the section for the mount `big`, which has this name."""
    head, section = text.split("#backend edges_of_big\n")
    head = head.replace("    #use_backend edges_of_big", "    use_backend edges_of_big").replace("-m str big }", f"-m str {name} }}")
    lines = [line.removeprefix("#") for line in section.splitlines(True)]
    return head + "backend edges_of_big\n" + "".join(lines).replace("rtsp://edge/big ", f"rtsp://edge/{name} ")


class Proxy:
    """A master of HAProxy and its workers."""

    def __init__(self, net, folder, text, machine="proxy"):
        self.net, self.folder, self.machine = net, f"{folder}/{machine}", machine
        os.mkdir(self.folder)
        self.path, self.socket, self.lines_at = (f"{self.folder}/{name}" for name in ("haproxy.cfg", "admin.sock", "haproxy.log"))
        self.text = adapted(text, self.folder)
        pathlib.Path(self.path).write_text(self.text, encoding="utf-8")

    def __enter__(self):
        words = [*self.net.command(self.machine), "haproxy", "-W", "-f", self.path]
        with open(self.lines_at, "a", encoding="utf-8") as lines:
            self.process = subprocess.Popen(words, stdout=lines, stderr=lines)
        if not until(10, lambda: self.process.poll() is not None or os.path.exists(self.socket)) or self.process.poll() is not None:
            self.__exit__()
            raise AssertionError(f"HAProxy doesn't start: {self.lines()}")
        return self

    def __exit__(self, *_):
        # The master ends its workers, old ones too.
        self.process.terminate()
        try:
            self.process.wait(10)
        except subprocess.TimeoutExpired:
            self.kill()

    def kill(self):
        for it in [*self.workers(), self.process.pid]:
            os.kill(it, signal.SIGKILL)
        self.process.wait()

    def lines(self):
        return pathlib.Path(self.lines_at).read_text(encoding="utf-8", errors="replace")

    def workers(self):
        """The processes of the master's workers, with those that a reload has left for their sessions."""
        path = pathlib.Path(f"/proc/{self.process.pid}/task/{self.process.pid}/children")
        return [int(it) for it in path.read_text().split()] if path.exists() else []

    def ask(self, command):
        """What HAProxy answers to a command on its socket."""
        with socket.socket(socket.AF_UNIX) as asked:
            asked.settimeout(10)
            asked.connect(self.socket)
            asked.sendall(command.encode() + b"\n")
            return b"".join(iter(lambda: asked.recv(1 << 16), b"")).decode(errors="replace")

    def stat(self):
        """The rows of `show stat` by proxy and server, each as words by their heads."""
        head, *rows = [line.split(",") for line in self.ask("show stat").strip().splitlines()]
        head[0] = head[0].lstrip("# ")
        return {(row[0], row[1]): dict(zip(head, row)) for row in rows}

    def is_up(self, name, backend="relays"):
        return self.stat()[backend, name]["status"].startswith("UP")

    def downs(self):
        """How often a relay was marked down."""
        return sum(int(row["chkdown"] or 0) for (proxy, _), row in self.stat().items() if proxy == "relays" and row.get("chkdown"))

    def table(self):
        """The server's id of each name."""
        rows = re.findall(r"key=(\S+) .*?server_id=(\d+)", self.ask("show table relays"))
        return {name: int(it) for name, it in rows}

    def used(self):
        return int(re.search(r"used:(\d+)", self.ask("show table relays")[:200])[1])

    def reload(self, text=None):
        """As `systemctl reload haproxy`. Returns once the new worker is there."""
        if text:
            pathlib.Path(self.path).write_text(adapted(text, self.folder), encoding="utf-8")
        before = set(self.workers())
        self.process.send_signal(signal.SIGUSR2)
        if not until(30, lambda: set(self.workers()) - before):
            raise AssertionError(f"no new worker: {self.lines()[-500:]}")

    def memory(self):
        """The resident memory of its workers, in MB."""
        found = [re.search(r"VmRSS:\s+(\d+)", pathlib.Path(f"/proc/{it}/status").read_text()) for it in self.workers()]
        return sum(int(it[1]) for it in found if it) / 1024
