"""The relays of `tools/try-cluster`, and what their status pages say."""
import contextlib
import http.client
import json
import os
import signal
import subprocess
import threading
import time
import types

from net import EDGES, RELAYS
from peers import ALLOCATOR, until

# How often each status page is asked for, in seconds, and how long its answer may take.
LOOK, ANSWER = 0.25, 1.0


class Relay:
    """One relay on its machine. Its lines are in a file."""

    def __init__(self, net, name, address, program, options, folder):
        self.net, self.name, self.address, self.port = net, name, address, 8554
        self.reach, self.lines_at = self.address, f"{folder}/{name}.log"
        more = "--http", f"{self.address}:9554", "--until-eof", *options
        self.words = [*net.command(name), program, "serve", f"0.0.0.0:{self.port}", *more]
        self.process = None

    def place(self):
        """Where its peers connect to if they don't go through HAProxy."""
        return types.SimpleNamespace(reach=self.address, port=self.port, address=f"{self.address}:{self.port}")

    def start(self):
        with open(self.lines_at, "a", encoding="utf-8") as lines:
            self.process = subprocess.Popen(self.words, stdin=subprocess.PIPE, stderr=lines, env={**os.environ, **ALLOCATOR})

    def listens(self):
        with open(self.lines_at, encoding="utf-8") as lines:
            return sum(line.startswith("relay: listening") for line in lines) or self.process.poll() is not None

    def signal(self, number):
        self.process.send_signal(number)

    def kill(self):
        if self.process and self.process.poll() is None:
            self.process.kill()
        if self.process:
            self.process.wait()
            self.process.stdin.close()

    def stop(self):
        """Stops it as `systemctl restart` does."""
        self.process.stdin.close()
        with contextlib.suppress(subprocess.TimeoutExpired):
            self.process.wait(5)
        self.kill()

    def status(self):
        """Its status page, or None if it can't be had."""
        try:
            asked = http.client.HTTPConnection(self.address, 9554, timeout=ANSWER)
            with contextlib.closing(asked):
                asked.request("GET", "/status.json")
                return json.loads(asked.getresponse().read())
        except (OSError, http.client.HTTPException, ValueError):
            return None


def making(net, program, options, folder):
    """The relays."""
    return [Relay(net, f"relay{place + 1}", it, program, options, folder) for place, it in enumerate(RELAYS)]


def edges(net, program, options, folder):
    """The relays that fetch a mount."""
    return [Relay(net, f"edge{place + 1}", it, program, options, folder) for place, it in enumerate(EDGES)]


class Watch:
    """Looks at all status pages by turns: which names each relay has, and for how long a name is on two."""

    def __init__(self, net, relays):
        self.net, self.relays, self.is_over = net, relays, False
        self.names, self.since, self.twice = {it.name: set() for it in relays}, {}, {}
        self.lock = threading.Lock()
        self.threads = [threading.Thread(target=self.look, args=(it,), daemon=True) for it in relays]

    def __enter__(self):
        for it in self.threads:
            it.start()
        return self

    def __exit__(self, *_):
        self.is_over = True
        for it in self.threads:
            it.join()

    def look(self, relay):
        with self.net.on("clients"):
            while not self.is_over:
                asked = time.monotonic()
                page = relay.status()
                names = {it["name"] for it in page["recorded"]} if page else set()
                with self.lock:
                    self.names[relay.name] = names
                    self.compare()
                time.sleep(max(0, asked + LOOK - time.monotonic()))

    def compare(self):
        """Keeps the names that two relays have at the same time, and for how long they do."""
        now, all_names = time.monotonic(), [it for names in self.names.values() for it in names]
        both = {it for it in set(all_names) if all_names.count(it) > 1}
        self.since = {it: self.since.get(it, now) for it in both}
        for it, begun in self.since.items():
            self.twice[it] = max(self.twice.get(it, 0), now - begun)

    def of(self, name):
        """The names that a relay has."""
        with self.lock:
            return set(self.names[name])

    def count(self):
        with self.lock:
            return {it: len(names) for it, names in self.names.items()}

    def taken(self):
        """The names that were on two relays since the last call, with the longest time in seconds."""
        with self.lock:
            found, self.twice = self.twice, {}
            return found


def have_started(relays):
    for it in relays:
        it.start()
    if not until(20, lambda: all(it.listens() for it in relays)) or any(it.process.poll() is not None for it in relays):
        raise AssertionError(f"a relay doesn't listen: {[open(it.lines_at).read()[-300:] for it in relays]}")


def stopped(relay):
    relay.signal(signal.SIGSTOP)


def resumed(relay):
    relay.signal(signal.SIGCONT)
