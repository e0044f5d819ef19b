"""The cameras and players of `tools/try-cluster` (fleet.c), and what they report."""
import pathlib
import queue
import statistics
import subprocess
import threading

from net import PROXY

SOURCE = pathlib.Path(__file__).resolve().parent / "fleet.c"

# A camera's packets a second, and their bytes.
RATE, BYTES = 10, 500

# A player without a packet for longer has no picture, in milliseconds.
DARK = 1_500


def built(folder):
    path = f"{folder}/fleet"
    subprocess.run(["cc", "-O2", "-o", path, str(SOURCE)], check=True)
    return path


class Report:
    """What was counted since the mark: rows of words for cameras, players and askers."""

    def __init__(self, lines):
        self.cameras, self.players, self.asked = [], [], {}
        for line in lines:
            kind, *words = line.split()
            if kind == "asked":
                self.asked = dict(zip(words[::2], map(int, words[1::2])))
            else:
                row = {"name": f"cam-{int(words[0]):03d}", **dict(zip(words[1::2], map(int, words[2::2])))}
                (self.cameras if kind == "camera" else self.players).append(row)

    def of(self, names, is_among=True):
        """The players of these names, or of all others."""
        return [it for it in self.players if (it["name"] in names) == is_among]

    def refused_live(self):
        """How many requests for live mounts were answered 404."""
        return sum(it["refused_live"] for it in self.cameras)

    def dark(self):
        return sum(it["since"] > DARK for it in self.players)


def lost(players):
    return sum(it["lost"] + it["missed"] for it in players)


def backs(players):
    """After how many seconds pictures were back, of those that were away: the median and the longest."""
    times = [it["back"] / 1000 for it in players if it["gap"] > DARK / 3 and it["since"] <= DARK]
    return (statistics.median(times), max(times)) if times else (0, 0)


class Fleet:
    def __init__(self, net, path, mounts, players, rate=RATE):
        words = [*net.command("clients"), path, PROXY, 8555, 8554, mounts, players, rate, BYTES]
        self.process = subprocess.Popen([*map(str, words)], stdin=subprocess.PIPE, stdout=subprocess.PIPE, text=True)
        self.lines = queue.Queue()
        threading.Thread(target=self.read, daemon=True).start()

    def __enter__(self):
        return self

    def __exit__(self, *_):
        self.process.kill()
        self.process.wait()

    def read(self):
        for line in self.process.stdout:
            self.lines.put(line.strip())
        self.lines.put(None)

    def say(self, text):
        self.process.stdin.write(text + "\n")
        self.process.stdin.flush()

    def waits_for(self, text, seconds):
        """The lines up to this one. Fails if it doesn't come."""
        found = []
        while (line := self.lines.get(timeout=seconds)) != text:
            if line is None:
                raise AssertionError(f"the fleet has ended: {found[-3:]}")
            found.append(line)
        return found

    def report(self):
        self.say("report")
        return Report([line for line in self.waits_for("end", 20) if line.split()[0] in ("camera", "player", "asked")])
