"""A headless Chromium that is steered through a pipe (the DevTools protocol), for what tools/try-status looks at."""
import base64
import contextlib
import fcntl
import html
import json
import os
import re
import shutil
import signal
import subprocess
import tempfile
import time

CHROMIUM = "chromium", "--headless", "--no-sandbox", "--disable-gpu", "--no-first-run", "--hide-scrollbars"

# The least number that a pipe's ends have here, since Chromium reads commands from descriptor 3 and writes answers to 4.
ABOVE = 10

# What is wrong with how the page is laid out: text that is cut off, a page or a table that is wider than its window, and headings of a
# column that are over none of its edges.
FAULTS = """(() => {
  const found = [], shows = it => it.getClientRects().length > 0, all = text => [...document.querySelectorAll(text)].filter(shows);
  for (const it of all('h1, p, th, td, button, pre')) if (it.scrollWidth > it.clientWidth + 1) found.push(`cut off: ${it.textContent}`);
  if (document.documentElement.scrollWidth > innerWidth) found.push('the page is wider than the window');
  for (const it of all('.wide')) if (it.scrollWidth > it.clientWidth + 1) found.push(`the table is wider than the window by ${it.scrollWidth - it.clientWidth} pixels`);
  const edges = cell => { const range = document.createRange(); range.selectNodeContents(cell); const { left, right } = range.getBoundingClientRect(); return [left, right]; };
  for (const table of all('table')) {
    const [head, ...rows] = [...table.querySelectorAll('tr')].filter(it => shows(it) && it.closest('table') === table && it.children.length > 1);
    for (const row of rows) [...row.children].forEach((cell, place) => {
      const over = head.children[place];
      if (shows(cell) && !edges(cell).some((edge, side) => Math.abs(edge - edges(over)[side]) <= 1))
        found.push(`${over.textContent} isn't over ${cell.textContent}`);
    });
  }
  return found;
})()"""

# A mount's row of the page: its name, and its other cells.
ROW = re.compile(r'<td class="name"><button[^>]*>([^<]*)</button></td>((?:<td[^>]*>.*?</td>)+)</tr>')

CELL = re.compile(r"<td[^>]*>(.*?)</td>")

TOTAL = re.compile(r'id="state"[^>]*>(\d+) live, (\d+) players, (\d+) packets lost by players since the start<')


def pipe():
    """The ends of a pipe: one that reads, and one that writes."""
    low = os.pipe()
    high = [fcntl.fcntl(it, fcntl.F_DUPFD_CLOEXEC, ABOVE) for it in low]
    for it in low:
        os.close(it)
    return high


class Browser:
    """A Chromium with one page. Whatever the page reports as an error is in `complaints`."""

    def __init__(self, folder):
        (theirs, self.commands), (self.answers, others) = pipe(), pipe()
        words = [*CHROMIUM, f"--user-data-dir={folder}", "--remote-debugging-pipe"]
        start = f'exec "$@" 3<&{theirs} 4>&{others} {theirs}<&- {others}>&-'
        self.process = subprocess.Popen(["bash", "-c", start, "-", *words], stderr=subprocess.DEVNULL, pass_fds=(theirs, others), start_new_session=True)
        os.close(theirs)
        os.close(others)
        self.number, self.session, self.rest, self.complaints = 0, None, b"", []

    def message(self):
        """The next message."""
        while b"\0" not in self.rest:
            piece = os.read(self.answers, 1 << 16)
            if not piece:
                raise AssertionError("Chromium has ended")
            self.rest += piece
        text, _, self.rest = self.rest.partition(b"\0")
        return json.loads(text)

    def ask(self, method, **parameters):
        """The result of a command. What the page reports meanwhile is kept if it is an error."""
        self.number += 1
        command = {"id": self.number, "method": method, "params": parameters, **({"sessionId": self.session} if self.session else {})}
        os.write(self.commands, json.dumps(command).encode() + b"\0")
        while (came := self.message()).get("id") != self.number:
            entry = came.get("params", {}).get("entry", {})
            if came.get("method") == "Runtime.exceptionThrown" or entry.get("level") == "error":
                self.complaints.append(f"{entry.get('text') or came['params']} {entry.get('url', '')}".strip())
        if "error" in came:
            raise AssertionError(f"{method}: {came['error']}")
        return came["result"]

    def open(self, url):
        target = self.ask("Target.createTarget", url="about:blank")["targetId"]
        self.session = self.ask("Target.attachToTarget", targetId=target, flatten=True)["sessionId"]
        for domain in "Page", "Runtime", "Log":
            self.ask(f"{domain}.enable")
        self.ask("Page.navigate", url=url)

    def value(self, expression):
        """The value of an expression of the page."""
        return self.ask("Runtime.evaluate", expression=expression, returnByValue=True)["result"].get("value")

    def click(self, name):
        """Clicks on the name of a mount."""
        self.value(f"[...document.querySelectorAll('.name button')].find(it => it.textContent === {json.dumps(name)}).click()")

    def picture(self, path, scheme, width, height):
        """Writes the page as it looks in a window of this size, in light or dark colours. Returns its faults."""
        self.ask("Emulation.setDeviceMetricsOverride", width=width, height=height, deviceScaleFactor=1, mobile=width < 600)
        self.ask("Emulation.setEmulatedMedia", features=[{"name": "prefers-color-scheme", "value": scheme}])
        time.sleep(1.5)
        path.write_bytes(base64.b64decode(self.ask("Page.captureScreenshot", format="png")["data"]))
        return self.value(FAULTS)

    def end(self):
        with contextlib.suppress(ProcessLookupError):
            os.killpg(self.process.pid, signal.SIGKILL)
        self.process.wait()
        os.close(self.commands)
        os.close(self.answers)


@contextlib.contextmanager
def browsing(url):
    """A browser that has opened this page."""
    folder = tempfile.mkdtemp()
    browser = Browser(folder)
    try:
        browser.open(url)
        yield browser
    finally:
        browser.end()
        shutil.rmtree(folder, ignore_errors=True)


def dumped(url):
    """The page as `--dump-dom` writes it, after its script has fetched the figures some times."""
    with tempfile.TemporaryDirectory(ignore_cleanup_errors=True) as folder:
        words = [*CHROMIUM, f"--user-data-dir={folder}", "--virtual-time-budget=3000", "--dump-dom", url]
        return subprocess.run(words, stdout=subprocess.PIPE, stderr=subprocess.DEVNULL, text=True, timeout=120, check=True).stdout


def shown(page):
    """What a page shows: of each mount its state, players, lost and refused, and the numbers of its first line."""
    rows = {}
    for name, cells in ROW.findall(page):
        texts = CELL.findall(cells)
        rows[html.unescape(name)] = texts[0], *(int(texts[place]) for place in (1, 5, 6))
    line = TOTAL.search(page)
    return rows, line and tuple(map(int, line.groups()))
