"""A Prometheus of this host that scrapes a relay by the job of dist/prometheus, and the queries of its dashboard."""
import contextlib
import json
import math
import pathlib
import re
import socket
import subprocess
import tempfile
import urllib.error
import urllib.parse
import urllib.request

from peers import until

RULES = pathlib.Path(__file__).resolve().parents[2] / "dist" / "prometheus"

JOB = (RULES / "scrape.yml").read_text()

# What Grafana puts in place of the variables of a query: four scrapes, and all relays.
VARIABLES = {"$__rate_interval": "20s", "$instance": ".*"}


def free_port():
    with socket.create_server(("127.0.0.1", 0)) as it:
        return it.getsockname()[1]


def configuration(port):
    """The job with a scrape each second of the relay with status pages on this port, and the alerts."""
    job, count = re.subn(r"scrape_interval: 5s\b", "scrape_interval: 1s", JOB)
    job, also = re.subn(r"127\.0\.0\.1:9554", f"127.0.0.1:{port}", job)
    if (count, also) != (1, 1):
        raise AssertionError(f"another job than was thought: {JOB}")
    return f"{job}rule_files: [{RULES / 'alerts.yml'}]\n"


class Prometheus:
    """A Prometheus with a folder of its own."""

    def __init__(self, folder, relay_port):
        self.port = free_port()
        path = pathlib.Path(folder) / "prometheus.yml"
        path.write_text(configuration(relay_port))
        words = ["prometheus", f"--config.file={path}", f"--storage.tsdb.path={folder}/data", f"--web.listen-address=127.0.0.1:{self.port}", "--log.level=warn"]
        self.log = pathlib.Path(folder) / "log"
        with self.log.open("w") as log:
            self.process = subprocess.Popen(words, stderr=log, cwd=folder)
        if not until(60, lambda: self.is_ready() and self.values("up == 1")):
            self.end()
            raise AssertionError(f"Prometheus doesn't start, or doesn't scrape: {self.log.read_text()}")

    def is_ready(self):
        with contextlib.suppress(urllib.error.URLError, OSError):
            return urllib.request.urlopen(f"http://127.0.0.1:{self.port}/-/ready", timeout=5).status == 200
        return False

    def result(self, query):
        """What the HTTP API gives for a query at this moment."""
        words = urllib.parse.urlencode({"query": query})
        with urllib.request.urlopen(f"http://127.0.0.1:{self.port}/api/v1/query?{words}", timeout=30) as page:
            return json.load(page)["data"]["result"]

    def values(self, query):
        """The numbers of a query at this moment, with their labels."""
        return [(it["metric"], float(it["value"][1])) for it in self.result(query)]

    def samples(self, query):
        """The raw samples of the one series that a range of a metric has."""
        found = self.result(query)
        if len(found) != 1:
            raise AssertionError(f"{query} has {len(found)} series")
        return [float(value) for _, value in found[0]["values"]]

    def firing(self):
        """The alerts that fire, each with its mount and result if it has them."""
        return {tuple(filter(None, map(it.get, ("alertname", "mount", "result")))) for it, _ in self.values('ALERTS{alertstate="firing"}')}

    def end(self):
        self.process.terminate()
        self.process.wait()


@contextlib.contextmanager
def scraping(relay_port):
    with tempfile.TemporaryDirectory() as folder:
        prometheus = Prometheus(folder, relay_port)
        try:
            yield prometheus
        finally:
            prometheus.end()


def panels():
    """The title and the query of each panel of the dashboard, as Grafana would send it."""
    for panel in json.loads((RULES / "dashboard.json").read_text())["panels"]:
        for target in panel["targets"]:
            query = target["expr"]
            for name, value in VARIABLES.items():
                query = query.replace(name, value)
            yield panel["title"], query


def is_number(values):
    """Whether a query has a result, and numbers alone."""
    return bool(values) and all(math.isfinite(value) for _, value in values)
