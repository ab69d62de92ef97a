"""Real loggers that write in bursts and do not ask for acknowledgements, and what the next hop misses of theirs."""

import importlib
import importlib.util
import subprocess
import threading

from relay import DEADLINE
from silent import NUMBERS, had_by


class GoLogger:
    """fluent-logger-golang, as a process that was built of stop/client.go."""

    def __init__(self, place, port, built, way="sync", lines=50, pause=0.2):
        self.front = NUMBERS * (place + 1)
        words = [built, str(port), way, str(self.front), str(lines), str(round(1_000 * pause))]
        pipes = {"stdin": subprocess.PIPE, "stdout": subprocess.PIPE, "text": True}
        self.process = subprocess.Popen(words, **pipes)

    def end(self):
        """Ends after a burst: how many lines it wrote."""
        told, _ = self.process.communicate("", timeout=DEADLINE)
        assert self.process.returncode == 0
        return int(told)

    def kill(self):
        """Ends it at once."""
        self.process.kill()
        self.process.communicate()


class PythonLogger:
    """python3-fluent-logger. It keeps a line that it could not write, and writes it before the next."""

    def __init__(self, place, port, lines=50, pause=0.2):
        self.front, self.lines, self.pause, self.posted = NUMBERS * (place + 1), lines, pause, 0
        sender = importlib.import_module("fluent.sender")
        self.sender = sender.FluentSender("app", host="127.0.0.1", port=port, bufmax=1 << 30)
        self.ends = threading.Event()
        self.thread = threading.Thread(target=self.run, daemon=True)
        self.thread.start()

    def run(self):
        """Burst after burst."""
        while not self.ends.wait(self.pause):
            for _ in range(self.lines):
                self.sender.emit("python", {"n": self.front + self.posted, "s": "x" * 300})
                self.posted += 1

    def end(self):
        """Ends after a burst: how many lines it wrote."""
        self.kill()
        self.sender.close()
        return self.posted

    def kill(self):
        """Ends it after a burst, whatever it keeps."""
        self.ends.set()
        self.thread.join(DEADLINE)


def begin(build_go, needed, source, port):
    """Loggers of each kind, by their names, which send to a port; `source` is the file of the Go program."""
    client = build_go(source)
    needed("golang-go and golang-github-fluent-fluent-logger-golang-dev", client)
    needed("python3-fluent-logger", importlib.util.find_spec("fluent"))
    return {
        "go": GoLogger(0, port, client),
        "go async": GoLogger(1, port, client, "async"),
        "go short": GoLogger(2, port, client, "async", lines=5, pause=0.03),
        "python": PythonLogger(3, port),
    }


def missing(loggers, hop, counts):
    """Of each logger, how many lines the next hop misses, by what each has written."""
    had = had_by(hop)
    lines = {name: range(one.front, one.front + counts[name]) for name, one in loggers.items()}
    return {name: sum(number not in had for number in numbers) for name, numbers in lines.items()}
