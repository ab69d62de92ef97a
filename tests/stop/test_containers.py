"""packaging/container.sh: the image in Debian's docker.io, and a relay behind Docker's own log driver."""

import io
import os
import pathlib
import shutil
import subprocess
import tarfile
import time

import pytest

import loggers
from documents import TOP, blocks, text_of
from forward import HOST, Source
from next_hop import later
from relay import free_ports, settings, steady, until

pytestmark = pytest.mark.minutes

LINES = 400
STOPS = 4
COMMAND = "i=0; while [ $i -lt {} ]; do echo line $i; i=$((i+1)); {} done; /bin/busybox sleep 5"
PAUSE = "/bin/busybox usleep {};"
STEADY = COMMAND.format(LINES, PAUSE.format(20_000))
BURSTS = COMMAND.format(50 * LINES, f"[ $((i % 50)) != 0 ] || {PAUSE.format(50_000)}")


class Engine:
    """A dockerd of the test's own, without a network and with all that it has in one folder."""

    def __init__(self, folder):
        self.folder, self.host = folder, f"unix://{folder}/socket"
        words = ["dockerd", "--host", self.host, "--data-root", folder / "data", "--exec-root", folder / "exec"]
        words += ["--pidfile", folder / "pid", "--iptables=false", "--ip6tables=false", "--bridge=none"]
        words += ["--storage-driver=vfs"]
        self.said = folder / "said"
        with open(self.said, "wb") as said:
            self.process = subprocess.Popen(words, stdin=subprocess.DEVNULL, stdout=said, stderr=said)
        until(self.is_ready, lambda: f"dockerd is not ready: {self.said.read_text()[-2000:]}")

    def is_ready(self):
        """Whether it answers."""
        return self.process.poll() is not None or self.ran("version").returncode == 0

    def ran(self, *words):
        """What comes of a call of docker."""
        return subprocess.run(["docker", "--host", self.host, *words], capture_output=True, text=True, timeout=120)

    def run(self, *words):
        """What a call of docker that ends well says."""
        ran = self.ran(*words)
        assert ran.returncode == 0, f"{words}: {ran.stdout}{ran.stderr}"
        return ran.stdout

    def end(self):
        """Ends it, and what runs in it."""
        for name in self.ran("ps", "--quiet").stdout.split():
            self.ran("kill", name)
        self.process.terminate()
        self.process.wait(60)
        mounted = [line.split()[1] for line in pathlib.Path("/proc/self/mounts").read_text().splitlines()]
        for place in reversed([place for place in mounted if place.startswith(f"{self.folder}/")]):
            subprocess.run(["umount", place], check=True)
        shutil.rmtree(self.folder)


@pytest.fixture(scope="module")
def engine(tmp_path_factory):
    """A dockerd, where it can be had."""
    if not (shutil.which("dockerd") and shutil.which("docker")):
        pytest.skip("missing: docker.io")
    if os.geteuid() != 0:
        pytest.skip("missing: root, for dockerd")
    one = Engine(tmp_path_factory.mktemp("engine"))
    yield one
    one.end()


@pytest.fixture(scope="module")
def busybox(engine, tmp_path_factory):
    """The name of an image of Debian's busybox-static."""
    path = shutil.which("busybox")
    if not path:
        pytest.skip("missing: busybox-static")
    made = tmp_path_factory.mktemp("busybox") / "busybox.tar"
    with open(path, "rb") as program, tarfile.open(made, "w") as tar:
        member = tarfile.TarInfo("bin/busybox")
        content = program.read()
        member.size, member.mode = len(content), 0o755
        tar.addfile(member, io.BytesIO(content))
    engine.run("import", str(made), "busybox")
    return "busybox"


def imported(engine, program, folder):
    """Makes the image and imports it as packaging/container.sh says."""
    words = ["sh", "packaging/container.sh", str(folder)]
    env = os.environ | {"RELAY": program}
    said = subprocess.run(words, cwd=TOP, env=env, capture_output=True, text=True, timeout=60, check=True).stdout
    typed = said.replace("\\\n", "").splitlines()
    command = next(line for line in typed if "docker import" in line)
    subprocess.run(command, shell=True, env=os.environ | {"DOCKER_HOST": engine.host}, check=True, timeout=120)
    return command.split()[-1]


def contained(engine, program, hop, folder, name):
    """The port of a relay in a container of this name, once it listens. It sends on what it has when it is asked to stop."""
    image = imported(engine, program, folder)
    port, monitor = free_ports(2)
    (folder / "set").mkdir()
    keys = {"listen": f"{HOST}:{port}", "monitor": f"{HOST}:{monitor}", "control": "/run/control"}
    path = folder / "set/relay.toml"
    path.write_text(settings(keys, [{"servers": [hop.port], "flush_interval": 86_400_000}]))
    path.chmod(0o644)
    folder.chmod(0o755)
    (folder / "set").chmod(0o755)
    words = ["--detach", "--init", "--name", name, "--network=host"]
    engine.run("run", *words, "--volume", f"{path.parent}:/etc/forward_relay:ro", image)
    await_starts(engine, name, 1)
    return port


def await_starts(engine, name, count):
    """Waits until a container's relay has begun to listen so many times."""
    said = lambda: engine.ran("logs", name).stderr
    until(lambda: said().count("listening: monitors") == count, said)


def stopped(engine, name):
    """Asks a container's relay to stop, which has to deliver all: what came of it."""
    asked = engine.ran("exec", name, "forward_relay", "stop", "/etc/forward_relay/relay.toml")
    assert asked.returncode in (0, 137)  # the container ends with the relay, and may take the call with it
    assert engine.run("wait", name) == "0\n", engine.ran("logs", name).stderr
    return asked


def test_the_image(engine, program, next_hop, tmp_path):
    """A relay in a container takes requests, and `stop` in it loses nothing; the same files make the same bytes."""
    hop = next_hop()
    with Source(contained(engine, program, hop, tmp_path, "relay")) as source:
        for number in range(100):
            source.send(entries=[(1, {"n": number})])
        asked = stopped(engine, "relay")
    assert asked.stdout.splitlines()[-1] == "all is delivered"
    assert [record["n"] for _, _, record in hop.entries()] == list(range(100))
    assert "stopped: all is delivered" in engine.ran("logs", "relay").stderr


def test_restarts_under_loggers(engine, program, next_hop, build_go, needed, tmp_path):
    """Six restarts of a container under loggers that never ask: all comes, but for at most a line a restart of each.

    It is the line that a logger of Go wrote while the relay closed its connection. Python's loses none.
    """
    hop = next_hop()
    port = contained(engine, program, hop, tmp_path, "restarted")
    clients = loggers.begin(build_go, needed, TOP / "tests/stop/client.go", port)
    try:
        for start in range(6):
            time.sleep(1)
            stopped(engine, "restarted")
            engine.run("start", "restarted")
            await_starts(engine, "restarted", start + 2)
        time.sleep(1)
        counts = {name: client.end() for name, client in clients.items()}
    finally:
        for client in clients.values():
            client.kill()
    stopped(engine, "restarted")
    lost = loggers.missing(clients, hop, counts)
    print(f"missing {lost} of {counts}")
    assert lost["python"] == 0 and all(number <= 6 for number in lost.values()), f"missing {lost} of {counts}"
    assert engine.ran("logs", "restarted").stderr.count("stopped: all is delivered") == 7


def test_a_signal_ends_it_with_init(engine, program, tmp_path):
    """With --init a signal ends the relay at once; without, the kernel keeps it from a first process."""
    image = imported(engine, program, tmp_path)
    (tmp_path / "set").mkdir()
    path = tmp_path / "set/relay.toml"
    for number, init in enumerate([["--init"], []]):
        path.write_text(settings({"listen": f"{HOST}:{free_ports(1)[0]}"}, [{"servers": [9]}]))
        for place in (path, path.parent, tmp_path):
            place.chmod(0o755)
        words = ["--detach", *init, "--name", f"signal{number}", "--network=host"]
        engine.run("run", *words, "--volume", f"{path.parent}:/etc/forward_relay:ro", image)
        until(lambda name=f"signal{number}": "listening" in engine.ran("logs", name).stderr, "it does not listen")
        began = time.monotonic()
        engine.run("stop", "--time", "5", f"signal{number}")
        assert (time.monotonic() - began < 4) == bool(init)
        assert engine.run("wait", f"signal{number}") == ("143\n" if init else "137\n")


WAYS = [f"{ack}.{kind}" for ack in ("true", "false") for kind in ("true", "false")]  # request-ack and async


def logging(way, port):
    """The words of a container that logs to a port in one way of the driver."""
    ack, kind = way.split(".")
    options = {"address": f"{HOST}:{port}", "request-ack": ack, "async": kind}
    words = [word for key, value in options.items() for word in ("--log-opt", f"fluentd-{key}={value}")]
    return [*words, "--log-opt", f"tag={way}", "--log-driver=fluentd", "--network=host", "--name", way, "--detach"]


@pytest.fixture
def removed(engine):
    """No container of the ways is left for the next test."""
    yield
    engine.ran("rm", "--force", *WAYS)


def test_the_documented_call(engine, busybox, relay, next_hop):
    """What OPERATING types has the relay get a line with nanoseconds, under a tag with the container's name."""
    hop = next_hop()
    one = relay([{"match": "docker.**", "servers": [hop.port]}])
    (block,) = [block for block in blocks(text_of("docs/OPERATING.md")) if block.startswith("docker run ")]
    for old, new in {":24224": f":{one.port}", "IMAGE": f"{busybox} /bin/busybox echo hello"}.items():
        assert old in block
        block = block.replace(old, new)
    block = block.replace("docker run", "docker run --network=host --name documented")
    subprocess.run(["sh", "-ec", block], env=os.environ | {"DOCKER_HOST": engine.host}, check=True, timeout=120)
    ((tag, moment, record),) = hop.await_entries(1)
    assert (tag, moment.code, record["log"]) == ("docker.documented", 0, "hello")


def test_no_relay_at_the_start(engine, busybox, removed):
    """Without a relay a container starts only if it logs asynchronously."""
    (port,) = free_ports(1)
    for way in WAYS:
        ran = engine.ran("run", *logging(way, port), busybox, "/bin/busybox", "true")
        assert (ran.returncode == 0) == way.endswith("true"), ran.stderr


def logged(engine, busybox, one, hop, ways, command, ends):
    """Containers log, each in one of these ways of the driver, while a relay ends in some way four times, and starts again.

    It gives, for each way, the numbers of the lines that a server got.
    """
    for way in ways:
        engine.run("run", *logging(way, one.port), busybox, "/bin/busybox", "sh", "-c", command)
    for _ in range(STOPS):
        time.sleep(1.5)
        ends()
        one.start()
    for way in ways:
        engine.run("wait", way)
    time.sleep(3)
    assert one.stop(60).status == 0
    came = {way: set() for way in ways}
    for tag, _, record in hop.entries():
        came[tag].add(int(record["log"].removeprefix("line ")))
    return came


@pytest.mark.parametrize("how", ["stop", "kill"])
def test_the_log_driver(engine, busybox, stoppable, next_hop, removed, how):
    """Containers that log, each in one way of Docker's `fluentd` driver, with a relay that ends and starts meanwhile.

    Every line comes of those that ask. Of the others a line may be missing that was written while the relay closed its
    connection: microseconds. A kill loses what they have under way.
    """
    hop = next_hop()
    outputs = [{"match": "true.**", "flush_interval": 5}, {"flush_interval": 86_400_000 if how == "stop" else 0}]
    one = stoppable([output | {"servers": [hop.port], "full": "wait"} for output in outputs])

    def ends():
        assert one.kill() < 0 if how == "kill" else one.stop(60).status == one.ended() == 0

    missing = lines_without(logged(engine, busybox, one, hop, WAYS, STEADY, ends), LINES)
    for way in WAYS:
        most = 0 if way.startswith("true") else 1 if how == "stop" else LINES
        assert len(missing[way]) <= most, missing


def test_the_log_driver_in_bursts(engine, busybox, stoppable, next_hop, removed):
    """Containers that log in bursts without asking, with a relay that is stopped and starts: at most a line a stop is missing."""
    hop = next_hop()
    one = stoppable([{"servers": [hop.port], "flush_interval": 86_400_000}])

    def ends():
        assert one.stop(60).status == one.ended() == 0

    ways = [way for way in WAYS if way.startswith("false")]
    missing = lines_without(logged(engine, busybox, one, hop, ways, BURSTS, ends), 50 * LINES)
    assert all(len(numbers) <= STOPS for numbers in missing.values()), missing


def test_a_fast_container(engine, busybox, relay, next_hop, removed):
    """`seq 1 20000`, with 10 ms to the acknowledgement: Docker drops most lines where it asks, and none where it does not.

    It asks for each line, and drops what is left some seconds after the container has ended. OPERATING says so.
    """
    hop = next_hop(answer=later(0.01))
    one = relay([{"servers": [hop.port], "flush_interval": 0, "window": 8}])
    for way in ("true.true", "true.false", "false.false"):
        engine.run("run", *logging(way, one.port), busybox, "/bin/busybox", "seq", "1", "20000")
        engine.run("wait", way)
    steady(hop.count, 3)
    came = {way: {record["log"] for tag, _, record in hop.entries() if tag == way} for way in WAYS}
    lost = {way: 20_000 - len(lines) for way, lines in came.items()}
    assert lost["false.false"] == 0 and min(lost["true.true"], lost["true.false"]) > 10_000, lost


def lines_without(came, count):
    """For each way, the numbers of the lines up to a count that did not come."""
    missing = {way: [number for number in range(count) if number not in numbers] for way, numbers in came.items()}
    print({way: f"{len(numbers)} of {count} missing" for way, numbers in missing.items()})
    return missing
