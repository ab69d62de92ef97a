"""This machine's files under a layer of a test's own, where root may install what it likes."""

import subprocess

LAYERS = """
set -e
mount --make-rprivate /
mount -t tmpfs tmpfs "$1"
mkdir "$1/upper" "$1/work" "$1/root"
mount -t overlay overlay -o "lowerdir=/,upperdir=$1/upper,workdir=$1/work" "$1/root"
mount --bind /proc "$1/root/proc"
mount --rbind /dev "$1/root/dev"
mount -t tmpfs tmpfs "$1/root/run"
mount --bind "$2" "$1/root/mnt"
echo mounted
exec cat
"""


class Machine:
    """The layer, in a namespace that ends with a process. What is in the folder `given` is in its /mnt."""

    def __init__(self, folder, given, words=None):
        words = words or ["unshare", "--mount", "sh", "-c", LAYERS, "sh", folder, given]
        pipes = {"stdin": subprocess.PIPE, "stdout": subprocess.PIPE, "stderr": subprocess.PIPE}
        self.upper, self.root = f"{folder}/upper", f"{folder}/root"
        self.process = subprocess.Popen(words, text=True, **pipes)
        self.is_there = self.process.stdout.readline() == "mounted\n"

    def enter(self, words, text=""):
        """Runs a command among its mounts: its status, and what it said."""
        words = ["nsenter", f"--target={self.process.pid}", "--mount", *words]
        how = {"stdout": subprocess.PIPE, "stderr": subprocess.STDOUT, "text": True, "timeout": 300}
        done = subprocess.run(words, input=text, **how)
        return done.returncode, done.stdout

    def run(self, *words, text=""):
        """Runs a command that ends well over its files: what it said."""
        status, said = self.enter(["chroot", self.root, *words], text)
        assert status == 0, f"{words}: {status}\n{said}"
        return said

    def written(self):
        """The files and links that were made in it, or changed, and are there."""
        return set(self.enter(["find", self.upper, "-type", "f,l", "-printf", "/%P\n"])[1].splitlines())

    def end(self):
        """Nothing of it is left."""
        self.process.kill()
        self.process.communicate()
