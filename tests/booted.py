"""This machine's files under a layer of a test's own, with a systemd of its own that was booted over them."""

import contextlib
import os
import pathlib
import subprocess

from machine import Machine
from relay import Late, until

# what the layer's systemd may change of the system's groups of processes: one folder of each tree
GROUPS = """
for tree in /sys/fs/cgroup /sys/fs/cgroup/systemd /sys/fs/cgroup/unified; do
    [ ! -e "$tree/cgroup.procs" ] || { mkdir "$tree/$1" && echo $$ >"$tree/$1/cgroup.procs"; } || exit 1
done
shift
exec "$@"
"""
WORDS = "unshare --mount --pid --fork --uts --ipc --cgroup --kill-child=KILL sh -c"
BOOT = """
set -e
mount --make-rprivate /
mount -t tmpfs tmpfs "$1"
root=$1/root
mkdir "$1/upper" "$1/work" "$root"
mount -t overlay overlay -o "lowerdir=/,upperdir=$1/upper,workdir=$1/work" "$root"
mount -t proc proc "$root/proc"
mount --bind "$root/proc/sys" "$root/proc/sys"
mount -o remount,bind,ro "$root/proc/sys"
mount -t tmpfs -o mode=755 tmpfs "$root/dev"
for name in null zero full random urandom tty; do
    touch "$root/dev/$name"
    mount --bind "/dev/$name" "$root/dev/$name"
done
mkdir "$root/dev/shm" "$root/dev/pts"
mount -t devpts -o newinstance,ptmxmode=666 devpts "$root/dev/pts"
ln -s pts/ptmx "$root/dev/ptmx"
mount --rbind /sys "$root/sys"
mount -t tmpfs tmpfs "$root/sys/fs/cgroup"
if [ -e /sys/fs/cgroup/cgroup.procs ]; then
    mount -t cgroup2 cgroup2 "$root/sys/fs/cgroup"
else
    mkdir "$root/sys/fs/cgroup/systemd" "$root/sys/fs/cgroup/unified"
    mount -t cgroup -o none,name=systemd cgroup "$root/sys/fs/cgroup/systemd"
    mount -t cgroup2 cgroup2 "$root/sys/fs/cgroup/unified"
fi
mount -o remount,bind,ro "$root/sys"
mount -t tmpfs tmpfs "$root/run"
mount --bind "$2" "$root/mnt"
: >"$root/etc/machine-id"
cd "$root"
mount --move . /
# systemd hands credentials on over mounts that its services share
chroot . mount --make-rshared /
echo mounted
exec chroot . env -i container=test PATH=/usr/sbin:/usr/bin:/sbin:/bin \
    /lib/systemd/systemd --unit=basic.target --show-status=0 >/dev/null 2>&1
"""


class Booted(Machine):
    """The layer. Its network is the machine's own."""

    def __init__(self, folder, given):
        self.group = f"booted-{os.getpid()}"
        words = ["sh", "-c", GROUPS, "sh", self.group, *WORDS.split(), BOOT, "sh", folder, given]
        super().__init__(folder, given, words)
        if not self.is_there:
            return
        pid = self.process.pid
        self.first = pathlib.Path(f"/proc/{pid}/task/{pid}/children").read_text().strip()
        with contextlib.suppress(Late):
            until(lambda: self.run("systemctl", "is-system-running", may_fail=True) in ("running\n", "degraded\n"), "")
            return
        self.is_there = False

    def run(self, *words, text="", may_fail=False):
        """Runs a command beside its services: what it said."""
        enter = f"nsenter --target={self.first} --mount --pid --uts --ipc --cgroup --root --wd".split()
        how = {"stdout": subprocess.PIPE, "stderr": subprocess.STDOUT, "text": True, "timeout": 300}
        done = subprocess.run([*enter, *words], input=text, **how)
        assert done.returncode == 0 or may_fail, f"{words}: {done.returncode}\n{done.stdout}"
        return done.stdout

    def end(self):
        """Nothing of it is left."""
        super().end()
        for tree in map(pathlib.Path, ("/sys/fs/cgroup", "/sys/fs/cgroup/systemd", "/sys/fs/cgroup/unified")):
            if (tree / self.group).is_dir():
                until(lambda: self.is_away(tree / self.group), f"a group of processes stays in {tree}")

    @staticmethod
    def is_away(top):
        """Whether a group and those in it are gone, once nobody is in them."""
        for folder, _, _ in os.walk(top, topdown=False):
            with contextlib.suppress(OSError):
                os.rmdir(folder)
        return not top.is_dir()
