"""Python is laid out by black and has nothing that pyflakes finds, shell nothing that shellcheck warns of, C no warning."""

import shutil
import subprocess

import pytest

from relay import TOP

pytestmark = pytest.mark.quick


def sources(end):
    """The files of the repository that end so, outside crates."""
    return sorted(
        str(path) for part in ("tests", "tools", "dev", "bench", "packaging") for path in (TOP / part).rglob(f"*{end}")
    )


def passes(words):
    """Runs a checker at the top: what it says where it finds something."""
    done = subprocess.run(words, cwd=TOP, stdout=subprocess.PIPE, stderr=subprocess.STDOUT, text=True, timeout=300)
    assert done.returncode == 0, done.stdout


@pytest.mark.parametrize(
    "words", [["black", "--quiet", "--check", "--diff"], ["pyflakes3"]], ids=lambda words: words[0]
)
def test_python(needed, words):
    """Every file of Python."""
    needed(words[0], shutil.which(words[0]))
    passes([*words, *sources(".py")])


def test_shell(needed):
    """Every script."""
    needed("shellcheck", shutil.which("shellcheck"))
    passes(["shellcheck", "--severity=warning", *sources(".sh"), "tests/run", "demo"])
    passes(["shellcheck", "--severity=warning", "--shell=sh", ".ci/run"])


@pytest.mark.parametrize("path", sources(".c"), ids=lambda path: path.rpartition("/")[2])
def test_c(path):
    """Every file of C."""
    passes(["cc", "-Wall", "-Wextra", "-Werror", "-O2", "-c", "-o", "/dev/null", path])
