"""The archive that scripts/release makes, and the commands of a document, run as its reader runs them."""

import pathlib
import re
import subprocess

from base import want
from driven import ROOT

BLOCK = re.compile("^```([a-z]*)\n(.*?)^```$", re.MULTILINE | re.DOTALL)
RELEASE = ROOT / "scripts" / "release"


def commands(page):
    """Give the blocks of commands, each with what it is said to print."""
    blocks = BLOCK.findall(page)
    behind = [*blocks[1:], ("", "")]
    pairs = zip(blocks, behind)
    return [(text, told if kind == "text" else "") for (name, text), (kind, told) in pairs if name == "sh"]


def run_commands(page, folder, least=11):
    """Run the commands of a page in a folder, at least `least` blocks; raise unless each prints what the page says."""
    shown = commands(page.read_text(encoding="utf-8"))
    assert len(shown) >= least, shown
    for text, told in shown:
        how = {"stdin": subprocess.DEVNULL, "stdout": subprocess.PIPE, "stderr": subprocess.STDOUT, "text": True}
        ended = subprocess.run(["sh", "-c", text], cwd=folder, timeout=120, **how)
        want((text, ended.returncode, ended.stdout), (text, 0, told))


def run(words, **options):
    """Run a command, and give its status, its output and its complaint."""
    ended = subprocess.run(words, stdin=subprocess.DEVNULL, capture_output=True, text=True, timeout=120, **options)
    return ended.returncode, ended.stdout, ended.stderr


def made(folder):
    """Make the archive and the package; give their paths."""
    status, output, complaint = run([RELEASE, folder])
    want((status, complaint), (0, ""))
    return [pathlib.Path(line) for line in output.splitlines()]


def unpacked(folder):
    """Make the archive and unpack it; give its folder."""
    path = made(folder)[0]
    want(run(["tar", "xzf", path, "-C", folder]), (0, "", ""))
    return folder / path.name.removesuffix(".tar.gz")
