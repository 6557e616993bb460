#!/usr/bin/env python3
"""Test the Debian package that scripts/release makes, unpacked and installed.

    test_package.py [PROGRAM [FOLDER]]

PROGRAM and FOLDER are as of test_release.py. A line that begins with `skipped` names each test that this machine can't
run. The last line is `N passed, M failed`, and the status is 0 only where none failed.
"""

import os
import pathlib
import re
import shutil
import subprocess
import sys
import tempfile
import unittest

sys.dont_write_bytecode = True

import beside  # noqa: E402
from base import BenchTest, settings, want  # noqa: E402
from driven import ROOT  # noqa: E402
from release_fixtures import RELEASE, made, run, run_commands, unpacked  # noqa: E402

HOME = "usr/lib/dali-bench"
# Seconds in which a Debian has to be there to install into, and a package to be installed.
LONGEST_SETUP, LONGEST_INSTALLATION = 180, 180
MIRROR = "http://deb.debian.org/debian"
GTIN_ORDER = '[{"order":1,"unit":5,"gtin":"4006381333931"}]'
DONE = "reply 1 taken\nreply 1 kept 0 Done\n"


def package(folder):
    """Make the package, and unpack it; give its path and what is in it."""
    path = made(folder)[1]
    want(run(["dpkg-deb", "-x", path, folder / "root"]), (0, "", ""))
    return path, folder / "root"


def debian(root):
    """Make a Debian with what its installation begins with, or say why that can't be had."""
    if os.geteuid() or shutil.which("debootstrap") is None:
        raise unittest.SkipTest("it wants root, and the command debootstrap")
    words = ["debootstrap", "--variant=minbase", "bookworm", root, MIRROR]
    try:
        ended = subprocess.run(words, stdin=subprocess.DEVNULL, capture_output=True, text=True, timeout=LONGEST_SETUP)
    except subprocess.TimeoutExpired as fault:
        raise unittest.SkipTest(f"there was no Debian to install it into within {LONGEST_SETUP} seconds") from fault
    if ended.returncode:
        told = (ended.stdout + ended.stderr).strip()[-200:]
        raise unittest.SkipTest(f"there is no Debian to install it into: {told}")


def within(root, *words):
    """Run a command in that Debian."""
    environment = {"PATH": "/usr/sbin:/usr/bin:/sbin:/bin", "LC_ALL": "C.UTF-8", "DEBIAN_FRONTEND": "noninteractive"}
    ended = subprocess.run(["chroot", root, *words], stdin=subprocess.DEVNULL, capture_output=True, text=True,
                           env=environment, timeout=LONGEST_INSTALLATION)
    return ended.returncode, ended.stdout, ended.stderr


def install(root, path, *options):
    """Install the package there by apt, and nothing besides; say so where what it depends on can't be had."""
    status, _, told = within(root, "sh", "-c", f"cd /root && apt-get install --yes {' '.join(options)} ./{path.name}")
    if status and "Failed to fetch" in told:
        raise unittest.SkipTest(f"what the package depends on can't be had: {told.strip()[-200:]}")
    want((status, told if status else ""), (0, ""))


def play_systemd(root):
    """Have that Debian think that systemd runs there, and note what it is asked for; give the notes' file."""
    (root / "run/systemd/system").mkdir(parents=True)
    (root / "usr/bin/systemctl").write_text('#!/bin/sh\necho "$*" >>/root/asked\n')
    (root / "usr/bin/systemctl").chmod(0o755)
    return root / "root/asked"


class PackageTest(BenchTest):
    """The package, unpacked and installed."""

    def test_package_runs_where_it_is_unpacked(self):
        root = package(self.folder)[1]
        self.assertEqual((root / HOME / "program/dali_bench").read_bytes() == settings["program"].read_bytes(), True)
        self.assertEqual(run([root / "usr/bin/dali_bench", "frame", "a303"]), (0, "A303 DTR0 03\n", ""))
        for command in ("serial_link", "daliserver_link", "python_dali_link", "simulated_link"):
            assert run([root / f"usr/bin/dali_{command}", "--help"])[1].startswith(f"usage: dali_{command} "), command
        (self.folder / "bench").mkdir()
        for path in (root / HOME).iterdir():
            (self.folder / "bench" / path.name).symlink_to(path)
        run_commands(root / HOME / "docs/BENCH.md", self.folder / "bench")
        run_commands(root / HOME / "docs/LINE_COMPUTER.md", self.folder / "bench", 3)

    def test_package_has_all_of_the_archive(self):
        root, top = package(self.folder)[1], unpacked(self.folder)
        files = {str(it.relative_to(top)) for it in top.rglob("*") if it.is_file()}
        files -= {"SHA256SUMS", "dali_bench.1", "completions.bash"}
        there = {str(it.relative_to(root / HOME)) for it in (root / HOME).rglob("*") if it.is_file()}
        self.assertEqual(there - {it for it in there if "__pycache__" in it}, files)
        for name in sorted(files):
            data, its = (top / name).read_bytes(), (root / HOME / name).read_bytes()
            self.assertEqual((name, its == data.replace(b"/opt/dali-bench", b"/usr/lib/dali-bench")
                              if name.startswith("service/") else its == data), (name, True))
            self.assertEqual((name, os.access(root / HOME / name, os.X_OK)), (name, os.access(top / name, os.X_OK)))
        self.assertEqual(run(["zcat", root / "usr/share/man/man1/dali_bench.1.gz"])[1],
                         (top / "dali_bench.1").read_text())
        completions = root / "usr/share/bash-completion/completions/dali_bench"
        self.assertEqual(completions.read_text(), (top / "completions.bash").read_text())
        self.assertEqual([str(it.relative_to(root)) for it in root.rglob("*") if it.is_symlink() and not it.exists()],
                         [])
        # The programs that a service starts are there, and the files that SETUP.md names.
        units = sorted((root / "usr/lib/systemd/system").iterdir())
        self.assertEqual([it.name for it in units],
                         ["dali-bench-page.service", "dali-bench-pipe@.service", "dali-bench@.service"])
        text = "".join(it.read_text() for it in (*units, ROOT / "docs/SETUP.md"))
        text = text.replace("dali-bench*.service", units[0].name)
        named = set(re.findall(r"/(usr/[\w./@-]+\w)", text))
        self.assertEqual((len(named) > 6, [it for it in named if not (root / it).exists()]), (True, []))
        assert "/opt/" not in "".join(it.read_text() for it in units)
        # The group that may open an interface over HID.
        rules = (root / "usr/lib/udev/rules.d/60-dali-bench.rules").read_text()
        self.assertEqual(re.findall('GROUP="([^"]*)", MODE="([^"]*)"', rules), [("dali-bench", "0660")] * 2)

    def test_package_says_what_it_is(self):
        path = package(self.folder)[0]
        told = run(["dpkg-deb", "--field", path])[1]
        fields = dict(line.split(": ", 1) for line in told.splitlines() if not line.startswith(" "))
        wanted = {"Package": "dali-bench", "Architecture": "amd64", "Depends": "libc6 (>= 2.34), python3 (>= 3.9)"}
        self.assertEqual({key: fields[key] for key in wanted}, wanted)
        commit, moment = run(["git", "-C", ROOT, "log", "-1", "--abbrev=12", "--format=%h %cd",
                              "--date=format-local:%Y%m%d%H%M%S"], env={**os.environ, "TZ": "UTC"})[1].split()
        changed = ".changed" if run(["git", "-C", ROOT, "status", "--porcelain"])[1] else ""
        number = run([settings["program"], "--version"])[1].split(",")[0].removeprefix("dali_bench ")
        self.assertEqual(fields["Version"], f"{number}+{moment}.{commit}{changed}")
        self.assertEqual(path.name, f"dali-bench_{fields['Version']}_amd64.deb")
        listed = run(["dpkg-deb", "--contents", path])[1].splitlines()
        self.assertEqual({line.split()[1] for line in listed}, {"root/root"})
        self.assertEqual({line[:10] for line in listed}, {"drwxr-xr-x", "-rw-r--r--", "-rwxr-xr-x", "lrwxrwxrwx"})
        before = path.read_bytes()
        self.assertEqual((run([RELEASE, self.folder])[0], path.read_bytes() == before), (0, True))

    def test_no_package_without_dpkg_deb(self):
        tools = self.folder / "tools"
        tools.mkdir()
        for name in ("python3", "sh", "find", "sort", "xargs", "sha256sum", "touch", "git", "date", "cat", "env"):
            (tools / name).symlink_to(shutil.which(name))
        status, output, complaint = run([RELEASE, self.folder], env={**os.environ, "PATH": str(tools)})
        self.assertEqual((status, output.count("\n"), complaint.count("\n")), (2, 1, 1))
        assert complaint.endswith(".deb can't be written: the command dpkg-deb is missing\n"), complaint
        self.assertEqual(sorted(it.name for it in self.folder.iterdir()),
                         sorted([pathlib.Path(output.strip()).name, "tools"]))

    def test_package_is_installed_by_apt_alone(self):
        # Not in a folder in which there are no devices, as /dev/shm.
        with tempfile.TemporaryDirectory(dir="/var/tmp") as outer:
            root = pathlib.Path(outer, "debian")
            debian(root)
            path = made(self.folder)[1]
            shutil.copy(path, root / "root")
            install(root, path)
            line = run([settings["program"], "--version"])[1].strip()
            commit = within(root, "cat", f"/{HOME}/COMMIT")[1].strip()
            self.assertEqual(within(root, "dali_bench", "--version"), (0, f"{line}, commit {commit}\n", ""))
            (root / "root/orders.json").write_text(GTIN_ORDER)
            drive = "dali_simulated_link -- dali_bench drive orders.json bench.journal && dali_bench show unit_5.hex"
            status, shown, told = within(root, "sh", "-c", f"cd /root && {drive}")
            self.assertEqual((status, told, "gtin 04006381333931\n" in shown), (0, DONE, True))
            words = ["line_computer", "init", "--store", "/root/orders.db", "--bus", "b"]
            self.assertEqual(within(root, *words), (0, "store of version 3\nbus b\n", ""))
            user = within(root, "getent", "passwd", "dali-bench")[1].strip().split(":")
            self.assertEqual(user[5:], ["/var/lib/dali-bench", "/usr/sbin/nologin"])
            self.assertEqual(within(root, "dpkg", "--verify", "dali-bench"), (0, "", ""))
            kept = [root / "etc/dali-bench/bus1.env", root / "var/lib/dali-bench/bus1/bench.journal"]
            for it in kept:
                it.parent.mkdir(parents=True, exist_ok=True)
                it.write_text("kept")
            asked = play_systemd(root)
            install(root, path, "--reinstall")
            self.assertEqual(within(root, "apt-get", "purge", "--yes", "dali-bench")[0], 0)
            services = "dali-bench@*.service dali-bench-pipe@*.service dali-bench-page.service"
            self.assertEqual(asked.read_text().splitlines(),
                             ["daemon-reload", f"try-restart {services}", f"stop {services}"])
            self.assertEqual([(root / it).exists() for it in (HOME, "usr/bin/dali_bench")], [False, False])
            self.assertEqual([it.read_text() for it in kept], ["kept", "kept"])
            self.assertEqual(within(root, "getent", "group", "dali-bench")[0], 0)


if __name__ == "__main__":
    sys.exit(beside.main(__doc__, ["test_package"], sys.argv[1:]))
