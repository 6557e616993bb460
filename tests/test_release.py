#!/usr/bin/env python3
"""Test the launcher, over a stand-in program in a small repository, and the archive that scripts/release makes.

    test_release.py [PROGRAM [FOLDER]]

PROGRAM has to be the one that the launcher starts, which is the default; FOLDER is as of test_drive.py. The last line
is `N passed, M failed`, and the status is 0 only where none failed.
"""

import gzip
import os
import pathlib
import re
import resource
import shutil
import signal
import subprocess
import sys
import time
import unittest

sys.dont_write_bytecode = True

import beside  # noqa: E402
from base import BenchTest, settings, want  # noqa: E402
from drive_desk import HEADER, NOBODY, PRESENT  # noqa: E402
from driven import ROOT, Desk  # noqa: E402
from release_fixtures import RELEASE, run, run_commands, unpacked  # noqa: E402

STAND_IN = '#!/bin/sh\nif [ "$*" = --version ]; then echo "stand-in 1.0"; else echo "ran $*"; fi\n'
LAUNCHED = ("crates.txt", "HANDLES", "dali_bench", "scripts/built.sh", "scripts/start.sh", "scripts/build",
            "scripts/crates.py", "scripts/progress.py", "scripts/build_seconds.json", "scripts/sums.py")
SEEN_BY_ALL = 0o755


def as_nobody(words):
    """Run a command as another user, who owns nothing here."""
    if os.geteuid():
        raise unittest.SkipTest("only root may run a command as another user")
    return run(words, user=NOBODY, group=NOBODY, extra_groups=[])


def note_built(root, sum_of="sum_of_sources"):
    """Have the stand-in noted as built from the sources that stand there."""
    text = f'root=$1; . "$root/scripts/built.sh"; note_built "$({sum_of})" "$(date +%s)"'
    want(run(["sh", "-c", text, "test", root]), (0, "", ""))


def repository(folder, is_built=True):
    """Make a repository with the launcher, one source and, where it is built, the stand-in; everybody may read it."""
    folder.chmod(SEEN_BY_ALL)
    root = folder / "repository"
    for name in LAUNCHED:
        (root / name).parent.mkdir(parents=True, exist_ok=True)
        shutil.copy(ROOT / name, root / name)
    crate = root / "crates" / "dali_bench"
    for part in ("src", "specs", "proofs", "out"):
        (crate / part).mkdir(parents=True)
        (crate / part / "main").write_text(part)
    if is_built:
        (crate / "out" / "dali_bench").write_text(STAND_IN)
        (crate / "out" / "dali_bench").chmod(SEEN_BY_ALL)
        note_built(root)
    return root


def counting(root):
    """Put a `sha256sum` that counts its runs in front of the real one; give the environment and the count's file."""
    tools, count = root.parent / "tools", root.parent / "count"
    tools.mkdir(exist_ok=True)
    count.write_text("")
    (tools / "sha256sum").write_text(f'#!/bin/sh\necho >>{count}\nexec {shutil.which("sha256sum")} "$@"\n')
    (tools / "sha256sum").chmod(SEEN_BY_ALL)
    return {**os.environ, "PATH": f"{tools}:{os.environ['PATH']}"}, count


def wait_for_a_second():
    """Wait until what was changed up to now is of an earlier second than the one before this."""
    time.sleep(2.1)


class LauncherTest(BenchTest):
    """The launcher of a checkout."""

    def test_launcher_notes_a_copy_anew(self):
        root = repository(self.folder)
        copy = self.folder / "copy"
        wait_for_a_second()
        self.assertEqual(run(["cp", "-r", root, copy]), (0, "", ""))
        os.utime(copy / "crates/dali_bench/out/dali_bench.built_from", (0, 0))
        wait_for_a_second()
        environment, count = counting(root)
        self.assertEqual(run([copy / "dali_bench", "a", "b c"], env=environment), (0, "ran a b c\n", ""))
        assert count.read_text(), "the sums of a copied folder weren't compared"
        count.write_text("")
        self.assertEqual(run([copy / "dali_bench", "a"], env=environment), (0, "ran a\n", ""))
        self.assertEqual(count.read_text(), "")
        # A change of the sources after the note is seen: nothing is run, since nothing can be built here.
        (copy / "crates/dali_bench/src/main").write_text("another")
        few = "/usr/bin:/bin"
        status, output, complaint = run([copy / "dali_bench", "a"], env={**environment, "PATH": few})
        self.assertEqual((status, output), (2, ""))
        assert complaint.startswith("dali_bench: proving and building the program"), complaint
        words = ("dali_bench: the command rt is missing: a bench needs only the archive or the package (docs/SETUP.md);"
                 " to prove the program itself, install the Rattle kit\n")
        assert shutil.which("rt", path=few) or complaint.endswith(words), complaint

    def test_launcher_goes_on_where_it_may_not_note(self):
        root = repository(self.folder)
        os.utime(root / "crates/dali_bench/out/dali_bench.built_from", (0, 0))
        for _ in range(2):
            self.assertEqual(as_nobody([root / "dali_bench", "a"]), (0, "ran a\n", ""))
        self.assertEqual((root / "crates/dali_bench/out/dali_bench.built_from").stat().st_mtime, 0)

    def test_launcher_tells_who_may_not_build(self):
        root = repository(self.folder, is_built=False)
        status, output, complaint = as_nobody([root / "dali_bench", "--version"])
        self.assertEqual((status, output, complaint.count("\n")), (2, "", 1))
        assert f"you would have to write to {root}/crates/dali_bench/out: its owner has to run" in complaint, complaint
        (root / "crates/dali_bench/out/main").unlink()
        (root / "crates/dali_bench/out").rmdir()
        complaint = as_nobody([root / "dali_bench", "--version"])[2]
        assert f"write to {root}/crates/dali_bench: its owner" in complaint, complaint
        # One that is built and may not be run gets the same words.
        other = self.folder / "other"
        other.mkdir()
        root = repository(other)
        (root / "crates/dali_bench/out/dali_bench").chmod(0o700)
        complaint = as_nobody([root / "dali_bench", "--version"])[2]
        assert "or you may not run it" in complaint and complaint.count("\n") == 1, complaint

    def test_launcher_tells_who_may_not_read(self):
        root = repository(self.folder)
        os.utime(root / "crates/dali_bench/out/dali_bench.built_from", (0, 0))
        for name, mode in (("crates/dali_bench/src/main", 0o600), ("crates/dali_bench/src", 0o700), ("crates", 0o700),
                           ("crates/dali_bench/specs", 0o744), ("HANDLES", 0o600)):
            before = (root / name).stat().st_mode
            (root / name).chmod(mode)
            wanted = (f"dali_bench: you may not read {root}/{name}, so whether the program is that of the sources can't"
                      " be told: its owner has to let you, as by chmod -R a+rX\n")
            self.assertEqual((name, as_nobody([root / "dali_bench", "a"])), (name, (2, "", wanted)))
            (root / name).chmod(before)
        (root / "scripts/built.sh").chmod(0o600)
        wanted = f"dali_bench: you may not read {root}/scripts/built.sh: its owner has to let you\n"
        self.assertEqual(as_nobody([root / "dali_bench", "a"]), (2, "", wanted))

    def test_launcher_tells_the_commit(self):
        root = repository(self.folder)
        self.assertEqual(run([root / "dali_bench", "--version"]), (0, "stand-in 1.0\n", ""))
        (root / ".gitignore").write_text("/crates/*/out/\n")
        # A repository further out says nothing of this folder.
        self.assertEqual(run(["git", "init", "-q", self.folder])[0], 0)
        git = ["git", "-C", root, "-c", "user.name=n", "-c", "user.email=e"]
        self.assertEqual(run([root / "dali_bench", "--version"]), (0, "stand-in 1.0\n", ""))
        self.assertEqual(run(["git", "init", "-q", root])[0], 0)
        self.assertEqual(run([root / "dali_bench", "--version"]), (0, "stand-in 1.0\n", ""))
        self.assertEqual(run([*git, "add", "-A"])[0], 0)
        self.assertEqual(run([*git, "commit", "-qm", "all"])[0], 0)
        commit = run([*git, "rev-parse", "HEAD"])[1][:12]
        self.assertEqual(run([root / "dali_bench", "--version"]), (0, f"stand-in 1.0, commit {commit}\n", ""))
        self.assertEqual(run([root / "dali_bench", "-V"]), (0, f"stand-in 1.0, commit {commit}\n", ""))
        self.assertEqual(run([root / "dali_bench", "--version", "b"]), (0, "ran --version b\n", ""))
        outer = {**os.environ, "GIT_DIR": str(self.folder / ".git")}
        self.assertEqual(run([root / "dali_bench", "--version"], env=outer),
                         (0, f"stand-in 1.0, commit {commit}\n", ""))
        (root / "more").write_text("")
        self.assertEqual(run([root / "dali_bench", "--version"]), (0, f"stand-in 1.0, commit {commit}-changed\n", ""))
        full = run(["sh", "-c", f"{root}/dali_bench --version >/dev/full"])
        self.assertEqual(full, (2, "", "error: the output can't be written\n"))
        reader, writer = os.pipe()
        os.close(reader)
        gone = subprocess.run([root / "dali_bench", "--version"], stdout=writer, stderr=subprocess.PIPE)
        os.close(writer)
        self.assertEqual((gone.returncode, gone.stderr), (2, b""))


class ArchiveTest(BenchTest):
    """The archive, unpacked."""

    def test_archive_is_named_by_its_commit(self):
        top = unpacked(self.folder)
        git = ["git", f"--git-dir={ROOT}/.git", f"--work-tree={ROOT}"]
        commit = run([*git, "rev-parse", "HEAD"])[1][:12]
        changed = "-changed" if run([*git, "status", "--porcelain"])[1] else ""
        date = run([*git, "log", "-1", "--format=%cs"])[1].strip()
        self.assertEqual(top.name, f"dali_bench-{date}-{commit}{changed}-x86_64-linux")
        line = run([settings["program"], "--version"])[1].strip()
        self.assertEqual(run([settings["program"], "-V"]), (0, f"{line}\n", ""))
        self.assertEqual(run([top / "dali_bench", "--version"]), (0, f"{line}, commit {commit}{changed}\n", ""))
        packed = top.with_name(f"{top.name}.tar.gz")
        before = packed.read_bytes()
        self.assertEqual(run([RELEASE, self.folder])[0], 0)
        self.assertEqual(gzip.decompress(packed.read_bytes()) == gzip.decompress(before), True)
        self.assertEqual(packed.read_bytes() == before, True)

    def test_archive_is_whole(self):
        top = unpacked(self.folder)
        summed = {line.split("  ")[1] for line in (top / "SHA256SUMS").read_text().splitlines()}
        there = {str(path.relative_to(top)) for path in top.rglob("*") if path.is_file()} - {"SHA256SUMS"}
        self.assertEqual(summed, there)
        self.assertEqual(run(["sha256sum", "--quiet", "-c", "SHA256SUMS"], cwd=top), (0, "", ""))
        self.assertEqual((top / "program/dali_bench").read_bytes() == settings["program"].read_bytes(), True)
        page = (top / "dali_bench.1").read_text()
        for command in "check run frame show journal fields drive read verify scan address".split():
            assert f"\ndali_bench {command}" in page and f"\n.SH {command.upper()}\n" in page, command
        assert "program/dali_bench" in page, page

    def test_archive_has_what_readme_names(self):
        top = unpacked(self.folder)
        text = (top / "README.md").read_text()
        words = {word.removeprefix("./").rstrip(".") for word in re.findall(r"[\w./*-]+", text)}
        # Cases of examples/ are named without their folder and their ending.
        words |= {f"examples/{word}.{ending}" for word in words for ending in ("json", "cases")}
        named = {word for word in words if (ROOT / word).is_file() and ".." not in word and not word.startswith("/")}
        adapters = {f"adapters/{it}_link.py" for it in ("serial", "daliserver", "python_dali", "simulated")}
        assert {"docs/LINK.md", "examples/run_left.json", *adapters} <= named, named
        self.assertEqual([name for name in named if not (top / name).is_file()], [])
        links = set(re.findall(r"\]\(([^)#]+)\)", text))
        self.assertEqual([link for link in links if not (top / link).is_file()], [])

    def test_archive_has_the_readme_of_who_has_it(self):
        text = (unpacked(self.folder) / "README.md").read_text()
        for words in ("## Set up\n", "### The Debian package\n", "### The archive\n", "x86-64", "glibc, 2.34 or later",
                      "Python 3.9 or later", "**Not in it**", "](docs/BENCH.md#a-pipe-as-a-service)"):
            assert words in text, words
        found = re.findall(r"./test\b|scripts/\w+|\brt\b|minutes on four cores|C compiler|](?:BENCH|LINE_COMPUTER).md",
                           text)
        self.assertEqual(found, [])
        # All but how it is set up is as in the repository.
        ours = (ROOT / "README.md").read_text()
        self.assertEqual(text[text.index("## Connect a real"):], ours[ours.index("## Connect a real"):])
        self.assertEqual(text[:text.index("## Set up")], ours[:ours.index("## Set up")])

    def test_program_needs_the_c_library_that_is_said(self):
        versions = {tuple(map(int, it)) for it in re.findall(rb"GLIBC_(\d+)\.(\d+)", settings["program"].read_bytes())}
        self.assertEqual(max(versions), (2, 34))

    def test_archive_runs_from_anywhere(self):
        top = unpacked(self.folder)
        (self.folder / "links").mkdir()
        (self.folder / "links" / "first").symlink_to("../" + top.name + "/dali_bench")
        (self.folder / "links" / "bench").symlink_to("first")
        wanted = (0, "A303 DTR0 03\n", "")
        path = {**os.environ, "PATH": f"{self.folder}/links:{top}:{os.environ['PATH']}"}
        self.assertEqual(run([top / "dali_bench", "frame", "a303"]), wanted)
        self.assertEqual(run([self.folder / "links" / "bench", "frame", "a303"]), wanted)
        self.assertEqual(run(["bench", "frame", "a303"], env=path, cwd="/"), wanted)
        self.assertEqual(run(["dali_bench", "frame", "a303"], env=path, cwd="/"), wanted)
        self.assertEqual(run(["./dali_bench", "frame", "a303"], cwd=top), wanted)
        moved = self.folder / "a folder with blanks"
        top.rename(moved)
        self.assertEqual(run([moved / "dali_bench", "frame", "a303"]), wanted)
        note = 'the argument "": it has 0 hexadecimal digits, and a word is four\n'
        self.assertEqual(run([moved / "dali_bench", "frame", ""]), (1, "fault 14 Hex\n", note))
        self.assertEqual(run([moved / "dali_bench", "--help"]), run([settings["program"], "--help"]))

    def test_archive_is_enough_for_the_bench(self):
        top = unpacked(self.folder)
        run_commands(top / "docs/BENCH.md", top)
        # The files that a service is installed from, and those that it starts.
        text = "".join((top / name).read_text() for name in ("docs/BENCH.md", "docs/LINE_COMPUTER.md")) + "".join(
            path.read_text() for path in (top / "service").iterdir())
        named = set(re.findall(r"/opt/dali-bench/([\w./@-]+)", text))
        services = {"service/dali-bench@.service", "service/bus1.env", "service/dali-bench-pipe@.service",
                    "service/bus1-pipe.env", "service/dali-bench-page.service"}
        assert {"dali_bench", "line_computer", *services} <= named, named
        self.assertEqual([name for name in named if not (top / name).is_file()], [])

    def test_archive_has_the_line_computer(self):
        top = unpacked(self.folder)
        words = [top / "line_computer", "init", "--store", self.folder / "orders.db", "--bus", "bus1"]
        self.assertEqual(run(words), (0, "store of version 3\nbus bus1\n", ""))
        orders = self.folder / "orders.csv"
        orders.write_text("unit,year\n5,24\n")
        added = (0, "item 1 order 1\nadded 1 known 0\n", "")
        self.assertEqual(run([top / "line_computer", "add", "--store", self.folder / "orders.db", orders], cwd="/"),
                         added)
        self.assertEqual((top / "examples" / "label.zpl").read_bytes(), (ROOT / "examples" / "label.zpl").read_bytes())

    def test_archive_tells_a_limit_on_the_length_of_files(self):
        top = unpacked(self.folder)
        for limit, journal, fault in ((0, None, "fault 21 File"), (10, HEADER, "drive fault 1 Journal")):
            desk = Desk(top / "dali_bench", self.folder, PRESENT)
            desk.journal.unlink(missing_ok=True)
            if journal is not None:
                desk.journal.write_bytes(journal)
            ended = desk.give(b"", preexec_fn=lambda: resource.setrlimit(resource.RLIMIT_FSIZE, (limit, limit)))
            self.assertEqual((ended.status, ended.sent, ended.told.splitlines()[-1]), (2, b"", fault))
        self.assertEqual(desk.held()[:4], HEADER)

    def test_a_kill_reaches_the_program(self):
        top = unpacked(self.folder)
        root = repository(self.folder)
        (root / "crates/dali_bench/out/dali_bench").write_text("#!/bin/sh\necho C301\nread -r line\n")
        for starter, program in ((top, "program/dali_bench"), (root, "crates/dali_bench/out/dali_bench")):
            desk = Desk(starter / "dali_bench", self.folder, PRESENT)
            command = desk.start()
            self.assertEqual(command.stdout.readline(), b"C301\n")
            words = pathlib.Path(f"/proc/{command.pid}/cmdline").read_text().split("\0")
            self.assertEqual((starter, str(starter / program) in words), (starter, True))
            command.send_signal(signal.SIGTERM)
            self.assertEqual(command.wait(20), -signal.SIGTERM)
            command.communicate()
        self.assertEqual(desk.journal.exists(), True)

    def test_release_tells_why_there_is_none(self):
        none = self.folder / "none"
        self.assertEqual(run([RELEASE, none]), (2, "", f"release: there is no folder {none}\n"))
        (self.folder / "file").write_text("")
        self.assertEqual(run([RELEASE, self.folder / "file"]),
                         (2, "", f"release: there is no folder {self.folder / 'file'}\n"))
        for words in ([], ["-h"], ["a", "b"]):
            status, output, complaint = run([RELEASE, *words])
            self.assertEqual((status, output, "release FOLDER" in complaint), (2, "", True))
        limit = {"preexec_fn": lambda: resource.setrlimit(resource.RLIMIT_FSIZE, (1000, 1000))}
        status, output, complaint = run([RELEASE, self.folder], **limit)
        self.assertEqual((status, output, complaint.count("\n")), (2, "", 1))
        assert complaint.endswith(" can't be written: File too large\n"), complaint
        self.assertEqual(sorted(path.name for path in self.folder.iterdir()), ["file"])


if __name__ == "__main__":
    sys.exit(beside.main(__doc__, ["test_release"], sys.argv[1:]))
