"""Make a Debian package of the files of an archive."""

import datetime
import gzip
import hashlib
import os
import pathlib
import subprocess
import tempfile

# Where a person unpacks the archive, by the service and its variables, and where the package has it.
UNPACKED, HOME = b"/opt/dali-bench", "usr/lib/dali-bench"
# Files that have a place of their own, or none.
MANUAL, COMPLETIONS, SUMS = "dali_bench.1", "completions.bash", "SHA256SUMS"
COMMANDS = {"dali_bench": "dali_bench", "line_computer": "line_computer", "orders_from_csv": "tools/orders_from_csv",
            "dali_serial_link": "adapters/serial_link.py", "dali_daliserver_link": "adapters/daliserver_link.py",
            "dali_python_dali_link": "adapters/python_dali_link.py",
            "dali_simulated_link": "adapters/simulated_link.py"}
COMPLETED = "usr/share/bash-completion/completions"
CONTROL = """\
Package: dali-bench
Version: {version}
Architecture: amd64
Maintainer: {author}
Installed-Size: {size}
Depends: libc6 (>= 2.34), python3 (>= 3.9)
Suggests: bash-completion, python3-psycopg2
Section: electronics
Priority: optional
Description: writer of memory bank 1 of DALI luminaires
 Writes luminaire data into memory bank 1 of DALI control gear, over a link.
 With adapters to interfaces, a tool that makes orders of tables, a line
 computer over SQLite or PostgreSQL, and services of systemd. The program
 needs the C library alone; the rest needs Python.
"""
SERVICES = "'dali-bench@*.service' 'dali-bench-pipe@*.service' dali-bench-page.service"
ADDED = f"""\
#!/bin/sh
set -e
[ "$1" = configure ] || exit 0
getent passwd dali-bench >/dev/null ||
    useradd --system --user-group --home-dir /var/lib/dali-bench --shell /usr/sbin/nologin dali-bench
if [ -d /run/systemd/system ]; then
    systemctl daemon-reload
    # Behind an older version those that run are started again. Nothing else is ever started.
    [ -z "$2" ] || systemctl try-restart {SERVICES} || :
fi
"""
REMOVED = f"""\
#!/bin/sh
set -e
[ "$1" = remove ] || exit 0
[ ! -d /run/systemd/system ] || systemctl stop {SERVICES} || :
# Files that Python leaves beside the adapters.
rm -rf /{HOME}/adapters/__pycache__
"""


class Unmade(Exception):
    """Why there is no package."""


def version_of(release, seconds, commit):
    """Give a version that is higher for each later commit."""
    moment = datetime.datetime.fromtimestamp(seconds, datetime.timezone.utc)
    return f"{release}+{moment:%Y%m%d%H%M%S}.{commit.replace('-', '.')}"


def placed(files):
    """Give the files of a package by their paths, and its links."""
    found, links = {}, {}
    for name, (data, is_run) in files.items():
        if name.startswith("service/"):
            data = data.replace(UNPACKED, b"/" + HOME.encode())
            if name.endswith(".service"):
                found[f"usr/lib/systemd/system/{pathlib.Path(name).name}"] = data, False
            if name.endswith(".rules"):
                found[f"usr/lib/udev/rules.d/{pathlib.Path(name).name}"] = data, False
        if name not in (MANUAL, COMPLETIONS, SUMS):
            found[f"{HOME}/{name}"] = data, is_run
    found[f"usr/share/man/man1/{MANUAL}.gz"] = gzip.compress(files[MANUAL][0], mtime=0), False
    found[f"{COMPLETED}/dali_bench"] = files[COMPLETIONS][0], False
    for command, name in COMMANDS.items():
        links[f"usr/bin/{command}"] = f"../lib/dali-bench/{name}"
        if command != "dali_bench":
            links[f"{COMPLETED}/{command}"] = "dali_bench"
    for name in ("README.md", "docs"):
        links[f"usr/share/doc/dali-bench/{name}"] = f"../../../lib/dali-bench/{name}"
    return found, links


def controls(files, author, version):
    """Give the files that say what the package is and what it does when it comes and goes."""
    size = sum(len(data) for data, _ in files.values()) // 1024 + 1
    sums = "".join(f"{hashlib.md5(data).hexdigest()}  {path}\n" for path, (data, _) in sorted(files.items()))
    control = CONTROL.format(version=version, author=author, size=size)
    return {"DEBIAN/control": (control.encode(), False), "DEBIAN/md5sums": (sums.encode(), False),
            "DEBIAN/postinst": (ADDED.encode(), True), "DEBIAN/prerm": (REMOVED.encode(), True)}


def lay_out(top, files, links, seconds):
    """Put files and links below a folder, all of one time, whatever the modes are that this user's files get."""
    for path, (data, is_run) in files.items():
        (top / path).parent.mkdir(parents=True, exist_ok=True)
        (top / path).write_bytes(data)
        (top / path).chmod(0o755 if is_run else 0o644)
    for path, target in links.items():
        (top / path).parent.mkdir(parents=True, exist_ok=True)
        (top / path).symlink_to(target)
    (top / "etc/dali-bench").mkdir(parents=True)
    for path in (top, *top.rglob("*")):
        if path.is_dir() and not path.is_symlink():
            path.chmod(0o755)
        os.utime(path, (seconds, seconds), follow_symlinks=False)


def write_package(path, files, author, version, seconds):
    """Write a package, by dpkg-deb."""
    found, links = placed(files)
    words = ["dpkg-deb", "--root-owner-group", "-Zxz", "--threads-max=1", "--build"]
    with tempfile.TemporaryDirectory() as folder:
        top = pathlib.Path(folder, "package")
        lay_out(top, {**found, **controls(found, author, version)}, links, seconds)
        try:
            made = subprocess.run([*words, top, path], capture_output=True, text=True, stdin=subprocess.DEVNULL,
                                  env={**os.environ, "SOURCE_DATE_EPOCH": str(seconds), "LC_ALL": "C"})
        except FileNotFoundError as fault:
            raise Unmade("the command dpkg-deb is missing") from fault
    if made.returncode:
        raise Unmade(made.stderr.strip())
