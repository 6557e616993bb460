"""Sums over the files of crates, by which what was proved or tried over them is known again."""

import hashlib
import subprocess

from crates import CRATES, PARTS, below, uses

STATED = CRATES / "dali_bench" / "out" / "libraries"


def kit_version():
    """Give what the kit says of itself."""
    return subprocess.run(["rt", "version"], stdout=subprocess.PIPE, check=True).stdout


def kit_logic():
    """Give the sum of the logic in which the kit proves: kits that differ in other ways have the same one."""
    version = kit_version().decode().strip()
    return version.partition(" logic ")[2] or version


def add_files(total, name):
    """Add to a sum the files of a crate and of those that it stands on."""
    used = uses()
    for crate in sorted({name, *below(name, used)}):
        total.update(f"{crate}: {used[crate]}\n".encode())
        for part in PARTS:
            for path in sorted(it for it in (CRATES / crate / part).rglob("*") if it.is_file()):
                content = path.read_bytes()
                total.update(f"{path.relative_to(CRATES)} {len(content)}\n".encode())
                total.update(content)


def stated_of(version, name):
    """Give of the library that `scripts/build` built of a crate, without proofs, the file that says over which files that
    was, the sum of those that stand there, and where it stands, for a version of the kit.
    """
    total = hashlib.sha256(version)
    add_files(total, name)
    return STATED / f"{name}.sum", total.hexdigest(), STATED / f"{name}.rlib"
