"""The record of a whole gate that has passed, out/gate.passed: its commit and its kit. tools/release releases no other commit.

The sources were those of that commit before and after the run. The record has the checksums of the proofs' log and of the libraries that
were built and tested."""
import hashlib
import os
import re

from sums import git

FILE = "out/gate.passed"
LOG = "out/gate.log"
BUILT = ("libpdt/out/libpdt.a", "libpdt/out/libpdt.so", "bindings/sqlite/out/pdt.so")


def commit_of(top):
    """The commit that the sources are, or None where they differ from it, or are of none."""
    changed = git(top, "status", "--porcelain")
    return git(top, "rev-parse", "HEAD") if changed == "" else None


def checksum(path):
    """The SHA-256 of a file, or None where it isn't there."""
    if not os.path.isfile(path):
        return None
    with open(path, "rb") as file:
        return hashlib.sha256(file.read()).hexdigest()


def forget(top):
    """Takes the record of an earlier run away."""
    if os.path.exists(f"{top}/{FILE}"):
        os.remove(f"{top}/{FILE}")


def write(top, commit, kit, counts):
    """Writes the record of a run that has passed."""
    lines = {"commit": commit, "toolchain": kit, "result": counts}
    lines.update((it, checksum(f"{top}/{it}")) for it in (LOG, *BUILT) if os.path.isfile(f"{top}/{it}"))
    with open(f"{top}/{FILE}", "w", encoding="utf-8") as out:
        out.write("".join(f"{name}: {value}\n" for name, value in lines.items()))


def read(top):
    """The lines of the record by their names; none where there is no record."""
    if not os.path.isfile(f"{top}/{FILE}"):
        return {}
    with open(f"{top}/{FILE}", encoding="utf-8") as file:
        return dict(re.findall(r"(?m)^(\S+): (.*)$", file.read()))


def why_not(top):
    """Why the sources and the libraries as they are now aren't those of a gate that has passed, or None."""
    commit, record = commit_of(top), read(top)
    if not commit:
        return "the sources differ from the commit (git status)"
    if not record:
        return "make test has left no record of a whole run that passed (out/gate.passed)"
    if record.get("commit") != commit:
        return f"the gate has passed for commit {record.get('commit', '')[:12]}, and this is {commit[:12]}"
    others = [it for it in (LOG, *BUILT) if record.get(it) != checksum(f"{top}/{it}")]
    return f"{', '.join(others)}: not as the gate has left it" if others else None
