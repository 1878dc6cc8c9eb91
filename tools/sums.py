"""What an edit's refusal depends on, as a checksum for each crate, and the file mutants.verified, which has those of the last trials.

The inputs of a crate are the kit's logic; the crate's line in crates.txt; its src/, specs/, proofs/ and mutants/; and of each crate below
it what a caller is told: its specs/, its src/ without the bodies of functions, and those of its lemmas that another crate cites, with the
lemmas that their files cite. So a body that changes below leaves the sum as it is, and a clause, a type or a definition does not."""
import hashlib
import os
import re
import subprocess

import source

FILE = "mutants.verified"
HEAD = """\
# The edits of crates/*/mutants that the prover was last seen to refuse. A line has a crate, how many edits, the commit after which and
# the time at which they were tried, and a checksum of what their refusal depends on. `make mutants` writes this file, and
# docs/WRONG-BODIES.md says what it is for.
"""
MOST_COMMITS, MOST_DAYS = 60, 14
LEMMAS = re.compile(r"\bRattle\.(\w+)\.proofs\.([\w.]+)")


def files_below(folder, parts):
    for part in parts:
        for at, folders, names in os.walk(f"{folder}/{part}"):
            folders.sort()
            yield from (f"{at}/{it}" for it in sorted(names))


def text_of(file):
    with open(file, encoding="utf-8") as it:
        return it.read()


def lemma_files(folder, text, name):
    """The files of the crate's lemmas that the text cites, by their modules."""
    for crate, path in LEMMAS.findall(text):
        parts = path.rstrip(".").split(".")
        while crate == name and parts:
            file = f"{folder}/proofs/{'/'.join(parts)}.antt"
            if os.path.isfile(file):
                yield file
                break
            parts.pop()


def line_of(top, name):
    """The crate's line in crates.txt."""
    found = re.findall(rf"(?m)^{name}[ :].*$", text_of(f"{top}/crates.txt"))
    return found[0] if found else ""


def place_of(top, name):
    """Where the crate is in crates.txt."""
    return text_of(f"{top}/crates.txt").index("\n" + line_of(top, name))


class Sums:
    """The checksums of crates, over the crates of crates.txt as the kit reads them."""

    def __init__(self, top, crates, logic):
        self.top, self.crates, self.logic, self.sums = top, crates, logic, {}
        self.texts = {name: self.all_of(it.folder) for name, it in crates.items()}

    def all_of(self, folder):
        return "\n".join(text_of(it) for it in files_below(folder, ("src", "specs", "proofs")))

    def cited_lemmas(self, name):
        """The files of lemmas that other crates cite, and those that these files cite, and so on."""
        folder, found, left = self.crates[name].folder, set(), []
        for other, text in self.texts.items():
            left += lemma_files(folder, text, name) if other != name else []
        while left:
            file = left.pop()
            if file not in found:
                found.add(file)
                left += lemma_files(folder, text_of(file), name)
        return sorted(found)

    def told(self, name):
        """The sum of what the crates above are told of this one."""
        if name not in self.sums:
            folder, made = self.crates[name].folder, hashlib.sha256()
            for file in files_below(folder, ("src", "specs")):
                said = source.without_bodies(text_of(file)) if file.endswith(".rt") else text_of(file)
                made.update(repr((os.path.relpath(file, folder), said)).encode())
            for file in self.cited_lemmas(name):
                made.update(repr((os.path.relpath(file, folder), text_of(file))).encode())
            self.sums[name] = made.hexdigest()
        return self.sums[name]

    def of(self, name):
        crate = self.crates[name]
        made = hashlib.sha256(f"{self.logic}\n{line_of(self.top, name)}\n".encode())
        for file in files_below(crate.folder, ("src", "specs", "proofs", "mutants")):
            made.update(repr((os.path.relpath(file, crate.folder), text_of(file))).encode())
        for it in sorted(it.name for it in crate.below()):
            made.update(f"{it} {line_of(self.top, it)} {self.told(it)}\n".encode())
        return made.hexdigest()


class Trial:
    """When a crate's edits were last tried, how many they were, and for which inputs."""

    def __init__(self, count, commit, seconds, made):
        self.count, self.commit, self.seconds, self.sum = count, commit, seconds, made

    def text(self, name):
        return f"{name} {self.count} {self.commit} {self.seconds} {self.sum}"


def write_verified(folder, trials):
    """Writes the file: the trial of each crate, by its name."""
    with open(f"{folder}/{FILE}.new", "w", encoding="utf-8") as out:
        out.write(HEAD + "".join(it.text(name) + "\n" for name, it in trials.items()))
    os.replace(f"{folder}/{FILE}.new", f"{folder}/{FILE}")


def read_verified(folder):
    """The trials that the file has, by the crate's name; none where it isn't there. A line that is none of its own raises ValueError."""
    trials = {}
    if not os.path.isfile(f"{folder}/{FILE}"):
        return trials
    for line in text_of(f"{folder}/{FILE}").splitlines():
        if line.startswith("#") or not line.strip():
            continue
        found = re.fullmatch(r"(\w+) (\d+) ([0-9a-f]{40}) (\d+) ([0-9a-f]{64})", line)
        if not found:
            raise ValueError(f"{FILE}: a line that isn't known: {line[:80]}")
        trials[found[1]] = Trial(int(found[2]), found[3], int(found[4]), found[5])
    return trials


def git(top, *words):
    """What git prints, or None where it fails: the folder is no repository, or there is no git."""
    try:
        return subprocess.run(["git", "-C", top, *words], check=True, capture_output=True, text=True).stdout.strip()
    except (OSError, subprocess.CalledProcessError):
        return None


class Ages:
    """How long ago a trial was, by the repository's history."""

    def __init__(self, top, now):
        self.top, self.now, self.commits = top, now, {}
        self.is_whole = git(top, "rev-parse", "--is-shallow-repository") == "false"

    def commits_since(self, commit):
        """How many commits were made since, or None where the clone doesn't have that commit in its history."""
        if commit not in self.commits:
            has = self.is_whole and git(self.top, "merge-base", "--is-ancestor", commit, "HEAD") is not None
            self.commits[commit] = int(git(self.top, "rev-list", "--count", f"{commit}..HEAD")) if has else None
        return self.commits[commit]

    def too_old(self, trial):
        """Why the trial is too long ago, or None: by the commits since, or by days where the clone doesn't reach back to it."""
        count, days = self.commits_since(trial.commit), (self.now - trial.seconds) / 86400
        if count is not None:
            return f"tried {count} commits ago, and {MOST_COMMITS} is the most" if count > MOST_COMMITS else None
        return None if 0 <= days <= MOST_DAYS else f"tried {days:.0f} days ago, and {MOST_DAYS} is the most"
