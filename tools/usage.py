"""What a part of the gate takes: wall and processor time, and of each check of the prover its crate, its kind, its time and its memory.

The checks are seen in /proc, twice a second, among the processes that the gate has started."""
import os
import re
import resource
import threading
import time

TICK = os.sysconf("SC_CLK_TCK")
EVERY = 0.5


def processor_seconds():
    """Those of all processes that this one has waited for, and of those that they have."""
    used = resource.getrusage(resource.RUSAGE_CHILDREN)
    return used.ru_utime + used.ru_stime


def kind_of(words, folder):
    """What a check is for: a crate's proof, its tests', its must-fail edits' or its mutants'."""
    if "/mutants-" in folder:
        return "mutants"
    if "/rt-edit-" in folder:
        return "must-fail"
    return "tests" if "--test" in words else "proof"


def stat_of(pid):
    """A process's name, its parent, when it began and its processor seconds."""
    with open(f"/proc/{pid}/stat", encoding="utf-8", errors="replace") as it:
        text = it.read()
    name, rest = text[text.index("(") + 1 : text.rindex(")")], text[text.rindex(")") + 2 :].split()
    return name, int(rest[1]), rest[19], sum(int(it) for it in rest[11:15]) / TICK


class Check:
    """A check of the prover: whose it is, and what it has taken as far as it was seen."""

    def __init__(self, pid):
        with open(f"/proc/{pid}/cmdline", encoding="utf-8", errors="replace") as it:
            words = it.read().split("\0")
        self.crate = words[words.index("--crate-name") + 1] if "--crate-name" in words else ""
        self.kind = kind_of(words, os.readlink(f"/proc/{pid}/cwd"))
        self.seconds, self.memory = 0.0, 0

    def look(self, pid, seconds):
        self.seconds = max(self.seconds, seconds)
        with open(f"/proc/{pid}/status", encoding="utf-8", errors="replace") as it:
            found = re.search(r"VmHWM:\s+(\d+) kB", it.read())
        self.memory = max(self.memory, int(found[1]) * 1024 if found else 0)


class Sampler(threading.Thread):
    """Looks at the prover's processes until it is stopped."""

    def __init__(self):
        super().__init__(daemon=True)
        self.checks, self.ended = {}, threading.Event()

    def run(self):
        while not self.ended.wait(EVERY):
            self.look()

    def look(self):
        seen = {}
        for pid in filter(str.isdigit, os.listdir("/proc")):
            try:
                seen[int(pid)] = stat_of(pid)
            except (OSError, ValueError, IndexError):
                continue
        for pid, (name, _, began, seconds) in seen.items():
            if name != "rattle" or not self.is_ours(pid, seen):
                continue
            try:
                if (pid, began) not in self.checks:
                    self.checks[pid, began] = Check(pid)
                self.checks[pid, began].look(pid, seconds)
            except (OSError, ValueError):
                continue

    def is_ours(self, pid, seen):
        while pid in seen and pid != os.getpid():
            pid = seen[pid][1]
        return pid == os.getpid()

    def totals(self):
        """By crate and kind, the processor seconds; and the most memory that a check took, with its crate."""
        found, checks = {}, [it for it in self.checks.values() if it.crate]
        for it in checks:
            found[it.crate, it.kind] = found.get((it.crate, it.kind), 0.0) + it.seconds
        return found, max(checks, key=lambda it: it.memory, default=None)


class Clock:
    """The wall and the processor time since it was made."""

    def __init__(self):
        self.wall, self.used = time.time(), processor_seconds()

    def read(self):
        return time.time() - self.wall, processor_seconds() - self.used
