"""What the tools take of the toolchain's command rt: the list of crates, the words of a check, and the stamp of a library.

rt is a script that brings a module, rtlib. What is taken of it is named in NEEDED: a kit that lacks one of these, or has none of its own
scripts in Python, raises `Unknown`, and whoever asked says so."""
import importlib.machinery
import importlib.util
import os
import re
import shutil
import subprocess
import sys

TOP = os.path.dirname(os.path.dirname(os.path.realpath(__file__)))
NEEDED = ("Crate", "PARTS", "RATTLE", "crates_below", "fmt", "guarded")
# the most memory that a check was seen to take, in bytes; the gate tells where one takes more
LARGEST_CHECK = 5_980_000_000
OF_A_CRATE = ("below", "build_rlib", "is_built", "stamp", "words")


class Unknown(Exception):
    """The kit's command lacks what is named."""


def commands():
    """The folder of the kit's commands."""
    command = shutil.which("rt")
    if not command:
        raise Unknown("there is no command rt on the path")
    return os.path.dirname(os.path.realpath(command))


def folder():
    """The kit's own folder."""
    return os.path.dirname(commands())


def load():
    """The kit's module rtlib, once it is seen to have all that is taken of it."""
    file = os.path.join(commands(), "rtlib.py")
    if not os.path.isfile(file):
        raise Unknown(f"the kit has no {file}")
    sys.dont_write_bytecode = True
    loader = importlib.machinery.SourceFileLoader("rtlib", file)
    module = importlib.util.module_from_spec(importlib.util.spec_from_loader("rtlib", loader))
    sys.modules["rtlib"] = module
    loader.exec_module(module)
    lacking = [it for it in NEEDED if not hasattr(module, it)] or [it for it in OF_A_CRATE if not hasattr(module.Crate, it)]
    if lacking:
        raise Unknown(f"the kit's rtlib has no {', '.join(lacking)}")
    return module


def remembered(stamp):
    """The kit's reckoning of a stamp, made once for a crate: it asks each crate below for its own, along every way down."""
    known = {}

    def of(crate):
        if crate.folder not in known:
            known[crate.folder] = stamp(crate)
        return known[crate.folder]

    return of


def crates(lib):
    """The crates of crates.txt by name, each after those that it cites."""
    found = lib.crates_below(TOP)
    return {it.name: it for it in sorted(found, key=lambda it: len(it.below()))}


def version():
    """The kit's line, as `rt version` prints it."""
    return subprocess.run(["rt", "version"], check=True, capture_output=True, text=True).stdout.strip()


def logic():
    """The sum of the kit's logic, which decides what is proved: two kits with the same sum prove the same."""
    found = re.search(r"\blogic (\w+)", version())
    if not found:
        raise Unknown(f"rt version names no logic: {version()}")
    return found[1]


def crates_as_now():
    """The same, for stamps of the sources as they are now: each is made once, and an edit after that isn't seen."""
    lib = load()
    lib.Crate.stamp = remembered(lib.Crate.stamp)
    return crates(lib)


def memory():
    """The machine's memory in bytes."""
    with open("/proc/meminfo", encoding="utf-8") as it:
        return 1024 * int(re.search(r"MemTotal:\s+(\d+)", it.read())[1])


def lanes():
    """How many checks go on at a time: RT_JOBS, or one for each processor, as far as each has the memory of the largest check and a fifth
    more; one at least."""
    given = os.environ.get("RT_JOBS", "")
    if given.isdigit() and int(given):
        return int(given)
    return max(1, min(len(os.sched_getaffinity(0)), int(memory() / (1.2 * LARGEST_CHECK))))
