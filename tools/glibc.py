"""The tag of a wheel by what its library asks of the machine: the versions of glibc whose symbols it needs, and the libraries it needs.

A wheel is tagged manylinux_X_Y_x86_64 where X.Y is the highest version of glibc that is needed, and no library is needed but those of the
C compiler. Else it is tagged linux_x86_64, and is for the machine that made it."""
import re
import subprocess

LOWEST = (2, 5)  # of the oldest tag that pip knows
# what glibc marks so isn't a version of a symbol, but a machine without it doesn't load the library
MARKS = {"GLIBC_ABI_DT_RELR": (2, 36)}
OF_THE_COMPILER = {"libc.so.6", "libpthread.so.0", "libm.so.6", "libdl.so.2", "librt.so.1", "libgcc_s.so.1", "ld-linux-x86-64.so.2"}
PLAIN = "linux_x86_64"


def versions_in(text):
    """The versions of glibc that readelf --version-info names. ValueError where one is glibc's own (GLIBC_PRIVATE)."""
    found = set()
    for name in re.findall(r"Name: (GLIBC_\w+(?:\.\w+)*)", text):
        if numbers := re.fullmatch(r"GLIBC_(\d+)\.(\d+)(?:\.\d+)?", name):
            found.add((int(numbers[1]), int(numbers[2])))
        elif name in MARKS:
            found.add(MARKS[name])
        else:
            raise ValueError(f"the library needs {name}, which is no version of glibc")
    return found


def libraries_in(text):
    """The libraries that readelf --dynamic names as needed."""
    return set(re.findall(r"\(NEEDED\).*\[(.*)\]", text))


def tag_of(versions, libraries):
    """The tag of a library that needs these."""
    if libraries - OF_THE_COMPILER:
        return PLAIN
    major, minor = max(versions | {LOWEST})
    return f"manylinux_{major}_{minor}_x86_64"


def readelf(*words):
    return subprocess.run(["readelf", "-W", *words], check=True, capture_output=True, text=True).stdout


def platform_tag(path):
    """The tag of the library of this path."""
    return tag_of(versions_in(readelf("--version-info", path)), libraries_in(readelf("--dynamic", path)))
