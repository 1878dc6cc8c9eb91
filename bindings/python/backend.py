"""Builds the wheel and the source distribution of the package (PEP 517) with Python alone.

The wheel has the library in it: that of the folder that PDT_LIB_DIR names; or else the one that `make libpdt` builds;
or else, for a build from a source distribution, the one of this version that pkg-config knows.

Two settings are for a release: `platform-tag` is the tag of the machines that the library runs on, and `third-party` a
file with the licences of what is linked into it. The same files make the same bytes: SOURCE_DATE_EPOCH is the time of
each entry, and 1980, the first one that a zip archive knows, where it isn't set.
"""
from __future__ import annotations

import base64
import gzip
import hashlib
import io
import os
import re
import subprocess
import sys
import sysconfig
import tarfile
import time
import zipfile
from pathlib import Path
from typing import Any, Dict, Iterator, List, Optional, Tuple

HERE = Path(__file__).resolve().parent
PROJECT = dict(re.findall(r'^([a-z-]+) = "(.*)"$', (HERE / "pyproject.toml").read_text(), re.MULTILINE))
NAME = PROJECT["name"]
Files = List[Tuple[str, bytes]]
Settings = Optional[Dict[str, Any]]
#: The first second that a zip archive can have: 1980-01-01.
FIRST_SECOND = 315_532_800


def shared(name: str) -> bytes:
    """A file that is at the top of the repository; or in the package, of a source distribution."""
    packed = HERE / NAME / name
    return (packed if packed.is_file() else HERE / "../.." / name).read_bytes()


# the library's version, and the package's, which PEP 440 has written otherwise before a release
LIBRARY = shared("VERSION").decode().strip()
VERSION = LIBRARY.replace("-dev", ".dev0")
INFO = f"{NAME}-{VERSION}.dist-info"

METADATA = f"""\
Metadata-Version: 2.4
Name: {NAME}
Version: {VERSION}
Summary: {PROJECT["description"]}
License-Expression: {PROJECT["license"]}
Requires-Python: {PROJECT["requires-python"]}
"""


def platform_tag() -> str:
    """The machine that the library is built for."""
    return sysconfig.get_platform().replace("-", "_").replace(".", "_")


def wheel_text(tag: str) -> str:
    return f"Wheel-Version: 1.0\nGenerator: {NAME} backend\nRoot-Is-Purelib: false\nTag: {tag}\n"


def places() -> Iterator[Path]:
    """Where the library may lie."""
    named = os.environ.get("PDT_LIB_DIR")
    if named:
        yield Path(named)
        return
    yield HERE / "../../libpdt/out"
    try:
        words = [os.environ.get("PKG_CONFIG", "pkg-config"), "--variable=libdir", f"pdt = {LIBRARY}"]
        told = subprocess.run(words, stdout=subprocess.PIPE, stderr=subprocess.DEVNULL, check=True).stdout
    except (OSError, subprocess.CalledProcessError):
        return
    if told.strip():
        yield Path(told.decode().strip())


def library() -> bytes:
    for place in places():
        if (place / "libpdt.so").is_file():
            return (place / "libpdt.so").read_bytes()
    sys.exit(
        "libpdt.so isn't there: `make libpdt` at the top of the repository builds it; or else PDT_LIB_DIR names its "
        f"folder, or pkg-config knows pdt {LIBRARY}"
    )


def modules() -> Files:
    """The modules of the package."""
    files = sorted(file for file in (HERE / NAME).iterdir() if file.suffix == ".py" or file.name == "py.typed")
    return [(f"{NAME}/{file.name}", file.read_bytes()) for file in files]


def record_line(name: str, content: bytes) -> str:
    digest = base64.urlsafe_b64encode(hashlib.sha256(content).digest()).rstrip(b"=").decode()
    return f"{name},sha256={digest},{len(content)}\n"


def entry_second() -> int:
    """The time of each entry of an archive."""
    return max(FIRST_SECOND, int(os.environ.get("SOURCE_DATE_EPOCH") or FIRST_SECOND))


def metadata(licences: List[str]) -> str:
    """The package's metadata, with the files of licences that are beside it."""
    return METADATA + "".join(f"License-File: {name}\n" for name in licences)


def licences(settings: Settings) -> Files:
    """The texts of licences that a wheel has: the package's own, and those of the file that `third-party` names."""
    named = (settings or {}).get("third-party")
    own = [("LICENSE", shared("LICENSE"))]
    return [*own, ("THIRD-PARTY", Path(named).read_bytes())] if named else own


def write_zip(path: Path, files: Files) -> None:
    """Writes an archive of these files, in this order."""
    moment = time.gmtime(entry_second())[:6]
    with zipfile.ZipFile(path, "w") as archive:
        for name, content in files:
            entry = zipfile.ZipInfo(name, moment)
            entry.create_system, entry.external_attr = 3, 0o100644 << 16
            archive.writestr(entry, content, zipfile.ZIP_DEFLATED)


def build_wheel(wheel_directory: str, config_settings: Settings = None, metadata_directory: Optional[str] = None) -> str:
    """Writes the wheel into a folder, and returns its name."""
    tag = f"py3-none-{(config_settings or {}).get('platform-tag') or platform_tag()}"
    package = [*modules(), (f"{NAME}/VERSION", shared("VERSION")), (f"{NAME}/libpdt.so", library())]
    texts = licences(config_settings)
    info = [("METADATA", metadata([name for name, _ in texts]).encode()), ("WHEEL", wheel_text(tag).encode())]
    info += [(f"licenses/{name}", text) for name, text in texts]
    files = [*package, *((f"{INFO}/{name}", text) for name, text in info)]
    record = "".join(record_line(name, content) for name, content in files) + f"{INFO}/RECORD,,\n"
    wheel = f"{NAME}-{VERSION}-{tag}.whl"
    write_zip(Path(wheel_directory, wheel), [*files, (f"{INFO}/RECORD", record.encode())])
    return wheel


def sources() -> Files:
    """The files of a source distribution: the package and what builds it, without the library."""
    own = [(name, (HERE / name).read_bytes()) for name in ["pyproject.toml", "backend.py"]]
    packed = [(f"{NAME}/{name}", shared(name)) for name in ["VERSION", "LICENSE"]]
    return [*own, ("PKG-INFO", metadata(["LICENSE"]).encode()), *packed, *modules()]


def build_sdist(sdist_directory: str, config_settings: Settings = None) -> str:
    """Writes the source distribution into a folder, and returns its name."""
    stem = f"{NAME}-{VERSION}"
    packed = io.BytesIO()
    with tarfile.open(fileobj=packed, mode="w", format=tarfile.PAX_FORMAT) as archive:
        for name, content in sources():
            entry = tarfile.TarInfo(f"{stem}/{name}")
            entry.size, entry.mode, entry.mtime = len(content), 0o644, entry_second()
            archive.addfile(entry, io.BytesIO(content))
    with open(Path(sdist_directory, f"{stem}.tar.gz"), "wb") as file:
        # without the name and the time that its head may have
        with gzip.GzipFile(filename="", mode="wb", fileobj=file, mtime=0) as archive:
            archive.write(packed.getvalue())
    return f"{stem}.tar.gz"
