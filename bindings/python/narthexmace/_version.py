"""The version of the package: of the file VERSION in it, or of that at the top of the repository, as PEP 440 has it."""
from pathlib import Path


def _read() -> str:
    here = Path(__file__).resolve().parent
    for place in [here / "VERSION", here / "../../../VERSION"]:
        if place.is_file():
            return place.read_text().strip().replace("-dev", ".dev0")
    raise ImportError(f"{here / 'VERSION'} isn't there: the package was not installed whole")


__version__ = _read()
