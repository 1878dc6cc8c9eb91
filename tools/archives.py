"""Archives whose bytes follow from their entries alone: sorted by name, of one owner and one time, and compressed without a time."""
import gzip
import io
import os
import stat
import tarfile


class Entry:
    """A file of an archive: its name there and its content, or the place to which it leads where it is a link."""

    def __init__(self, name, content=b"", leads_to="", is_program=False):
        self.name, self.content, self.leads_to, self.is_program = name, content, leads_to, is_program

    def head(self, second):
        """Its head in a tar archive."""
        made = tarfile.TarInfo(self.name)
        made.size, made.mtime, made.mode = len(self.content), second, 0o755 if self.is_program else 0o644
        made.uid, made.gid, made.uname, made.gname = 0, 0, "root", "root"
        if self.leads_to:
            made.type, made.linkname, made.mode = tarfile.SYMTYPE, self.leads_to, 0o777
        return made


def entry_of(name, path):
    """A file or a link of the disk as an entry of that name."""
    if os.path.islink(path):
        return Entry(name, leads_to=os.readlink(path))
    with open(path, "rb") as file:
        return Entry(name, file.read(), is_program=bool(os.stat(path).st_mode & stat.S_IXUSR))


def entries_below(folder, prefix):
    """The files and links below a folder, as entries below the prefix."""
    found = []
    for at, folders, names in os.walk(folder):
        # a link that leads to a folder is among the folders
        for name in [*names, *(it for it in folders if os.path.islink(f"{at}/{it}"))]:
            path = f"{at}/{name}"
            found.append(entry_of(f"{prefix}/{os.path.relpath(path, folder)}", path))
    return found


def write_tar(path, entries, second):
    """Writes a .tar.gz of these entries, whatever their order; `second` is the time of each. ValueError where two have one name."""
    ordered = sorted(entries, key=lambda it: it.name)
    for first, next_one in zip(ordered, ordered[1:]):
        if first.name == next_one.name:
            raise ValueError(f"two entries are called {first.name}")
    packed = io.BytesIO()
    with tarfile.open(fileobj=packed, mode="w", format=tarfile.USTAR_FORMAT) as archive:
        for entry in ordered:
            archive.addfile(entry.head(second), io.BytesIO(entry.content))
    with open(path, "wb") as file, gzip.GzipFile(filename="", mode="wb", fileobj=file, mtime=0) as archive:
        archive.write(packed.getvalue())
