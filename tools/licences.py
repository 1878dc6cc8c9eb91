"""The file THIRD-PARTY of a release: the crates of the toolchain whose code is linked into the library, and their licences.

The library links crates/pdt_c, the crates below it, and the crates of the kit that crates.txt names for one of them. The file `format` of a
kit crate lists the other kit crates that it uses. A kit crate keeps its licences beside its sources, in files called LICENSE-*, or at the
head of a source file. The texts are read from the kit when a release is made, and aren't part of the repository."""
import os
import re

# every crate is over these, whether or not its line names them
ALWAYS = ("core", "std")
# licences that a source file names, and the file of the kit that has their text
NAMED = {"Unicode License": "unicode/LICENSE-UNICODE"}
MENTION = re.compile(r"licen[cs]e|copyright", re.IGNORECASE)
ORIGIN = re.compile(r"Rust crates? (`[\w-]+` \d+(?:\.\d+)*(?:(?:,| and) `[\w-]+` \d+(?:\.\d+)*)*)")

HEAD = """\
Third-party code in libpdt of Narthexmace {version}

libpdt.a, libpdt.so, the wheel for Python and the extension of SQLite have in them code of the crates of the Rattle toolchain that are
listed here. Their licences are below.

{crates}

Without a licence of their own in the toolchain: {bare}.

Of the toolchain there is also its allocator, an object that calls malloc, realloc and free. The shared libraries have the start files of
GCC and glibc in them, whose exceptions ask for no notice. The C library itself isn't in the archives.
"""


class Part:
    """A crate of the kit: the crates of Rust that it is made after, and the texts of its licences by the name of their file."""

    def __init__(self, name, origins, texts):
        self.name, self.origins, self.texts = name, origins, texts


def read(path):
    with open(path, encoding="utf-8") as file:
        return file.read()


def cited(top, crate):
    """The crates of the kit that the crate, and those of the repository below it, name in crates.txt."""
    lines = [it.partition(":") for it in read(f"{top}/crates.txt").splitlines() if it.strip() and not it.startswith("#")]
    named = {head.split()[0]: rest.split() for head, _, rest in lines}
    below, left = set(), [crate]
    while left:
        for name in named[left.pop()]:
            if name not in below:
                below.add(name)
                left += [name] if name in named else []
    return below - set(named)


def linked(kit, names):
    """These crates of the kit, and all that they are made of, in the order of their names."""
    found, left = set(), [*names, *ALWAYS]
    while left:
        name = left.pop()
        if name not in found:
            found.add(name)
            left += re.findall(r"(?m)^dep (\w+)$", read(f"{kit}/rlibs/{name}.rlib/format"))
    return sorted(found)


def head_comment(text):
    """The comment at the head of a source file, without its slashes."""
    lines = []
    for line in text.splitlines():
        if not line.startswith("//"):
            break
        lines.append(line.lstrip("/!").removeprefix(" "))
    return "\n".join(lines) + "\n"


def notices(folder):
    """The comments at the heads of source files that speak of a licence, by the file's name."""
    found = {}
    for at, folders, names in os.walk(f"{folder}/src"):
        folders.sort()
        for name in sorted(names):
            comment = head_comment(read(f"{at}/{name}")) if name.endswith(".rt") else ""
            if MENTION.search(comment):
                found[os.path.relpath(f"{at}/{name}", folder)] = comment
    return found


def part_of(kit, name):
    """The crate of that name, as the kit has it."""
    folder = f"{kit}/rattle/{name}"
    texts = {it: read(f"{folder}/{it}") for it in sorted(os.listdir(folder)) if it.startswith("LICENSE")}
    in_sources = notices(folder)
    for licence, file in NAMED.items():
        if any(licence in it for it in in_sources.values()):
            texts[os.path.basename(file)] = read(f"{kit}/rattle/{file}")
    readme = f"{folder}/README.md"
    origins = ORIGIN.findall(read(readme)) if os.path.isfile(readme) else []
    return Part(name, [it.replace("`", "") for it in origins], {**texts, **in_sources})


def section(text, owners):
    """The part of a text: the crates and files that have it, and the text."""
    return f"{'-' * 80}\n{', '.join(owners)}\n\n{text}\n"


def third_party(version, parts):
    """The file's text. A text that several crates have is there once."""
    owners = {}
    for part in parts:
        for file, text in part.texts.items():
            owners.setdefault(text.strip("\n"), []).append(f"{part.name}/{file}")
    crates = [f"{it.name}{' (after ' + '; '.join(it.origins) + ')' if it.origins else ''}" for it in parts if it.texts]
    head = HEAD.format(version=version, crates="\n".join(crates), bare=", ".join(bare(parts)) or "none")
    return "\n".join([head, *(section(text, names) for text, names in owners.items())])


def bare(parts):
    """The names of the crates for which the kit has no licence."""
    return [it.name for it in parts if not it.texts]


def parts_of(top, kit, crate="pdt_c"):
    """The crates of the kit that are linked into the library of a crate."""
    return [part_of(kit, it) for it in linked(kit, cited(top, crate))]
