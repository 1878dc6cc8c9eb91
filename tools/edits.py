"""The wrong bodies of a crate, a file each: crates/NAME/mutants/*.edit, and crates/NAME/must-fail/*.edit, which rt ci tries by itself.

An edit has a line 'file: src/lib.rt', and then pairs of lines 'old: TEXT' and 'new: TEXT'; each TEXT is in that file exactly once."""
import glob
import os
import re

import source

NAME = re.compile(r"[A-Za-z0-9_-][A-Za-z0-9_.-]*\.edit")


class BadEdit(Exception):
    """The edit can't be applied, and why."""


class Edit:
    """One edit: its name, and by file the texts before and after it."""

    def __init__(self, crate_folder, path):
        self.name, self.folder = os.path.basename(path)[: -len(".edit")], crate_folder
        self.before, self.after, self.places = {}, {}, {}
        if not NAME.fullmatch(os.path.basename(path)):
            raise BadEdit(f"{path}: its name is of letters, digits, _, - and .")
        with open(path, encoding="utf-8") as it:
            self.pairs = self.read(path, it.read())
        self.apply(path)

    def read(self, path, text):
        pairs, file, old = [], None, None
        for line in text.splitlines():
            if line.startswith("file: "):
                file = line[len("file: ") :].strip()
            elif line.startswith("old: "):
                old = line[len("old: ") :]
            elif line.startswith("new:"):
                if not file or not old:
                    raise BadEdit(f"{path}: a 'new:' line is before any 'file:' or 'old:' line")
                pairs.append((file, old, re.sub(r"\A ", "", line[len("new:") :])))
                old = None
            elif line.strip():
                raise BadEdit(f"{path}: a line that is none of file:, old: and new: ({line[:60]})")
        if not pairs or old is not None:
            raise BadEdit(f"{path}: it has no pair of 'old:' and 'new:'")
        return pairs

    def apply(self, path):
        for file, old, new in self.pairs:
            if not re.fullmatch(r"src/[\w/]+\.rt", file):
                raise BadEdit(f"{path}: an edit is of a file below src/, not of {file}")
            if file not in self.before:
                try:
                    with open(f"{self.folder}/{file}", encoding="utf-8") as it:
                        self.before[file] = self.after[file] = it.read()
                except OSError:
                    raise BadEdit(f"{path}: there is no file {file}") from None
            found = self.after[file].count(old)
            if found != 1:
                raise BadEdit(f"{path}: an 'old:' text is in {file} {found} times, and not once")
            self.places.setdefault(file, []).append(self.before[file].find(old))
            self.after[file] = self.after[file].replace(old, new)

    def functions(self):
        """The functions that it changes, each as the file and what source says of it before the edit."""
        found = []
        for file, places in self.places.items():
            heads = source.functions(self.before[file])
            for place in places:
                line = self.before[file][:place].count("\n") + 1
                inside = [it for it in heads if it.first <= line <= it.last]
                if len(inside) != 1:
                    raise BadEdit(f"{self.name}: line {line} of {file} is in no function")
                if (file, inside[0]) not in found:
                    found.append((file, inside[0]))
        return found


def edits_of(crate_folder, kind="mutants"):
    """The edits of a crate, by name. A file that is no edit, and no text to read, raises BadEdit."""
    folder = f"{crate_folder}/{kind}"
    for at, _, names in os.walk(folder):
        for name in names:
            if at != folder or not name.endswith((".edit", ".md")):
                raise BadEdit(f"{at}/{name}: an edit is a file NAME.edit right in {kind}/")
    return [Edit(crate_folder, it) for it in sorted(glob.glob(f"{folder}/*.edit"))]
