"""Tries a crate's edits in rounds: a round makes edits of different functions in one copy of the crate, and has one check of it.

An edit is refused where its function isn't proved and a goal of that very function fails: a caller that waits for a refused function
doesn't count. Two edits of one function, or of one cycle of calls, are in different rounds. What waits for a function that another edit of
the round has broken is tried again once that edit is out of the way. A line of the check's output that isn't known here fails the round,
and so does an edited function that has no line there."""
import os
import re
import shutil
import subprocess
import tempfile

import source

# the lines that a check prints, each from its first character on
KNOWN = re.compile(
    "|".join(
        (
            r"$|\s",
            r"by-macro: |long terms are shown computed here",
            r"so far: \d+ of \d+ functions checked",
            r"(struct|enum|union|impl|trait|type|const|static|law) \S.*: (proved$|not proved)",
            r"fn \S+: (proved$|proved, may wait$|proved where its callers give what it asks$|not proved|no proof: )",
            r"(note|help|warning): ",
            r"\./proofs/\S+\.antt:\d+:\d+: (error|note|warning): ",
            r"(logic /|axioms )\S+: ",
            r"(statements|library|crate) \w+: modules ",
            r"logic=(not-)?proved\b",
        )
    )
)
LINE = re.compile(r"^fn (\S+): (proved|not proved|no proof)(.*)$")
NOTE = re.compile(r"^note: (\S+?):(\d+):\d+: it is not proved that")
ANSWER = re.compile(r"^\./proofs/(\S+)/\w+\.antt:\d+:\d+: error: (.*)$")
# what a proof file says that names something the edit took away: that shows nothing of the contract
GONE = re.compile(r"has no field|is not in scope|has no `|was not admitted|were not checked|is no name")
WAITS = re.compile(r"it calls `|waits? for")


class Refused(Exception):
    """A crate's edits can't be tried, and why."""


def check(lib, words, room, kept):
    """One check of the crate in this folder, over what was kept: its status, the lines of its output and its processor time."""
    whole = [*lib.guarded(), lib.RATTLE, "check", *words, "--incremental", kept]
    with tempfile.TemporaryFile("w+", errors="replace") as out:
        ran = subprocess.Popen(whole, cwd=room, stdin=subprocess.DEVNULL, stdout=out, stderr=subprocess.STDOUT)
        _, status, used = os.wait4(ran.pid, 0)
        ran.returncode = -os.WTERMSIG(status) if os.WIFSIGNALED(status) else os.WEXITSTATUS(status)
        out.seek(0)
        return ran.returncode, out.read().rstrip("\n").split("\n"), used.ru_utime + used.ru_stime


class Tried:
    """An edit with the functions that it changes. Functions of one cycle of calls have one proof together, and count as one."""

    def __init__(self, edit):
        self.edit, self.places, self.why = edit, edit.functions(), ""
        self.proofs = {f"+{it.cycle}" if it.cycle else (file, *it.block, it.name) for file, it in self.places}

    def meets(self, others):
        """Whether one of the others changes what has one proof with a function of this one."""
        return any(self.proofs & it.proofs for it in others)


def path_of(file, function, paths):
    """The name of a function in the prover's output: by the type of its block, or by its module where it is in none."""
    modules = [it for it in re.sub(r"^src/|\.rt$", "", file).split("/") if it not in ("lib", "main")]
    found = []
    for path in paths:
        *front, last = path.split("::")
        if last != function.name or "fn" in front or "+" in path:
            continue
        if not function.block and front[1:] == modules:
            found.append(path)
        elif len(function.block) == 1 and front[-1] == function.block[0]:
            found.append(path)
        elif len(function.block) == 2 and re.match(rf"{function.block[0]}{function.block[1]}(?![a-z])", front[-1]):
            found.append(path)
    if len(found) > 1:
        found = [it for it in found if it.split("::")[1:-2] == modules] or found
    if len(found) != 1:
        raise Refused(f"{file}: the output has {len(found)} lines of the function {function.name}")
    return found[0]


def is_of(path, other):
    """Whether the second is the first, or a closure in it."""
    *front, name = path.split("::")
    return other == path or "::".join(other.split("::")[: len(front) + 2]) == "::".join([*front, "fn", name])


class Round:
    """What the check of a round has said."""

    def __init__(self, crate_name, status, lines, texts):
        self.lines, self.texts = lines, texts
        unknown = [it for it in lines if not KNOWN.match(it)]
        if unknown:
            raise Refused(f"a line that isn't known: {unknown[0][:200]}")
        if status != 1 or not lines[-1].startswith("logic=not-proved"):
            raise Refused(f"the check ended with status {status}: {lines[-1][:200]}")
        if not any(it.startswith(f"crate {crate_name}: ") for it in lines):
            raise Refused("the check says nothing of the crate")
        self.paths = [found[1] for it in lines if (found := LINE.match(it))]

    def own_goals(self, path, file, function):
        """The goals of the function that fail: a note in its lines, or an answer of its own that is none."""
        own = path.partition("::")[2]
        now = [it for it in source.functions(self.texts[file]) if (it.name, it.block) == (function.name, function.block)]
        for line in self.lines:
            if found := NOTE.match(line):
                inside = any(it.first <= int(found[2]) <= it.last for it in now)
                if found[1] == file and inside:
                    yield line
            elif (found := ANSWER.match(line)) and not GONE.search(found[2]):
                place, goal = found[1].split("/"), "::".join([*function.block[:1], function.name])
                is_cycle = function.cycle and place[-1] == f"+{function.cycle}" and found[2].startswith(f"`{goal}-")
                if is_cycle or is_of(own, "::".join(place)):
                    yield line

    def judge(self, tried):
        """'refused', 'waits', or why the edit isn't refused."""
        waits, paths = False, [path_of(*it, self.paths) for it in tried.places]
        for path, (file, function) in zip(paths, tried.places):
            own = [found for line in self.lines if (found := LINE.match(line)) and is_of(path, found[1])]
            goals = list(self.own_goals(path, file, function))
            if goals and any(it[2] != "proved" for it in own):
                tried.why = goals[0]
                return "refused"
            waits = waits or any(WAITS.search(it[3]) for it in own)
        return "waits" if waits else "NOT REFUSED: no goal of its own fails"


def copy_of(lib, crate, room, texts):
    for part in lib.PARTS:
        if os.path.isdir(f"{crate.folder}/{part}"):
            shutil.copytree(f"{crate.folder}/{part}", f"{room}/{part}")
    for file, text in texts.items():
        with open(f"{room}/{file}", "w", encoding="utf-8") as out:
            out.write(text)


def texts_of(chosen):
    """The files with all of these edits made."""
    texts = {}
    for tried in chosen:
        for file, old, new in tried.edit.pairs:
            text = texts.get(file, tried.edit.before[file])
            if text.count(old) != 1:
                raise Refused(f"{tried.edit.name}: its 'old:' text is there {text.count(old)} times beside the others")
            texts[file] = text.replace(old, new)
    return texts


class Crate:
    """The trial of a crate's edits: what came of each, its rounds and its processor time."""

    def __init__(self, lib, crate, edits, logs, say):
        self.lib, self.crate, self.edits, self.logs, self.say = lib, crate, edits, logs, say
        self.rounds, self.seconds, self.failed = 0, 0.0, []

    def check_with(self, texts, kept):
        """A check of the crate with these texts in place of its own. What it says goes into out/mutants."""
        with tempfile.TemporaryDirectory(prefix="mutants-") as room:
            copy_of(self.lib, self.crate, room, texts)
            words = self.crate.words(["--jobs", "1"], keeps=False)
            status, lines, seconds = check(self.lib, words, room, kept)
        self.seconds += seconds
        os.makedirs(self.logs, exist_ok=True)
        with open(f"{self.logs}/{self.crate.name}.{self.rounds}.log", "w", encoding="utf-8") as log:
            log.write("\n".join(lines) + "\n")
        return status, lines

    def run(self):
        """Tries every edit; says a line for each, and returns whether all were refused. Where one check was not enough, the crate itself
        has to be proved over what the rounds kept, so that none was refused for what another one left there."""
        with tempfile.TemporaryDirectory(prefix="mutants-kept-") as kept:
            made = f"{self.crate.folder}/out/incremental"
            has_kept = os.path.isdir(made)
            if has_kept:
                shutil.copytree(made, kept, dirs_exist_ok=True)
            left = [Tried(it) for it in self.edits]
            while left:
                left = self.one_round(left, kept)
            if has_kept or self.rounds > 1:
                status, lines = self.check_with({}, kept)
                if status or not lines[-1].startswith("logic=proved"):
                    raise Refused(f"the crate itself isn't proved: {lines[-1][:200]}")
        return not self.failed

    def one_round(self, left, kept):
        """Tries what goes together of these; returns what is left to try."""
        chosen, later = [], []
        for it in left:
            (later if it.meets(chosen) else chosen).append(it)
        self.rounds += 1
        texts = texts_of(chosen)
        status, lines = self.check_with(texts, kept)
        if status == 0:
            judged = ["NOT REFUSED: the crate is proved with it"] * len(chosen)
        else:
            seen = Round(self.crate.name, status, lines, texts)
            judged = [seen.judge(it) for it in chosen]
        is_moving = "refused" in judged
        for it, said in zip(chosen, judged):
            if said == "waits" and is_moving:
                later.append(it)
                continue
            if said != "refused":
                self.failed.append(it.edit.name)
            self.say(f"{self.crate.name}/{it.edit.name}: {said}{': ' + it.why[:140] if said == 'refused' else ''}")
        return later
