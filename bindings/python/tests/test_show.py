"""``python -m narthexmace show``: replies and images are those that the program has, in the repository's examples."""
import io
import os
import re
import subprocess
import sys
import tempfile
import unittest
from argparse import Namespace
from importlib.machinery import SourceFileLoader
from importlib.util import module_from_spec, spec_from_loader
from pathlib import Path
from typing import Any, Dict, Iterator, List, Optional, Tuple
from unittest import mock

import narthexmace
from narthexmace import __main__ as show

from . import LIMIT

EXAMPLES = Path(__file__).parents[3] / "examples"
# calls that show has not, and a trim, whose count the library doesn't tell
UNLIKE = re.compile(rb",(checkpoint|cut)\b")
# a commit after writes that undo each other: it changes nothing, as one after no write
IDLE = {"runs: an insert changed and deleted leaves the image"}
# a write that was done, and what begins or ends a transaction
STEP = re.compile(r"^([^,\n]*),(?:(begin),Begun|(commit),[A-Z].*|(insert|delete|set),Done)$", re.MULTILINE)
PICTURE = """\
a,begin,Begun
a,insert,Done
a,delete,Done
a,set,Done
a,commit,Committed,1

table            Read-PDT   Write-PDT           image
id*  name  qty                                  id*  name     qty
 10  Ann     1              name=Ann, Jr at 0    10  Ann, Jr    1
 20  Bob     2              -20 at 1
                            +25,Dee,4 at 2       25  Dee        4
 30  Cid     3                                   30  Cid        3

commits 1, Read-PDT 0, Write-PDT 3
"""
# examples/layers/README.md has these layers in its last line
OPEN = """\
table            Read-PDT         Write-PDT    image            b's own
id*  name  qty                                 id*  name  qty
                                                                +5,Eve,0 at 0
 10  Ann     1                    -10 at 0
 20  Bob     2                                  20  Bob     2
                 +25,Dee,4 at 2   qty=5 at 2    25  Dee     5
 30  Cid     3                                  30  Cid     3

commits 2, Read-PDT 1, Write-PDT 2
"""
# a replaces a row and inserts one, which is folded; b changes the first and deletes the other; c and a are open, over
# different tables. The stable rows are (10, x) and (20, x)
SEVERAL = """\
a,begin
a,delete,20,x
a,insert,20,x,true
a,insert,30,"y,z",false
a,commit
a,fold
c,begin
c,set,10,x,ok,true
b,begin
b,set,20,x,ok,false
b,delete,30,"y,z"
b,commit
a,begin
a,insert,5,z,true
a,set,20,x,ok,true
"""
LAYERS = """\
table           Read-PDT                Write-PDT        image           c's own        a's own
n*  k*  ok                                               n*  k*  ok
                                                                                        +5,z,true at 0
10  x   false                                            10  x   false   ok=true at 0
20  x   false   +20,x,true -20,x at 1   ok=false at 1    20  x   false                  ok=true at 1
                +30,"y,z",false at 2    -30,"y,z" at 2

commits 2, Read-PDT 3, Write-PDT 2
"""
COLOURS = """\
\x1b[1mtable\x1b[0m      \x1b[1mRead-PDT\x1b[0m   \x1b[1mWrite-PDT\x1b[0m    \x1b[1mimage\x1b[0m
\x1b[1mid*  qty\x1b[0m                           \x1b[1mid*  qty\x1b[0m
  1    5              \x1b[31m-1\x1b[0m at 0
  2    6              \x1b[33mqty=8\x1b[0m at 1     2    8
                      \x1b[32m+3,7\x1b[0m at 2      3    7

commits 1, Read-PDT 0, Write-PDT 3
"""
NARROW = """\
table      Read-PDT   Write-..
id*  qty                    ..
  1    5              -1 at 0
  2    6              qty=8 ..
                      +3,7 a..

commits 1, Read-PDT 0, Write-PDT 3
"""


class Screen(io.StringIO):
    """A terminal."""

    def isatty(self) -> bool:
        return True


def cases() -> Iterator[Any]:
    """The examples and the cases that are one run of a script with no table, and are not refused."""
    loader = SourceFileLoader("examples_check", str(EXAMPLES / "check"))
    spec = spec_from_loader(loader.name, loader)
    assert spec
    check = module_from_spec(spec)
    loader.exec_module(check)
    for folder in sorted(it.parent for it in EXAMPLES.glob("*/replies.csv")):
        yield check.example_of(folder)
    for file in sorted(EXAMPLES.glob("cases/*.txt")):
        yield from check.cases_of(file)


def options_of(case: Any) -> Optional[Dict[str, Any]]:
    """How a case opens its table; None where the program does there what show doesn't."""
    words = [os.fsdecode(word) for word in case.lines[0]]
    if case.shell or case.status or len(case.lines) > 1 or words[:3] != ["run", "table.csv", "script.csv"]:
        return None
    options = dict(zip(words[3::2], words[4::2]))
    if set(words[3::2]) - {"--recent", "--limit", "--conflicts"} or UNLIKE.search(case.files["script.csv"]):
        return None
    if case.name in IDLE or has_idle_commit(case.replies.decode()):
        return None
    limits = {"recent": int(options.get("--recent", 64)), "row_limit": int(options.get("--limit", 2_147_483_647))}
    return {**limits, "conflicts": options.get("--conflicts", "column")}


def has_idle_commit(replies: str) -> bool:
    """Whether a transaction commits that wrote nothing: the program gives it a number, and the library doesn't."""
    wrote = {}
    for client, begin, commit, _ in STEP.findall(replies):
        if commit and not wrote.get(client, True):  # there may be none open
            return True
        wrote[client] = not begin
    return False


class Examples(unittest.TestCase):
    def test_replies_and_images(self) -> None:
        compared = 0
        for case in cases():
            options = options_of(case)
            if options is not None:
                compared += 1
                with self.subTest(case=case.name), tempfile.TemporaryDirectory() as folder:
                    self.compare(case, options, Path(folder))
        self.assertGreater(compared, 60)

    def compare(self, case: Any, options: Dict[str, Any], folder: Path) -> None:
        for name in ("table.csv", "script.csv"):
            (folder / name).write_bytes(case.files[name])
        out = io.StringIO()
        with narthexmace.open(folder / "table.csv", **options) as table:
            script, records = show.Script(table), show.read_script(folder / "script.csv")
            script.check(records)
            show.write_lines(script.replies(records), out)
            script.end()
            out.write("\n")
            heading = [f"{it.name}:{it.type}{':key' if it.key else ''}" for it in table.columns]
            show.write_lines([heading, *show.newest(table, None)], out)
        self.assertEqual(out.getvalue().splitlines(), case.replies.decode().splitlines())


class Pictures(unittest.TestCase):
    def shown(self, *words: str) -> Tuple[int, str, str]:
        told = subprocess.run([sys.executable, "-m", "narthexmace", *words], capture_output=True, text=True, timeout=LIMIT)
        return told.returncode, told.stdout, told.stderr

    def files(self, folder: str, **texts: str) -> List[str]:
        for name, text in texts.items():
            Path(folder, name).write_text(text, encoding="utf-8")
        return [str(Path(folder, name)) for name in texts]

    def test_a_table_beside_its_image(self) -> None:
        data = Path(__file__).parents[3] / "crates/pdt/data"
        words = ["show", str(data / "table.csv"), "--script", str(data / "script.csv")]
        self.assertEqual(self.shown(*words), (0, PICTURE, ""))

    def test_the_layers_of_open_transactions(self) -> None:
        layers = EXAMPLES / "layers"
        calls = (layers / "script.csv").read_text().splitlines()[:10]  # up to b's insert
        with tempfile.TemporaryDirectory() as folder:
            (script,) = self.files(folder, script="\n".join(calls))
            status, out, told = self.shown("show", str(layers / "table.csv"), "--script", script)
            self.assertEqual((status, out.partition("\n\n")[2], told), (0, OPEN, ""))
            table, script = self.files(folder, table="n:int:key,k:text:key,ok:bool\n10,x,false\n20,x,false\n",
                                       script=SEVERAL)  # fmt: skip
            status, out, told = self.shown("show", table, "--script", script)
            self.assertEqual((status, out.partition("\n\n")[2], told), (0, LAYERS, ""))

    def screen(self, **environment: str) -> str:
        """What a terminal shows of three changes, after the replies."""
        calls = "a,begin\na,insert,3,7\na,delete,1\na,set,2,qty,8\na,commit\n"
        with tempfile.TemporaryDirectory() as folder:
            table, script = self.files(folder, table="id:int:key,qty:int\n1,5\n2,6\n", script=calls)
            words = Namespace(table=Path(table), script=Path(script), recent=1, limit=9, conflicts="row", rows=40)
            out = Screen()
            with mock.patch.dict(os.environ, {"TERM": "xterm", "NO_COLOR": "", **environment}):
                show.show(words, out)
        return out.getvalue().partition("\n\n")[2]

    def test_a_terminal_gets_colours(self) -> None:
        self.assertEqual(self.screen(COLUMNS="80"), COLOURS)
        plain = re.sub(r"\x1b\[\d+m", "", COLOURS)
        self.assertEqual(self.screen(COLUMNS="80", NO_COLOR="1"), plain)
        self.assertEqual(self.screen(COLUMNS="80", TERM="dumb"), plain)

    def test_a_wide_table_is_cut_to_the_terminal(self) -> None:
        self.assertEqual(self.screen(COLUMNS="30", NO_COLOR="1"), NARROW)
        self.assertEqual(re.sub(r"\x1b\[\d+m", "", self.screen(COLUMNS="30")), NARROW)

    def test_a_table_alone(self) -> None:
        with tempfile.TemporaryDirectory() as folder:
            (table,) = self.files(folder, table='id:int:key,t:text,b:bool\n2,"a\nb",true\n-10,é,false\n3,,true\n')
            due = "id*  t     b\n-10  é     false\n  2  a\\nb  true\n  3        true\n"
            self.assertEqual(self.shown("show", table), (0, due, ""))
            due = "id*  t  b\n-10  é  false\n.. 2 more\n"
            self.assertEqual(self.shown("show", table, "--rows", "1"), (0, due, ""))

    def test_what_is_refused(self) -> None:
        with tempfile.TemporaryDirectory() as folder:
            table, bad, jump, long = self.files(
                folder, table="id:int:key\n1\n", bad="id:int\n", jump="a,begin\na,jump\n", long="a,get,1,2\n"
            )
            for words, due in [
                ((bad,), "line 1: 0 key columns, and 1 to 4 are wanted"),
                ((str(Path(folder, "no")),), "No such file"),
                ((table, "--script", jump), "record 2 is no call: there is no verb 'jump' here"),
                ((table, "--script", long), "record 1 is no call: get takes 1 arguments"),
                ((table, "--recent", "0"), "recent is 0"),
            ]:
                status, out, told = self.shown("show", *words)
                self.assertEqual((status, out), (1, ""))
                self.assertIn(due, told)
                self.assertEqual(told.count("\n"), 1)

    def test_a_table_that_is_longer_than_the_picture(self) -> None:
        with tempfile.TemporaryDirectory() as folder:
            table, script = self.files(folder, table="id:int:key\n1\n2\n3\n", script="a,begin\na,delete,2\na,commit\n")
            out = io.StringIO()
            words = Namespace(table=Path(table), script=Path(script), recent=1, limit=9, conflicts="row", rows=2)
            show.show(words, out)
            lines = out.getvalue().splitlines()
            due = ["table   Read-PDT   Write-PDT   image", "id*                            id*"]
            due += ["  1                              1", f"  2{'':16}-2 at 1", ".. 1 more"]
            self.assertEqual(lines[4:9], due)


if __name__ == "__main__":
    unittest.main()
