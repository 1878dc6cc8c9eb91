"""A folder for a database, for as long as a test goes on, and programs over it in processes of their own."""
import os
import subprocess
import sys
import tempfile
import unittest
from pathlib import Path
from typing import Any, Callable, Type

import narthexmace

from . import LIMIT

HERE = Path(__file__).parents[1]
ITEMS = "id:int:key,name:text,qty:int\n"


class Case(unittest.TestCase):
    """Databases in a folder that is taken away, each closed before."""

    def setUp(self) -> None:
        place = tempfile.TemporaryDirectory()
        self.addCleanup(place.cleanup)
        self.place = Path(place.name)
        self.folder = self.place / "shop"

    def connect(self, **words: Any) -> narthexmace.Database:
        db = narthexmace.connect(self.folder, **words)
        self.addCleanup(db._handle.end)
        return db

    def refused(self, kind: Type[BaseException], call: Callable[..., Any], *given: Any, **words: Any) -> Any:
        with self.assertRaises(kind) as caught:
            call(*given, **words)
        self.assertIs(type(caught.exception), kind)
        return caught.exception

    def started(self, program: str, *words: object) -> "subprocess.Popen[str]":
        """A program in a process of its own, with the package, and this folder as its first word."""
        environment = {**os.environ, "PYTHONPATH": str(HERE), "PYTHONUNBUFFERED": "1"}
        child = subprocess.Popen(
            [sys.executable, "-c", program, str(self.folder), *map(str, words)],
            env=environment, stdin=subprocess.PIPE, stdout=subprocess.PIPE, text=True,
        )  # fmt: skip
        self.addCleanup(self.ended, child)
        return child

    def ended(self, child: "subprocess.Popen[str]") -> None:
        """Waits for a program, which is killed where it goes on."""
        child.kill()
        child.communicate()

    def told(self, program: str, *words: object) -> str:
        """What a program prints, which has to end well."""
        child = self.started(program, *words)
        told = child.communicate(timeout=LIMIT)[0]
        self.assertEqual(child.returncode, 0, told)
        return told


def rows(table: narthexmace.Table) -> "list[Any]":
    """The newest rows of a table."""
    with table.read() as snapshot:
        return list(snapshot[:])


def insert(table: narthexmace.Table, *given: Any) -> None:
    """Commits some rows."""
    with table.begin() as txn:
        for row in given:
            txn.insert(row)
