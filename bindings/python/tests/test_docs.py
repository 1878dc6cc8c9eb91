"""Each example of the documents and of the package is run, and prints what is there."""
import doctest
import os
import re
import subprocess
import sys
import tempfile
import unittest
from pathlib import Path

import narthexmace

TOP = Path(__file__).parents[3]
BLOCK = re.compile(r"^```python\n(.*?)^```$", re.MULTILINE | re.DOTALL)


class Documents(unittest.TestCase):
    def run_examples(self, name: str, text: str) -> int:
        """Runs the examples of a text in a folder of their own, and answers how many there are."""
        test = doctest.DocTestParser().get_doctest(text, {}, name, name, 0)
        told: list = []
        before = os.getcwd()
        with tempfile.TemporaryDirectory() as folder:
            os.chdir(folder)
            try:
                result = doctest.DocTestRunner(verbose=False).run(test, out=told.append)
            finally:
                os.chdir(before)
        self.assertEqual(result.failed, 0, "".join(told))
        return result.attempted

    def test_the_documents(self) -> None:
        for document in ("docs/LANGUAGES.md", "docs/ARROW.md"):
            blocks = BLOCK.findall((TOP / document).read_text())
            self.assertTrue(blocks, f"{document} has no example for Python")
            for place, block in enumerate(blocks):
                with self.subTest(document=document, block=place):
                    self.assertGreater(self.run_examples(f"{document}, block {place}", block), 1)

    def test_what_makes_commits_last_is_said_where_it_is_looked_for(self) -> None:
        for thing in (
            narthexmace, narthexmace.open, narthexmace.recover, narthexmace.Table, narthexmace.Table.checkpoint,
            narthexmace.Table.close, narthexmace.Transaction.commit,
        ):  # fmt: skip
            self.assertRegex(thing.__doc__ or "", r"checkpoint", thing)
        for thing in (
            narthexmace, narthexmace.connect, narthexmace.Database, narthexmace.Database.create,
            narthexmace.Database.close, narthexmace.DatabaseTransaction.commit, narthexmace.Transaction.commit,
            narthexmace.Table,
        ):  # fmt: skip
            self.assertRegex(thing.__doc__ or "", r"\bdurable\b|\bdevice\b|\bsurvives?\b", thing)

    def test_the_documentation_needs_no_library(self) -> None:
        asks = "import narthexmace\ntry: narthexmace.version()\nexcept ImportError as why: print(why)"
        words = {"NARTHEXMACE_WITHOUT_LIBRARY": "1", "PYTHONPATH": str(TOP / "bindings/python")}
        said = subprocess.run([sys.executable, "-c", asks], env={**os.environ, **words}, capture_output=True, text=True)
        self.assertEqual((said.returncode, said.stderr), (0, ""))
        self.assertRegex(said.stdout, "NARTHEXMACE_WITHOUT_LIBRARY is set.* pdt_version")

    def test_the_docstrings(self) -> None:
        modules = [module for name, module in sorted(sys.modules.items()) if name.startswith("narthexmace.")]
        examples = {it.name: it.docstring for module in modules for it in doctest.DocTestFinder().find(module) if it.examples}
        for name, docstring in examples.items():
            with self.subTest(name=name):
                self.assertGreater(self.run_examples(name, docstring), 1)
        self.assertGreater(len(examples), 4)

    def test_the_package(self) -> None:
        self.assertGreater(self.run_examples("narthexmace", narthexmace.__doc__ or ""), 3)


if __name__ == "__main__":
    unittest.main()
