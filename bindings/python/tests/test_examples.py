"""The examples for notebooks run, and print and draw what they say."""
import os
import subprocess
import sys
import tempfile
import unittest
from importlib.util import find_spec
from pathlib import Path

from . import LIMIT
from .folders import HERE

EXAMPLES = HERE / "examples"


@unittest.skipUnless(find_spec("pandas") and find_spec("matplotlib"), "pandas or matplotlib isn't there")
class Examples(unittest.TestCase):
    def test_a_table_over_its_versions(self) -> None:
        with tempfile.TemporaryDirectory() as folder:
            picture = Path(folder, "stock.svg")
            environment = {**os.environ, "PYTHONPATH": str(HERE), "MPLBACKEND": "svg", "MPLCONFIGDIR": folder}
            told = subprocess.run(
                [sys.executable, EXAMPLES / "versions.py", picture],
                env=environment, stdout=subprocess.PIPE, text=True, timeout=2 * LIMIT, check=True,
            )  # fmt: skip
            drawn = picture.read_text()
        self.assertEqual(
            told.stdout.splitlines(),
            [
                "<Table of item, shelf, qty>",
                "3 [('modify', (18,)), ('modify', (15,)), ('insert', (7, 2, 30))]",
                "{'Sun': 135, 'Mon': 129, 'Tue': 113, 'Wed': 134, 'Thu': 121, 'Fri': 103}",
            ],
        )
        self.assertIn("<svg", drawn)


if __name__ == "__main__":
    unittest.main()
