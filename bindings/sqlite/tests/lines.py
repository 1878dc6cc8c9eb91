"""The lines of SQL at the head of docs/SQLITE.md, run from the top of the repository; what is after -- is what they show.

    lines.py
"""
import os
import re
import tempfile
from pathlib import Path

from sql import Connection

TOP = Path(__file__).resolve().parents[3]


def lines():
    """Each line of the page's block: its statement, and the rows that it shows if that is said."""
    block = re.search(r"^```sql\n(.*?)^```$", (TOP / "docs/SQLITE.md").read_text(), re.M | re.S)
    for line in block[1].splitlines():
        sql, _, shown = line.partition("--")
        yield sql.strip(), shown.strip().split(", ") if shown else None


def main():
    os.chdir(TOP)
    connection, compared = Connection(extension=None), 0
    with tempfile.TemporaryDirectory() as folder:
        for sql, shown in lines():
            if sql.startswith(".load "):
                connection.load(sql[6:])
                continue
            found = ["|".join(map(str, row)) for row in connection.run(sql.replace("DIR", folder))]
            assert shown is None or found == shown, f"{sql}: found {found}"
            compared += shown is not None
    connection.close()
    assert compared, "nothing is compared"
    print(f"{compared} lines of docs/SQLITE.md show what they say")


if __name__ == "__main__":
    main()
