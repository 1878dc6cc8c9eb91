"""The refresh functions of TPC-H by streams, over small tables of its published schema that are drawn: after each of them queries
answer what they answer over SQLite's own tables, to which SQL did the same."""
import random
import sqlite3
import tempfile
import unittest
from typing import Any, Dict, List, Tuple

import narthexmace

from . import arrow

#: Each column: its name, how it comes in, and SQLite's type. The keys are orders' first and lineitem's first two.
ORDERS = [
    ("o_orderkey", "l"), ("o_custkey", "i"), ("o_orderstatus", "u"), ("o_totalprice", "d:15,2"), ("o_orderdate", "tdD"),
    ("o_orderpriority", "u"), ("o_clerk", "U"), ("o_shippriority", "c"), ("o_comment", "vu"),
]  # fmt: skip
LINEITEM = [
    ("l_orderkey", "l"), ("l_linenumber", "C"), ("l_partkey", "i"), ("l_suppkey", "I"), ("l_quantity", "d:15,2"),
    ("l_extendedprice", "d:15,2"), ("l_discount", "d:15,2"), ("l_tax", "d:15,2"), ("l_returnflag", "u"), ("l_linestatus", "u"),
    ("l_shipdate", "tdD"), ("l_commitdate", "tdD"), ("l_receiptdate", "tdD"), ("l_shipinstruct", "u"), ("l_shipmode", "u"),
    ("l_comment", "vu"),
]  # fmt: skip
PRIORITIES = ["1-URGENT", "2-HIGH", "3-MEDIUM", "4-NOT SPECIFIED", "5-LOW"]
MODES = ["REG AIR", "AIR", "RAIL", "SHIP", "TRUCK", "MAIL", "FOB"]
FIRST_DAY, DAYS = 8035, 2406  # 1992-01-01, and how many days orders have
QUERIES = [
    """SELECT l_returnflag, l_linestatus, sum(l_quantity), sum(l_extendedprice), sum(l_extendedprice * (100 - l_discount)),
       sum(l_extendedprice * (100 - l_discount) * (100 + l_tax)), count(*) FROM lineitem WHERE l_shipdate <= 10471
       GROUP BY l_returnflag, l_linestatus ORDER BY l_returnflag, l_linestatus""",
    """SELECT l_orderkey, sum(l_extendedprice * (100 - l_discount)) AS revenue, o_orderdate, o_shippriority FROM orders, lineitem
       WHERE l_orderkey = o_orderkey AND o_orderdate < 9204 AND l_shipdate > 9204 GROUP BY l_orderkey, o_orderdate, o_shippriority
       ORDER BY revenue DESC, o_orderdate, l_orderkey LIMIT 10""",
    """SELECT o_orderpriority, count(*) FROM orders WHERE o_orderdate >= 8582 AND o_orderdate < 9000 AND EXISTS (SELECT * FROM lineitem
       WHERE l_orderkey = o_orderkey AND l_commitdate < l_receiptdate) GROUP BY o_orderpriority ORDER BY o_orderpriority""",
    """SELECT sum(l_extendedprice * l_discount) FROM lineitem WHERE l_shipdate >= 8766 AND l_shipdate < 9131 AND l_discount BETWEEN 5
       AND 7 AND l_quantity < 2400""",
    """SELECT l_shipmode, sum(o_orderpriority IN ('1-URGENT', '2-HIGH')), count(*) FROM orders, lineitem WHERE o_orderkey = l_orderkey
       AND l_shipmode IN ('MAIL', 'SHIP') AND l_commitdate < l_receiptdate AND l_shipdate < l_commitdate GROUP BY l_shipmode
       ORDER BY l_shipmode""",
    "SELECT count(*), sum(o_totalprice), min(o_orderkey), max(o_comment) FROM orders",
]
Rows = List[Tuple[Any, ...]]


class Drawn:
    """Orders and their items, by the published rules as far as they matter here."""

    def __init__(self, draw: random.Random) -> None:
        self.draw = draw

    def words(self, most: int) -> str:
        words = ["ironic", "packages", "furiously", "späte", "deposits"]
        return " ".join(self.draw.choice(words) for _ in range(self.draw.randrange(most)))

    def order(self, key: int) -> Tuple[Tuple[Any, ...], Rows]:
        draw, date = self.draw, FIRST_DAY + self.draw.randrange(DAYS)
        items, total = [], 0
        for number in range(1, draw.randint(1, 7) + 1):
            ship = date + draw.randint(1, 121)
            quantity, discount, tax = draw.randint(1, 50), draw.randint(0, 10), draw.randint(0, 8)
            price = quantity * draw.randint(90_000, 200_000)
            total += price * (100 + tax) * (100 - discount) // 10_000
            receipt = ship + draw.randint(1, 30)
            items.append((
                key, number, draw.randint(1, 2000), draw.randint(1, 100), quantity * 100, price, discount, tax,
                draw.choice("RA") if receipt <= 9298 else "N", "F" if ship <= 9298 else "O", ship, date + draw.randint(30, 90), receipt,
                draw.choice(["NONE", "COLLECT COD"]), draw.choice(MODES), self.words(6),
            ))  # fmt: skip
        status = {("F",): "F", ("O",): "O"}.get(tuple(sorted({item[9] for item in items})), "P")
        order = (key, draw.randint(1, 150), status, total, date, draw.choice(PRIORITIES), f"Clerk#{draw.randrange(10):09}", 0,
                 self.words(12))  # fmt: skip
        return order, items

    def orders(self, keys: List[int]) -> Tuple[Rows, Rows]:
        drawn = [self.order(key) for key in keys]
        return [order for order, _ in drawn], [item for _, items in drawn for item in items]


def stream(columns: List[Tuple[str, str]], rows: Rows, batch: int) -> arrow.Producer:
    """Rows as a stream, in batches."""
    named = [arrow.Column(name, format_) for name, format_ in columns]
    return arrow.Producer(named, [rows[at : at + batch] for at in range(0, len(rows), batch)])


class SQL:
    """A database of SQLite's with both tables."""

    def __init__(self) -> None:
        self.db = sqlite3.connect(":memory:")
        for table, columns, key in (("orders", ORDERS, "o_orderkey"), ("lineitem", LINEITEM, "l_orderkey, l_linenumber")):
            self.db.execute(f"CREATE TABLE {table} ({', '.join(name for name, _ in columns)}, PRIMARY KEY ({key}))")

    def insert(self, table: str, rows: Rows) -> None:
        if rows:
            self.db.executemany(f"INSERT INTO {table} VALUES ({', '.join('?' * len(rows[0]))})", rows)

    def answers(self) -> List[List[Any]]:
        return [self.db.execute(query).fetchall() for query in QUERIES]


class Refreshes(unittest.TestCase):
    def compare(self, db: narthexmace.Database, own: SQL) -> None:
        ours = SQL()
        with db.read() as tables:
            for table in ("orders", "lineitem"):
                ours.insert(table, arrow.rows_of(tables[table]))
        self.assertEqual(ours.answers(), own.answers())
        ours.db.close()

    def test_refreshes_leave_what_sql_leaves(self) -> None:
        draw = random.Random(7)
        drawn, own = Drawn(draw), SQL()
        keys = [key for block in range(0, 2400, 32) for key in range(block + 1, block + 9)]  # eight of 32 keys are used
        orders, items = drawn.orders(keys)
        own.insert("orders", orders)
        own.insert("lineitem", items)
        live: Dict[int, int] = {order[0]: sum(item[0] == order[0] for item in items) for order in orders}
        draw.shuffle(items)
        with tempfile.TemporaryDirectory() as folder, narthexmace.connect(folder) as db:
            db.create("orders", stream(ORDERS, orders, 100), key="o_orderkey")
            db.create("lineitem", stream(LINEITEM, items, 1000), key=["l_orderkey", "l_linenumber"])
            self.compare(db, own)
            for pair in range(4):
                fresh = [key + 8 + 8 * (pair % 3) for key in draw.sample(keys, 30) if key + 8 + 8 * (pair % 3) not in live]
                orders, items = drawn.orders(fresh)
                with db.begin() as txn:  # the first function
                    self.assertEqual(txn["orders"].insert_many(stream(ORDERS, orders, 7)), len(orders))
                    self.assertEqual(txn["lineitem"].insert_many(stream(LINEITEM, items, 50)), len(items))
                own.insert("orders", orders)
                own.insert("lineitem", items)
                live.update({order[0]: sum(item[0] == order[0] for item in items) for order in orders})
                self.compare(db, own)
                gone = draw.sample(sorted(live), 25)
                pairs = [(key, number) for key in gone for number in range(1, live.pop(key) + 1)]
                with db.begin() as txn:  # the second one
                    txn["lineitem"].delete_many(stream(LINEITEM[:2], pairs, 13))
                    txn["orders"].delete_many({"o_orderkey": gone})
                for table, name in (("orders", "o_orderkey"), ("lineitem", "l_orderkey")):
                    own.db.executemany(f"DELETE FROM {table} WHERE {name} = ?", [(key,) for key in gone])
                self.compare(db, own)
        own.db.close()


if __name__ == "__main__":
    unittest.main()
