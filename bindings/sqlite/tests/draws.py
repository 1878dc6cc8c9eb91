"""Draws statements of SQL over a table `t` or `u`, beside which there is a plain table `other`.
"""
from sql import Error

WORDS = ["", "Ann", "Ann, Jr", "Bob", "Zoë", "a", "A", "5", "05", "2.5", "7.50", "\U0001f600", "é" * 40]
CHECKS = {
    "int": "INTEGER NOT NULL CHECK (typeof({0}) = 'integer')",
    "text": "TEXT NOT NULL CHECK (typeof({0}) = 'text')",
    "bool": "BOOLEAN NOT NULL CHECK (typeof({0}) = 'integer' AND {0} IN (0, 1))",
    "int?": "INTEGER CHECK (typeof({0}) IN ('integer', 'null') AND {0} IS NOT -9223372036854775808)",
    "real?": "REAL CHECK (typeof({0}) IN ('real', 'null'))",
}
RULES = ["", " OR ABORT", " OR FAIL", " OR IGNORE", " OR REPLACE", " OR ROLLBACK"]
TABLES = [  # columns, and how many of them are the key
    ([("id", "int"), ("name", "text"), ("qty", "int"), ("sold", "bool")], 1),
    ([("name", "text"), ("qty", "int")], 1),
    ([("sold", "bool"), ("id", "int"), ("qty", "int")], 2),
    ([("id", "int"), ("name", "text"), ("sold", "bool"), ("qty", "int")], 3),
    ([("name", "text"), ("id", "int"), ("word", "text")], 2),
]
TYPED = [  # of a database, ? where NULL is taken
    ([("id", "int"), ("qty", "int?"), ("price", "real?"), ("name", "text")], 1),
    ([("name", "text"), ("qty", "real?"), ("sold", "bool")], 1),
    ([("name", "text"), ("id", "int"), ("qty", "int?")], 2),
]
OTHER = "other (k INTEGER, word TEXT, r REAL)"


class Drawn:
    """Draws statements over a table of some columns, and counts what it draws by kind."""

    def __init__(self, draw, columns, keys, kinds, most):
        self.draw, self.columns, self.keys = draw, columns, [name for name, _ in columns[:keys]]
        self.values = [column for column in columns[keys:]]
        self.kinds, self.most, self.table = kinds, most, "t"  # most: how many rows an INSERT has at most
        self.has_limit = False  # whether SQLite has DELETE and UPDATE with ORDER BY and LIMIT

    def rule(self, verb):
        """What is done where a row can't be written."""
        rule = self.draw.choice(["", "", *RULES[1:]])
        self.kinds[f"{verb}{rule}"] += 1
        return rule

    def cell(self, kind):
        """A literal that a column of the type takes."""
        if kind[-1] == "?" and self.draw.random() < 0.3:
            return "NULL"
        if kind == "int?":
            return str(self.draw.randrange(-9, 30))
        if kind == "real?":
            return self.draw.choice([str(self.draw.randrange(-20, 20) / 4), "1e300", "-0.001", "'2.5'", "7"])
        if kind == "int":
            return str(self.draw.choice([self.draw.randrange(-9, 30)] * 8 + [-(2**63), 2**63 - 1]))
        return self.draw.choice(["0", "1"]) if kind == "bool" else quoted(self.draw.choice(WORDS))

    def bad_cell(self):
        """A literal that some columns don't take."""
        return self.draw.choice(["NULL", "1.5", "x'61'", "'x'", "2", "5.0", "'7'", "-0.0", "-9223372036854775808.0"])

    def bound(self, kind):
        """What a column is compared with: mostly a literal of its type."""
        odd = ["NULL", "2.5", "-2.5", "4.0", "1e30", "-1e30", "'5'", "'x'", "x'61'", str(2**63 - 1), "'1e1'", "0", "''"]
        odd += ["CAST(x'ff' AS TEXT)", "CAST(x'41ed' AS TEXT)"]
        return self.draw.choice(odd) if self.draw.random() < 0.25 else self.cell(kind)

    def comparison(self, may_collate=True):
        """A condition over one column, or over the key as a row."""
        if len(self.keys) > 1 and self.draw.random() < 0.15:
            row = ", ".join(self.bound(kind) for _, kind in self.columns[: len(self.keys)])
            return f"({', '.join(self.keys)}) {self.draw.choice(['<', '<=', '>', '>=', '='])} ({row})"
        name, kind = self.draw.choice(self.columns[: len(self.keys)] * 3 + self.columns)
        op = self.draw.choice(["=", "=", "<", "<=", ">", ">=", "BETWEEN", "IN", "IS", "<>", "LIKE"])
        if op == "BETWEEN":
            return f"{name} BETWEEN {self.bound(kind)} AND {self.bound(kind)}"
        if op == "IN":
            self.kinds["IN over a text key"] += kind == "text" and name in self.keys
            bounds = ", ".join(self.bound(kind) for _ in range(3))
            reals = self.draw.choice(["SELECT r FROM other", "SELECT r FROM other WHERE r <> 5", "2.5, 7.5"])
            is_text_key = kind == "text" and name in self.keys
            found = self.draw.choice(["SELECT k FROM other", "SELECT word FROM other", bounds, reals] + [reals] * is_text_key)
            self.kinds["list of reals beside a text key"] += found == reals and is_text_key
            return f"{name} {self.draw.choice(['IN', 'IN', 'NOT IN'])} ({found})"
        if op == "LIKE":
            return f"{name} LIKE 'a%'"
        return f"{name} {op} {self.bound(kind)}" + (self.draw.choice([""] * 8 + [" COLLATE NOCASE"]) if may_collate else "")

    def where(self):
        """A condition. Of an OR SQLite may make an IN, in which it forgets the collation of a single value."""
        word = self.draw.choice([" AND ", " AND ", " OR "])
        parts = [self.comparison(word != " OR ") for _ in range(self.draw.choice([0, 1, 1, 2, 2, 3]))]
        return f" WHERE {word.join(parts)}" if parts else ""

    def span(self):
        """A condition that the keys between two meet, or none."""
        name, kind = self.columns[0]
        return self.draw.choice(["", f" WHERE {name} >= {self.cell(kind)}", f" WHERE {name} < {self.cell(kind)}"])

    def order(self):
        """An order in which no two rows are equal."""
        way = self.draw.choice(["", " DESC"])
        ordered = ", ".join(key + way for key in self.keys)
        return " ORDER BY " + self.draw.choice(["", "", "", self.columns[-1][0] + ", "]) + ordered

    def row(self, bad=False):
        """The values of a row."""
        cells = [self.cell(kind) for _, kind in self.columns]
        if bad:
            cells[self.draw.randrange(len(cells))] = self.bad_cell()
        return f"({', '.join(cells)})"

    def select(self):
        """A statement that reads, and whether its rows come in an order."""
        first, name, t = self.keys[0], self.draw.choice(self.columns)[0], self.table
        where = self.where()
        in_order = where if " OR " not in where else self.span()  # SQLite makes several searches of an OR, one after the other
        return self.draw.choice(
            [
                (f"SELECT * FROM {t}{where}{self.order()}", True),
                (f"SELECT * FROM {t}{where}", False),
                (f"SELECT {name}, count(*) FROM {t}{where} GROUP BY {name}", False),
                (f"SELECT count(*), min({name}), max({first}), sum(length({name})) FROM {t}{where}", True),
                (f"SELECT {name} FROM {t}{where}{self.order()} LIMIT 5 OFFSET {self.draw.randrange(4)}", True),
                (f"SELECT DISTINCT {name} FROM {t}{where}", False),
                (f"SELECT {t}.*, k FROM {t} JOIN other ON {t}.{first} = {self.draw.choice(['k', 'word'])}{where}", False),
                (f"SELECT k, (SELECT count(*) FROM {t} WHERE {first} {self.draw.choice('<>')} k) FROM other", False),
                (f"SELECT a.*, b.* FROM {t} a JOIN {t} b ON a.{self.keys[-1]} = b.{name} LIMIT 0", False),
                (f"SELECT count(*) FROM {t} a JOIN {t} b USING ({', '.join(self.keys)})", True),
                (f"SELECT * FROM other LEFT JOIN {t} ON word = {name}{' AND ' + where[7:] if where else ''}", False),
                (f"SELECT {first} FROM {t}{where} UNION SELECT k FROM other", False),
                (f"SELECT k FROM other LEFT JOIN {t} ON {first} {self.draw.choice(['=', 'IS'])} k WHERE {first} IS NULL", False),
                (f"SELECT {first} FROM {t}{in_order} UNION ALL SELECT k FROM other LIMIT 4 OFFSET {self.draw.randrange(4)}", True),
            ]
        )

    def sets(self):
        """What an UPDATE sets; no key column."""
        name, kind = self.draw.choice(self.values)
        if kind in ("int", "int?", "real?"):
            value = self.draw.choice([self.cell(kind), f"{name} / 2 + 1"])
        elif kind == "text":
            value = self.draw.choice([self.cell("text"), f"substr({name} || 'x', 1, 60)"])
        else:
            value = self.draw.choice([self.cell("bool"), f"1 - {name}"])
        return f"{name} = {self.bad_cell() if self.draw.random() < 0.05 else value}"

    def one(self):
        """A condition that one row at most meets."""
        return " WHERE " + " AND ".join(f"{name} = {self.cell(kind)}" for name, kind in self.columns[: len(self.keys)])

    def move(self):
        """An UPDATE of key columns, of one row at most."""
        clause = ", ".join(f"{name} = {self.cell(kind)}" for name, kind in self.columns[: len(self.keys)])
        return f"UPDATE{self.rule('move')} {self.table} SET {clause}{self.one()}"

    def shift(self):
        """An UPDATE that adds to the last int of the key: the rule, what is added, and the statement."""
        rule, added, where = self.rule("shift"), self.draw.choice([-1, 1, 1, 1000]), self.span()
        if self.draw.random() < 0.9:  # else some may pass the greatest
            where += f"{' AND' if where else ' WHERE'} abs(id / 2) < 10000"
        others = ", qty = qty / 2 + 1" if self.draw.random() < 0.5 else ""
        return rule, added, where, f"UPDATE{rule} {self.table} SET id = id + {added}{others}{where}"

    def insert(self):
        """An INSERT of some rows, of which one may have a value that isn't taken."""
        bad = self.draw.random() < 0.15
        rule = self.rule("bad value" if bad else "INSERT")
        rows = [self.row() for _ in range(min(self.most, self.draw.choice([1, 1, 1, 2, 4])))]
        if bad:
            rows[self.draw.randrange(len(rows))] = self.row(bad=True)
        return f"INSERT{rule} INTO {self.table} VALUES {', '.join(rows)}"

    def first(self):
        """A DELETE or an UPDATE of the first rows of an order."""
        verb = self.draw.choice(["DELETE", "UPDATE"])
        self.kinds[f"{verb} LIMIT"] += 1
        which = f"{self.where()}{self.order()} LIMIT {self.draw.randrange(4)} OFFSET {self.draw.randrange(3)}"
        return f"DELETE FROM {self.table}{which}" if verb == "DELETE" else f"UPDATE {self.table} SET {self.sets()}{which}"

    def write(self):
        """A statement that writes; no shift."""
        if self.has_limit and self.draw.random() < 0.1:
            return self.first()
        x = self.draw.random()
        if x < 0.4:
            return self.insert()
        if x < 0.55:
            self.kinds["UPDATE"] += 1
            return f"UPDATE {self.table} SET {self.sets()}{self.draw.choice([self.where(), self.one()])}"
        if x < 0.65:
            return f"UPDATE{self.rule('UPDATE')} {self.table} SET {self.sets()}{self.draw.choice([self.span(), self.one()])}"
        if x < 0.75:
            return self.move()
        if x < 0.8:
            self.kinds["INSERT SELECT"] += 1
            return f"INSERT OR IGNORE INTO {self.table} SELECT * FROM {self.table}{self.where()}"
        if x < 0.85:
            row = f"{self.draw.randrange(20)}, {quoted(self.draw.choice(WORDS))}, {self.draw.choice(['2.5', '5', '7.5', 'NULL'])}"
            return f"INSERT INTO other SELECT {row} WHERE (SELECT count(*) FROM other) < 9"
        self.kinds["DELETE"] += 1
        return f"DELETE FROM {self.table}{self.draw.choice([self.where() or self.one(), self.one()])}"


def has_wrong_value(own, sql):
    """Whether a statement with OR IGNORE comes to a value that a column of SQLite's own table doesn't take by its CHECK. It passes over
    that row, and a table of pdt refuses the statement. With OR REPLACE no key that is there is met before the value."""
    if " OR IGNORE" not in sql:
        return False
    own.run("SAVEPOINT wrong_value")
    try:
        own.run(sql.replace(" OR IGNORE", " OR REPLACE"))
        is_wrong = False
    except Error as error:
        is_wrong = error.text.startswith("CHECK constraint failed")
    own.run("ROLLBACK TO wrong_value")
    own.run("RELEASE wrong_value")
    return is_wrong


def quoted(word):
    return "'" + word.replace("'", "''") + "'"
