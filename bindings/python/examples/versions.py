"""A table over its versions, cell by cell as in a notebook: pandas reads it, sales change it, matplotlib shows it.

    python3 versions.py [PICTURE.svg]

Each day is one commit. A pin keeps the table of each evening, so that all of them are read at the end, side by side,
though the table has gone on. Without a picture's name it is shown on the screen.
"""
# %% a table from a CSV file
import sys
from pathlib import Path

import pandas
from matplotlib import pyplot

import narthexmace

stock = pandas.read_csv(Path(__file__).with_name("stock.csv"))
table = narthexmace.open(stock, key="item")
print(table)

# %% a week: what is sold, and on Wednesday a delivery of a new item
SOLD = {
    "Mon": {1: 4, 3: 2},
    "Tue": {1: 6, 2: 1, 5: 9},
    "Wed": {3: 5, 6: 4},
    "Thu": {1: 10, 4: 3},
    "Fri": {2: 5, 5: 7, 6: 6},
}
evenings = {"Sun": table.pin()}  # keeps the table as it is now
for day, sales in SOLD.items():
    with table.begin() as txn:  # commits at the end of the block
        for item, count in sales.items():
            txn.set(item, "qty", txn.get(item)[2] - count)
        if day == "Wed":
            txn.insert({"item": 7, "shelf": 2, "qty": 30})
    evenings[day] = table.pin()

# %% what one day changed, from the change feed
for number, entries in table.changes(after=evenings["Tue"].number):
    print(number, [(entry.kind, entry.values) for entry in entries])
    break

# %% the column of each evening, from its pin
columns = {}
for day, pin in evenings.items():
    with pin.read() as snapshot:
        columns[day] = snapshot.to_pandas(["item", "qty"]).set_index("item")["qty"]
quantities = pandas.DataFrame(columns)
print(quantities.sum().astype("int64").to_dict())

# %% the picture
figure, axes = pyplot.subplots(figsize=(7, 4))
for item, row in quantities.iterrows():
    axes.plot(list(evenings), row, marker="o", label=f"item {item}")
axes.set_ylabel("in stock")
axes.set_title("Each evening is a pin")
axes.legend(ncol=2, frameon=False)
if len(sys.argv) > 1:
    figure.savefig(sys.argv[1])
else:
    pyplot.show()

# %% the end
for pin in evenings.values():
    pin.close()
table.close()
