import narthexmace

shop = narthexmace.connect("shop")  # a folder, created if missing
if "items" not in shop:
    shop.create("items", {"id": [10, 20], "qty": [7, 2]}, key="id")
with shop["items"].begin() as txn:  # commits at the end of the block, aborts on an exception
    left = txn.get(10)[1] - 1
    txn.set(10, "qty", left)
print(left, "left")  # the commit is on disk: it survives kill -9 and a power failure
shop.close()
