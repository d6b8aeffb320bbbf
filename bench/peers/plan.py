"""100,000 rows of stock, and 20,000 orders: each is taken where the stock covers it with what was taken before."""

stock, orders = {}, {}
for i in range(100000):
    stock.setdefault(i, set()).add(i * 7919 % 40)
print("commit 1")


def covered(item):
    return sum(orders.get(item, ())) <= sum(stock.get(item, ()))


taken = 0
for i in range(20000):
    item, q = i * 37 % 5000, i % 9 + 1
    there = orders.setdefault(item, set())
    new = q not in there
    there.add(q)
    if covered(item):
        taken += 1
    elif new:
        there.remove(q)
print("commit 2")
print(taken)
