"""python3 examples/python/shop.py      a shop with two days of orders, in a session; to begin a program of your own with"""
import homeo
import session

TRANSACTIONS = """
transaction order(who in 1..999, n in 1..9) {
  left := read(stock); place := 0;
  if n <= left then insert orders (customer = who, amount = n) into place else skip;
  if 0 < place then write(stock = left - n) else skip;
  print(place)
}
transaction ship(who in 1..999) { print(sum(o.amount of orders when o.customer = who)); delete o of orders when o.customer = who }
"""
store = homeo.Store(
    sites=2,
    objects={"stock": (0, 100)},
    relations={"orders": (8, {"customer": (0, 999), "amount": (0, 9)})},
    clients={"shop": 0, "web": 1},
    transactions=TRANSACTIONS,
    values={"stock": 12},
    weights=(1, 1),
)
days = [[("shop", "order(7, 2)"), ("web", "order(8, 9)"), ("web", "order(9, 5)")], [("shop", "ship(8)"), ("web", "order(7, 1000)")], [("web", "order(7, 1)")]]
with session.Session(store, timeout=10) as opened:
    for calls in days:
        try:
            report = opened.run(calls)
            print(f"batch {report.batch}:", *(f"{it.client} {it.transaction} {it.arguments} prints {it.prints}" for it in report.calls), sep="\n  ")
        except homeo.Refused as refused:
            print(f"batch {opened.batch} is refused: {refused.code}, {refused.sentence}: {refused.shown}")
print(store.values, [slot["customer"] for slot in store.slots["orders"] if slot["used"]])
