"""Forecasts that were made wrong, and what the judge has to say of each."""
from judging.wrong_reports import changed, small_changes

SALES = """workload 1
sites 2
object stock in 0..10 = 5
transaction buy(n in 1..3) { s := read(stock); if n <= s then { write(stock = s - n); print(1) } else print(0) }
client a at 0 { buy(1); buy(1); buy(1) }
client b at 1 { buy(1); buy(1) }
schedule a a b a b
end
"""

SALES_FORECAST = """kept 4 of 5
0 bounds 3 1
1 bounds 6 0
stop b 2 clause 0 peaks 3 2 slack 4
"""

SHOWN = """workload 1
sites 2
object x in 0..10 = 5
transaction show() { print(read(x)) }
transaction raise() { write(x = read(x) + 1) }
client a at 0 { show() }
client b at 1 { raise(); raise() }
schedule b a b
end
"""

SHOWN_FORECAST = """kept 0 of 3
0 bounds 6 0
1 bounds 4 0
stop b 1 freeze 2 x@1 value 1
"""

SALES_EDITS = [
    ("a forecast, nothing changed", [], "right: 4 of 5 calls are kept"),
    ("one call too few", [("kept 4", "kept 3")], "says 'kept 3 of 5', and 'kept 4 of 5' is right"),
    ("one call too many", [("kept 4", "kept 5")], "says 'kept 5 of 5', and 'kept 4 of 5' is right"),
    ("site 0 has its peak alone", [("1 bounds 6 0", "1 bounds 0 0")], "says '1 bounds 0 0', and '1 bounds 6 0' is right"),
    ("another split", [("0 bounds 3 1", "0 bounds 2 2")], "says '0 bounds 2 2', and '0 bounds 3 1' is right"),
    ("peaks without the call that is stopped", [("peaks 3 2", "peaks 3 1")], "'stop b 2 clause 0 peaks 3 2 slack 4' is right"),
    ("a clause that isn't the lowest", [("clause 0", "clause 1")], "'stop b 2 clause 0 peaks 3 2 slack 4' is right"),
    ("a bound below zero", [("1 bounds 6 0", "1 bounds 7 -1")], "no forecast has the line '1 bounds 7 -1' there"),
]
SHOWN_EDITS = [
    ("a freeze stops, nothing changed", [], "right: 0 of 3 calls are kept"),
    ("a freeze with another value", [("value 1", "value -1")], "'stop b 1 freeze 2 x@1 value 1' is right"),
    ("another call is stopped", [("stop b 1", "stop a 1")], "'stop b 1 freeze 2 x@1 value 1' is right"),
]


def cases():
    """Each with a name, the command, the text, the forecast and a part of what is to be said of it."""
    rights = [(SALES, SALES_FORECAST, SALES_EDITS), (SHOWN, SHOWN_FORECAST, SHOWN_EDITS)]
    return [(name, "forecast", text, changed(told, edits), reason) for text, told, of in rights for name, edits, reason in of]


def changed_forecasts():
    """Texts with changed forecasts, none of which is right, since a text has one."""
    rights = [(SALES, SALES_FORECAST), (SHOWN, SHOWN_FORECAST)]
    return [(text, "".join(lines)) for text, told in rights for lines in small_changes(told)]
