"""Expressions and conditions in the words of the language, as a text would have them."""
import judging.programs as p


def expression(found):
    match found:
        case p.Sum(left, right):
            return f"{expression(left)} + {term(right)}"
        case p.Difference(left, right):
            return f"{expression(left)} - {term(right)}"
    return term(found)


def term(found):
    match found:
        case p.Product(left, right):
            return f"{term(left)} * {factor(right)}"
    return factor(found)


def factor(found):
    match found:
        case p.Number(number):
            return str(number)
        case p.Name(name):
            return name
        case p.Read(name):
            return f"read({name})"
        case p.Negation(part):
            return f"-{factor(part)}"
        case p.RowField(_, row, field):
            return f"{row}.{field}"
        case p.SlotField(relation, index, field):
            return f"{relation.name}[{expression(index)}].{field}"
        case p.Count(relation, row, tests):
            return f"count({row} of {relation.name} when {condition(tests)})"
        case p.Total(relation, row, field, tests):
            return f"sum({row}.{field} of {relation.name} when {condition(tests)})"
    return f"({expression(found)})"


def condition(found):
    match found:
        case p.Always():
            return "true"
        case p.Not(part):
            return f"not ({condition(part)})"
        case p.All(tests):
            return " and ".join(map(condition, tests))
    symbol = {p.Less: "<", p.AtMost: "<=", p.Equal: "="}[type(found)]
    return f"{expression(found.left)} {symbol} {expression(found.right)}"
