"""What is written of the table in the pages."""
from facts.words import by_name, most_of, ranges

SPECIFICATION, PROTOCOL, WASMRUN = "docs/SPECIFICATION.md", "docs/PROTOCOL.md", "docs/WASMRUN.md"


def rows(head, lines):
    """Returns a table with this head."""
    return [row(head), "|" + "---|" * len(head), *map(row, lines)]


def row(cells):
    """Returns a row of a table. An empty cell is one blank."""
    return "|" + "".join(f" {cell} |" if cell else " |" for cell in map(str, cells))


def shown(number):
    """Returns a number in digits, in groups of three, or as a power of two less one if it is that of 64 bits."""
    return "2^64 - 1" if number == 2**64 - 1 else f"{number:,}"


def refusals(table):
    """Returns the table of refusals."""
    when = lambda refusal: refusal.meaning + (f" ({refusal.where})" if refusal.where else "")  # noqa: E731
    head = ("no", "name", "when (and which place the library tells)")
    return rows(head, [(refusal.number, refusal.title, when(refusal)) for refusal in table.refusals])


def setup(table):
    """Returns the table of the numbers of a setup."""
    lines = [(f"{it.name}: {it.meaning}", f"{shown(it.least)} to {shown(most_of(it))}", shown(it.default)) for it in table.setup]
    return rows(("number", "range", "default"), lines)


def replies(table):
    """Returns the table of replies, in which the numbers of exhaustions are listed."""
    exhaustions = ", ".join(f"{exhaustion.number} {exhaustion.text}" for exhaustion in table.exhaustions)
    return [line.replace("{exhaustions}", exhaustions) for line in messages("reply", table.replies)]


def messages(kind, entries):
    """Returns a table of messages, with their numbers, names and fields."""
    return rows(("kind", kind, "fields"), [(entry.number, entry.title, ", ".join(entry.fields)) for entry in entries])


def orders(table):
    """Returns the table of orders."""
    lines = [(order.number, order.title, ", ".join(order.fields), ", ".join(order.replies)) for order in table.orders]
    return rows(("kind", "order", "fields", "reply"), lines)


def options(table):
    """Returns the table of options."""
    lines = []
    for option in table.options:
        number = by_name(table.setup, option.name)
        meaning = option.meaning.format(f"{number.least} to {most_of(number)}")
        lines.append((f"`--{option.name} N`", meaning, number.default))
    return rows(("option", "meaning", "default"), lines)


def bounds(table):
    """Returns the bounds that no option sets, as a sentence."""
    pages, entries = (by_name(table.setup, name).default for name in ("pages", "entries"))
    return [f"A memory has at most {pages:,} pages, and a table at most {entries:,} entries."]


def exit_meaning(table, status):
    """Returns the meaning of an exit status, with the refusals that it stands for."""
    numbers = [by_name(table.refusals, name).number for name in status.refusals]
    return status.meaning + (f" (refusal{'s' if len(numbers) > 1 else ''} {ranges(numbers)})" if numbers else "")


def statuses(entries, meaning):
    """Returns a table of exit statuses."""
    return rows(("status", "when"), [(entry.number, meaning(entry)) for entry in entries])


# For each file, the blocks with their names.
BLOCKS = {
    SPECIFICATION: {
        "limits": lambda table: rows(("what", "limit"), [(limit.meaning, shown(limit.most)) for limit in table.limits]),
        "traps": lambda table: rows(("no", "name", "when"), [(trap.number, trap.title, trap.meaning) for trap in table.traps]),
        "exhaustions": lambda table: rows(("exhaustion of", "when"), [(it.text, it.meaning) for it in table.exhaustions]),
        "setup": setup,
        "refusals": refusals,
    },
    PROTOCOL: {
        "types": lambda table: rows(("number", "type"), [(type_.number, f"`{type_.text}`") for type_ in table.types]),
        "orders": orders,
        "replies": replies,
        "places": lambda table: rows(("kind", "place"), [(place.number, place.meaning) for place in table.places]),
        "kinds": lambda table: rows(("number", "export", "fields"), [(it.number, it.meaning, ", ".join(it.fields)) for it in table.kinds]),
        "requests": lambda table: messages("request", table.requests),
        "answers": lambda table: messages("answer", table.answers),
        "ends": lambda table: statuses(table.ends, lambda end: end.meaning),
    },
    WASMRUN: {
        "options": options,
        "bounds": bounds,
        "statuses": lambda table: statuses(table.exits, lambda status: exit_meaning(table, status)),
    },
}
