"""What is written of the table in the Python package, its stub, and the client of the protocol."""
from facts.table import TABLE, TableError
from facts.words import WIDTH, by_name, constant, exhaustion_meaning, first_word, meaning, refusal_meaning, wrapped

PACKAGE, STUB, CLIENT = "bindings/python/tegvurn/__init__.py", "bindings/python/tegvurn/__init__.pyi", "bindings/python/client.py"
# The classes of numbers: the section, what the numbers are, and what documents one of them.
CLASSES = {
    "RefusalNumber": ("refusals", "Why a call was refused: the number of a `Refused`.", refusal_meaning),
    "TrapNumber": ("traps", "Why a function trapped: the number of a `Trap`.", meaning),
    "ExhaustionNumber": ("exhaustions", "What a function ran out of: the number of an `Exhausted`.", exhaustion_meaning),
}


def assigned(name, items, brackets):
    """Returns an assignment of a list or a dictionary, in one line if that holds it."""
    line = f"{name} = {brackets[0]}{', '.join(items)}{brackets[1]}"
    return [line] if len(line) <= WIDTH else [f"{name} = {brackets[0]}", *(f"    {item}," for item in items), brackets[1]]


def listed(name, texts, brackets="[]"):
    """Returns an assignment of a list of texts."""
    return assigned(name, [f'"{text}"' for text in texts], brackets)


def numbers(name, entries, key=lambda entry: entry.name):
    """Returns an assignment of a dictionary from names to numbers."""
    return assigned(name, [f'"{key(entry)}": {entry.number}' for entry in entries], "{}")


def counted(entries):
    """Returns the entries. Raises TableError if their numbers do not count up from 0."""
    found = [entry.number for entry in entries]
    if found != list(range(len(entries))):
        raise TableError(f"{TABLE}: expected numbers of {entries[0].name} and its like that count up from 0, found {found}")
    return entries


def ranged(entries):
    """Returns an assignment of the numbers of entries, which count up from 0, to constants."""
    return [f"{', '.join(f'_{constant(entry.name)}' for entry in counted(entries))} = range({len(entries)})"]


def plain_texts(table):
    """Returns the names and the texts of the statuses after which the library stores no end."""
    found = [by_name(table.statuses, name) for name in ("Busy", "BadPointer")]
    return assigned("_PLAIN_TEXTS", [f'_{constant(status.name)}: ("{status.name}", "{status.text}")' for status in found], "{}")


def package(table):
    """Returns the numbers and the names of the package."""
    types = numbers("_NUMBERS", table.types, lambda entry: entry.text)
    places = listed("PLACES", [place.name for place in counted(table.places)[1:]], "()")
    return [*places, *types, *ranged(table.statuses), *ranged(table.kinds), *plain_texts(table)]


def members(entries, words):
    """Returns the members of a class of numbers, each with its documentation."""
    found = []
    for entry in entries:
        found.append(f"    {constant(entry.name)} = {entry.number}")
        found += wrapped(f'{words(entry)}"""', '    """', "    ", WIDTH)
    return found


def classes(table):
    """Returns the classes of numbers."""
    found = []
    for name, (section, doc, words) in CLASSES.items():
        found += [f"class {name}(enum.IntEnum):", f'    """{doc}"""', "", *members(getattr(table, section), words), "", ""]
    return found[:-2]


def stubs(table):
    """Returns the classes of numbers for the stub."""
    found = []
    for name, (section, _, _) in CLASSES.items():
        members = [f"    {constant(entry.name)} = {entry.number}" for entry in getattr(table, section)]
        found += [f"class {name}(enum.IntEnum):", *members, ""]
    return found[:-1]


def order(entry):
    """Returns an order with the kinds of its fields and of the replies to it."""
    fields, replies = (" ".join(map(first_word, texts)) for texts in (entry.fields, entry.replies))
    return f'"{entry.name}": ("{fields}", "{replies}")'


def client(table):
    """Returns the numbers and the names of the client."""
    unknown = by_name(table.refusals, "UnknownExport")
    return [
        *numbers("TYPES", table.types, lambda entry: entry.text),
        "# The orders in the order of their numbers, each with its fields and the replies that it can get if it is not refused.",
        *assigned("ORDERS", [order(entry) for entry in counted(table.orders)], "{}"),
        "# The replies and the requests for host functions, in the order of their numbers, and the answers to these requests.",
        *listed("REPLIES", [entry.name for entry in counted(sorted(table.replies + table.requests, key=lambda entry: entry.number))]),
        *numbers("ANSWERS", table.answers),
        *numbers("REFUSALS", table.refusals),
        *numbers("PLACES", table.places),
        *numbers("TRAPS", table.traps),
        *numbers("EXHAUSTIONS", table.exhaustions),
        *numbers("KINDS", table.kinds),
        f'UNKNOWN_EXPORT = ("refused", {unknown.number}, 0, 0, "{unknown.text}")',
    ]


# For each file, the blocks with their names.
BLOCKS = {
    PACKAGE: {
        "numbers": package,
        "classes": classes,
        "defaults": lambda table: [f"{setup.name}={setup.default:_}," for setup in table.setup],
    },
    STUB: {
        "classes": stubs,
        "defaults": lambda table: [f"{setup.name}: int = {setup.default:_}," for setup in table.setup],
    },
    CLIENT: {"protocol": client},
}
