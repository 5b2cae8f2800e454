"""Compares the table with the definitions and the code in `crates`.

Where code is proved to be what a definition says, only the definition is read. Readers know how these files are written: if one finds
nothing, that is a difference, too.
"""
import os
import re

from facts.words import by_name, constant, first_word
from toolbox import ROOT

VALUE = r'(0x[0-9A-Fa-f_]+|[0-9][0-9_]*|"[^"]*")'  # a literal


def value_of(literal):
    """Returns the number or the text of a literal."""
    return literal.strip('"') if literal.startswith('"') else int(literal, 0)


# Readers: each returns a dictionary from names to values of the text of a file.


def names_in(pattern):
    """Returns the names of the cases of a pattern: the last word with a capital in each, or the empty name."""
    return [(re.findall(r"\b[A-Z]\w*", part) or [""])[-1] for part in pattern.split("|")]


def clauses(function):
    """Returns a reader of the values that a definition gives by cases."""

    def read(text):
        found = re.findall(rf"(?m)^(?:{function}) ([^=]+) =\s+(?:number_bytes |codes |at )?{VALUE}", text)
        return {name: value_of(value) for pattern, value in found for name in names_in(pattern)}

    return read


def arms(head):
    """Returns a reader of the values that the arms of a match have, in the item with this head."""

    def read(text):
        item = text.partition(head)[2].partition("\n}\n")[0].partition("pub fn")[0]
        return {name: value_of(value) for pattern, value in re.findall(rf"(?m)^ *(.+) => {VALUE},?$", item) for name in names_in(pattern)}

    return read


def patterns(**found_by):
    """Returns a reader of the values that these patterns find."""

    def read(text):
        found = {name: re.search(pattern, text) for name, pattern in found_by.items()}
        return {name: value_of(it[1]) for name, it in found.items() if it}

    return read


def constants(text):
    """Reads the constants of a file."""
    return {name: value_of(value) for name, value in re.findall(rf"const (\w+): \w+ = {VALUE};", text)}


def errors(text):
    """Reads the texts of errors."""
    return {name: words.replace("{0}", "{}") for words, name in re.findall(r'#\[error\("(.*)"\)\]\n *(\w+)', text)}


def printed(text):
    """Reads the numbers of refusals that are printed."""
    return {name: int(number) for number, name in re.findall(r"refused (\d+) (\w+)", text)}


def fields_of_orders(text):
    """Reads how the fields of each order are encoded."""
    found = re.findall(r"(?ms)^fields_of (\S.*?) =\s+(.*?)(?=^\S)", text)
    parts = {names_in(pattern)[0]: re.sub(r"[()\s]+", " ", value).split("++") for pattern, value in found}
    return {name: [encoding(part.strip()) for part in parts if part.strip() != "[]"] for name, parts in parts.items()}


def encoding(part):
    """Returns how a field is encoded, from the part of the definition that encodes it."""
    found = re.fullmatch(r"(\w+)_bytes .*", part)
    return found[1] if found else part if part == "name" else "bytes"


# What the table has, by the names in `crates`.


def names_of(entry):
    """Returns the names of an entry: those that the table has, or else its name as that of a variant, as GetGlobal for `get_global`."""
    return entry.rattle or [re.sub(r"(?:^|_)(\w)", lambda found: found[1].upper(), entry.name)]


def of(entries, value):
    """Returns a value of each entry by its names."""
    return {name: value(entry) for entry in entries for name in names_of(entry)}


def numbers(entries):
    """Returns the numbers of entries."""
    return of(entries, lambda entry: entry.number)


def texts(entries):
    """Returns the texts of entries."""
    return of(entries, lambda entry: entry.text)


def constant_numbers(entries):
    """Returns the numbers of entries by the names of constants."""
    return {constant(entry.name): entry.number for entry in entries}


def places_of_refusals(table):
    """Returns the number of the place of each refusal. If it has several places, they have their own names, and no place has none."""
    found = {"": 0}
    for refusal in table.refusals:
        places = [by_name(table.places, place) for place in refusal.places]
        found.update(numbers(places) if len(places) > 1 else {refusal.name: place.number for place in places})
    return found


def in_commands(refusals):
    """Returns the refusals of commands, which are before those of host functions."""
    return refusals[: [refusal.name for refusal in refusals].index("HostFuncRef")]


def by_the_program(refusals):
    """Returns the refusals that the program prints."""
    return [refusal for refusal in refusals if refusal.name != "BadSetup"]


# What is compared: its name, what the table has, and the files with the reader of each. Of two values of a name, the first counts. If the
# files have more than that, this is a difference except where PARTLY is.
WHOLLY, PARTLY = True, False
COMPARED = [
    (
        "numbers of refusals",
        lambda table: numbers(table.refusals),
        WHOLLY,
        {
            "meaning/specs/embedding/Refusals.antt": clauses("number_of|fault_number"),
            "scripts/specs/Faults.antt": clauses("fault_number"),
            "answers/specs/Causes.antt": clauses("cause_number"),
        },
    ),
    (
        "texts of refusals",
        lambda table: texts(table.refusals),
        PARTLY,
        {path: errors for path in ("embed/src/refusals.rt", "embed/src/new_fault.rt", "scripts/src/faults.rt", "answers/src/causes.rt")},
    ),
    (
        "names of refusals",
        lambda table: {refusal.name: refusal.name for refusal in in_commands(table.refusals)},
        WHOLLY,
        {"embed/src/refusals.rt": arms("pub fn name(")},
    ),
    ("printed refusals", lambda table: numbers(by_the_program(table.refusals)), WHOLLY, {"program/specs/Lines.antt": printed}),
    ("places", places_of_refusals, WHOLLY, {"answers/specs/Causes.antt": clauses("place_of_refusal|place_of_fault")}),
    ("numbers of traps", lambda table: numbers(table.traps), WHOLLY, {"answers/specs/Answers.antt": clauses("trap_number")}),
    ("texts of traps", lambda table: texts(table.traps), WHOLLY, {"core_types/specs/Outcome.antt": clauses("trap_text")}),
    ("exhaustions", lambda table: numbers(table.exhaustions), WHOLLY, {"answers/specs/Answers.antt": clauses("exhaustion_number")}),
    ("texts of exhaustions", lambda table: texts(table.exhaustions), WHOLLY, {"core_types/src/outcome.rt": arms("Display for Exhaustion")}),
    ("printed exhaustions", lambda table: texts(table.exhaustions), WHOLLY, {"program/specs/Lines.antt": clauses("exhaustion_text")}),
    ("types", lambda table: numbers(table.types), WHOLLY, {"messages/specs/Types.antt": clauses("number_of")}),
    ("kinds of exports", lambda table: numbers(table.kinds), WHOLLY, {"answers/specs/Exports.antt": clauses("extern_bytes")}),
    ("orders", lambda table: numbers(table.orders), WHOLLY, {"orders/specs/Orders.antt": clauses("kind_of")}),
    (
        "fields of orders",
        lambda table: of(table.orders, lambda order: [first_word(field) for field in order.fields]),
        WHOLLY,
        {"orders/specs/Orders.antt": fields_of_orders},
    ),
    ("replies", lambda table: numbers(table.replies), WHOLLY, {"answers/specs/Answers.antt": clauses("reply_kind|kind_of")}),
    (
        "requests",
        lambda table: constant_numbers(table.requests),
        WHOLLY,
        {"callback/specs/Requests.antt": patterns(CALL=rf"message_bytes {VALUE}"), "callback/src/asking.rt": constants},
    ),
    ("answers", lambda table: constant_numbers(table.answers), PARTLY, {"callback/src/callback.rt": constants}),
    (
        "the code without an answer",
        lambda table: {"NO_ANSWER": by_name(table.codes, "WrongResults").number},
        PARTLY,
        {"callback/src/callback.rt": constants},
    ),
    (
        "statuses of wasmserve",
        lambda table: {("BAD_ARGUMENTS" if end.name == "Usage" else end.name): end.number for end in table.ends},
        PARTLY,
        {"serve/src/ending.rt": arms("fn status("), "wasmserve/src/main.rt": constants},
    ),
    (
        "statuses of wasmrun",
        lambda table: {refusal: status.number for status in table.exits for refusal in status.refusals},
        PARTLY,
        {"program/specs/Statuses.antt": clauses("refusal_status|script_fault_status")},
    ),
    (
        "bounds of a setup",
        lambda table: {setup.name: setup.most for setup in table.setup if setup.most},
        WHOLLY,
        {
            "embed/specs/Setups.antt": patterns(depth=rf"setup\.depth ≤ {VALUE}", entries=rf"setup\.entries ≤ {VALUE}"),
            "meaning/specs/validation/Types.antt": patterns(pages=rf"most_pages = {VALUE}"),
        },
    ),
    (
        "the least depth",
        lambda table: {"depth": by_name(table.setup, "depth").least},
        WHOLLY,
        {"embed/specs/Setups.antt": patterns(depth=rf"{VALUE} ≤ setup\.depth")},
    ),
    (
        "defaults",
        lambda table: {setup.name: setup.default for setup in table.setup},
        WHOLLY,
        {
            "command_line/specs/Numbers.antt": patterns(fuel=rf"None fuel = fuel ≡ {VALUE}", depth=rf"None depth = depth ≡ {VALUE}"),
            "subcommands/specs/Embeddings.antt": patterns(pages=rf"pages = {VALUE}", entries=rf"entries = {VALUE}"),
        },
    ),
    (
        "limits",
        lambda table: {limit.name: limit.most for limit in table.limits},
        WHOLLY,
        {
            "meaning/specs/binary/Limits.antt": patterns(
                module_bytes=rf"length bytes ≤ {VALUE}", values=rf"length t\.params ≤ {VALUE}", locals=rf"length f\.locals ≤ {VALUE}"
            )
        },
    ),
    (
        "the most bytes that the server reads",
        lambda table: {"LOAD": by_name(table.orders, "load").number, "MAX_MODULE_SIZE": by_name(table.limits, "module_bytes").most},
        PARTLY,
        {"serve/src/client.rt": constants},
    ),
]


def found_in(files):
    """Returns what the readers find in their files."""
    found = {}
    for path, read in files.items():
        with open(os.path.join(ROOT, "crates", path), encoding="utf-8") as file:
            found = {**read(file.read()), **found}
    return found


def differences(table):
    """Returns a line for each difference between the table and the files. Where the files lack a name, their case without a name counts."""
    lines = []
    for what, wanted_of, is_whole, files in COMPARED:
        wanted, found = wanted_of(table), found_in(files)
        for name in [*wanted, *(name for name in found if is_whole and name not in wanted)]:
            there = found.get(name, found.get(""))
            if there != wanted.get(name):
                paths = ", ".join(f"crates/{path}" for path in files)
                lines.append(f"{paths}: {what}: expected {wanted.get(name)!r} for `{name}`, found {there!r}")
    return lines
