"""Reads bindings/table.toml, the facts that several languages share."""
import json
import os
import re
from types import SimpleNamespace

from toolbox import ROOT

TABLE = "bindings/table.toml"
# The facts that each entry of a section has, and those that it may have besides `title` and `rattle`.
FACTS = {
    "refusals": ("number text meaning", "places where"),
    "places": ("number meaning", ""),
    "traps": ("number text meaning", ""),
    "codes": ("number meaning", ""),
    "exhaustions": ("number text meaning", ""),
    "additions": ("text meaning", ""),
    "statuses": ("number text meaning", ""),
    "types": ("number text meaning", ""),
    "kinds": ("number meaning fields", ""),
    "orders": ("number fields replies", ""),
    "replies": ("number fields", ""),
    "requests": ("number fields", ""),
    "answers": ("number fields", ""),
    "ends": ("number meaning", ""),
    "exits": ("number meaning", "refusals"),
    "setup": ("bits least default meaning", "most"),
    "options": ("meaning", ""),
    "limits": ("most meaning", ""),
}
NUMBERS = ("number", "bits", "least", "most", "default")
LISTS = ("places", "rattle", "fields", "replies", "refusals")


class TableError(Exception):
    """The table cannot be read."""


def kind_of(fact):
    """Returns the type of a fact."""
    return int if fact in NUMBERS else list if fact in LISTS else str


def value_in(text):
    """Returns the number, the text or the list of texts that a line states. Raises ValueError if it states none of these."""
    return int(text) if re.fullmatch(r"[0-9][0-9_]*", text) else json.loads(text)


def rows_in(text):
    """Yields the section, the name and the facts of each entry. Raises TableError at the first line that cannot be read."""
    entry = None
    for number, line in enumerate(text.splitlines(), 1):
        head, fact = re.fullmatch(r"\[(\w+)\.(\w+)\]", line), re.fullmatch(r"(\w+) = (.+)", line)
        if head:
            if entry:
                yield entry
            entry = (*head.groups(), {})
        elif fact and entry and fact[1] not in entry[2]:
            try:
                entry[2][fact[1]] = value_in(fact[2])
            except ValueError:
                raise TableError(f"{TABLE}:{number}: expected a number, a text or a list of texts, found {fact[2]}") from None
        elif line.strip() and not line.startswith("#"):
            raise TableError(f"{TABLE}:{number}: expected an entry or a new fact of one, found {line}")
    if entry:
        yield entry


def facts_of(section):
    """Returns the facts that an entry has, and those that it may have. Raises TableError if there is no such section."""
    if section not in FACTS:
        raise TableError(f"{TABLE}: expected one of the sections {', '.join(FACTS)}, found {section}")
    needed, allowed = FACTS[section]
    return needed.split(), ["title", "rattle", *allowed.split()]


def entry_of(section, name, facts):
    """Returns an entry. A fact that it may have and has not is empty, but its title is its name.

    Raises TableError if a fact is missing, unknown or of another type.
    """
    needed, allowed = facts_of(section)
    for fact in needed:
        if fact not in facts:
            raise TableError(f"{TABLE}: {section}.{name}: expected the fact `{fact}`, found none")
    for fact, value in facts.items():
        if fact not in needed + allowed or not isinstance(value, kind_of(fact)):
            raise TableError(f"{TABLE}: {section}.{name}: expected one of the facts {needed + allowed}, found {fact} = {value!r}")
    empty = {fact: kind_of(fact)() for fact in allowed}
    return SimpleNamespace(**{**empty, "title": name.replace("_", " "), **facts}, name=name)


def check_distinct(section, entries):
    """Raises TableError if two entries of a section have one name or one number."""
    for fact in ("name", "number"):
        values = [getattr(entry, fact) for entry in entries if hasattr(entry, fact)]
        if len(set(values)) != len(values):
            raise TableError(f"{TABLE}: {section}: expected each {fact} once, found {values}")


def read_table():
    """Returns the table: a list of entries for each section, in its order."""
    sections = {section: [] for section in FACTS}
    with open(os.path.join(ROOT, TABLE), encoding="utf-8") as file:
        for section, name, facts in rows_in(file.read()):
            sections.setdefault(section, []).append(entry_of(section, name, facts))
    for section, entries in sections.items():
        check_distinct(section, entries)
    return SimpleNamespace(**sections)
