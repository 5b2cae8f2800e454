"""Reads examples/real/programs.toml."""
import os
import tomllib
from types import SimpleNamespace

from toolbox import ROOT

FOLDER = os.path.join(ROOT, "examples/real")
TABLE = os.path.join(FOLDER, "programs.toml")
# The facts that a program may lack, and what they are then.
LISTS = {"prepare": [], "changes": [], "sources": [], "folders": [], "flags": [], "bad": []}
DEFAULTS = {"archive": None, "sha256": None, "copies": {}, "spoilt": ["cut", "damaged"], **LISTS}
FACTS = ["package", "licence", "does", "input"]


class TableError(Exception):
    """The table cannot be read."""


def program_of(name, facts):
    """Returns a program with its facts as attributes."""
    missing = [fact for fact in FACTS if fact not in facts]
    unknown = [fact for fact in facts if fact not in FACTS and fact not in DEFAULTS]
    if missing or unknown:
        raise TableError(f"examples/real/programs.toml: {name}: missing: {missing}, unknown: {unknown}")
    return SimpleNamespace(name=name, **{**DEFAULTS, **facts})


def read_programs():
    """Returns the programs of the table in order."""
    with open(TABLE, "rb") as file:
        return [program_of(name, facts) for name, facts in tomllib.load(file).items()]
