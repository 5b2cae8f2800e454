"""Finds the files of the test suite, and the part of the standard that each is about."""
import collections
import fnmatch
import functools
import glob
import json
import os
import shutil
import subprocess

PACKAGE = "golang-github-tetratelabs-wazero-dev"
INSTALLED = "/usr/share/gocode/src/github.com/tetratelabs/wazero/internal/integration_test/spectest"
PROPOSALS = TAIL_CALLS, EXTENDED_CONSTANTS = "tail calls", "extended constant expressions"
# Where a folder of the suite may have its files: as the package has them, or as the standard's repositories do.
FOLDERS = {
    "core": ["v2/testdata", "test/core", "core", "."],
    TAIL_CALLS: ["tail-call/testdata", "proposals/tail-call"],
    EXTENDED_CONSTANTS: ["extended-const/testdata", "proposals/extended-const"],
}
# The names of the files of the core suite, by the part of the standard that they test.
CORE_PARTS = {
    "numeric instructions": "i32 i64 int_exprs int_literals conversions f32* f64* float_exprs float_literals float_misc const endianness",
    "reference instructions": "ref_*",
    "vector instructions": "simd_*",
    "parametric and variable instructions": "select local_* global nop",
    "table instructions": "table* elem",
    "memory instructions": "memory* address align load store data bulk traps float_memory",
    "control instructions": "block br* call* fac forward func_ptrs if labels left-to-right loop return stack switch un* skip-stack-*",
    "modules and instances": "exports func imports linking start type",
    "binary format": "binary* custom utf8-*",
    "text format": "comments inline-module names obsolete-keywords token",
}
OTHER = "other files"
PARTS = [*CORE_PARTS, OTHER, *PROPOSALS]
# The options of wast2json for the proposals, in versions that need them.
OPTIONS = ["--enable-tail-call", "--enable-extended-const"]
# A command file: its name, its path without an extension, and the part of the standard.
CommandFile = collections.namedtuple("CommandFile", "name path part")


class SuiteError(Exception):
    """A file of the suite cannot be run to its end."""


class MissingError(Exception):
    """The suite, or a tool that it needs, is not installed."""


def part_of(name):
    """Returns the part of the standard that a file of the core suite is about."""
    found = [part for part, patterns in CORE_PARTS.items() if any(fnmatch.fnmatchcase(name, pattern) for pattern in patterns.split())]
    return found[0] if found else OTHER


def names_in(folder):
    """Returns the names of the command files in a folder, without their extensions."""
    paths = [path for pattern in ("*.wast", "*.json") for path in glob.glob(os.path.join(glob.escape(folder), pattern))]
    return sorted({os.path.splitext(os.path.basename(path))[0] for path in paths})


def find(folder):
    """Returns the command files of the suite in a folder."""
    found = []
    for suite, places in FOLDERS.items():
        place = next((path for path in (os.path.join(folder, place) for place in places) if os.path.isdir(path)), None)
        for name in names_in(place) if place else []:
            found.append(CommandFile(name, os.path.join(place, name), part_of(name) if suite == "core" else suite))
    if not found:
        raise MissingError(f"no file of the test suite in {folder}")
    return found


@functools.lru_cache(maxsize=None)
def known_options():
    """Returns the options that this version of wast2json has."""
    text = subprocess.run(["wast2json", "--help"], capture_output=True, text=True, check=False).stdout
    return [option for option in OPTIONS if option in text]


def convert(file, scratch):
    """Converts a `.wast` file by wast2json. Returns the path of the command file, which is in `scratch`."""
    path = os.path.join(scratch, f"{file.name}.json")
    if not shutil.which("wast2json"):
        raise MissingError(f"{file.path}.wast has no command file, and wast2json (package wabt) is not installed")
    command = ["wast2json", *known_options(), f"{file.path}.wast", "-o", path]
    done = subprocess.run(command, capture_output=True, text=True, check=False)
    if done.returncode:
        raise SuiteError(f"wast2json cannot convert {file.path}.wast: {done.stderr.strip()}")
    return path


def read(file, scratch):
    """Returns the commands of a command file, and the folder of its modules."""
    path = f"{file.path}.json"
    if not os.path.exists(path):
        path = convert(file, scratch)
    with open(path, encoding="utf-8") as text:
        return json.load(text)["commands"], os.path.dirname(path)
