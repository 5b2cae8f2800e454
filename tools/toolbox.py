"""What the tools share: reading arguments, the list of crates, and what was built from which files."""
import argparse
import hashlib
import os
import shutil
import subprocess

ROOT = os.path.abspath(os.path.join(os.path.dirname(__file__), ".."))
# The programs and the library, as they are built.
BUILT = [f"crates/{name}/out/{name}" for name in ("wasmrun", "wasminfo", "wasmserve")] + ["crates/tegvurn/out/libtegvurn.a"]


def parser_of(doc):
    """Returns an argument parser whose `--help` prints a tool's docstring."""
    return argparse.ArgumentParser(description=doc, formatter_class=argparse.RawDescriptionHelpFormatter)


def no_arguments(doc):
    """Reads the arguments of a tool that takes none except `--help`."""
    parser_of(doc).parse_args()


def uses_of():
    """Returns a dictionary from each crate of crates.txt to the names of the crates that it uses."""
    with open(os.path.join(ROOT, "crates.txt"), encoding="utf-8") as file:
        lines = [line.split("#")[0].split(":") for line in file if ":" in line]
    return {name.split()[0]: uses.split() for name, uses in lines}


def below(name, uses):
    """Returns the crates below a crate, each once, and after those that it uses."""
    found = []

    def visit(crate):
        for used in uses.get(crate, []):
            if used in uses and used not in found:
                visit(used)
                found.append(used)

    visit(name)
    return found


def version():
    """Returns the version of the repository."""
    with open(os.path.join(ROOT, "VERSION"), encoding="utf-8") as file:
        return file.read().strip()


def sources_of(crate):
    """Returns the paths of the files that a crate is made from, with those of the crates below it."""
    crates = [*below(crate, uses_of()), crate]
    folders = [os.path.join(ROOT, "crates", name, part) for name in crates for part in ("src", "specs", "proofs")]
    return sorted(os.path.join(at, name) for folder in folders for at, _, names in os.walk(folder) for name in names)


def kit():
    """Returns the folder of the Rattle toolchain to which the program `rt` belongs."""
    return os.path.dirname(os.path.dirname(os.path.realpath(shutil.which("rt"))))


def library_of(name):
    """Returns the folder in which the gate leaves what it proved of a crate."""
    return os.path.join(ROOT, "crates", name, "out", "rlib", f"{name}.rlib")


def digest_of(crate, built):
    """Returns a digest of the files that a crate is made from, of the toolchain, and of what was built."""
    digest = hashlib.sha256(os.path.realpath(shutil.which("rt") or "").encode())
    for path in [os.path.join(ROOT, "crates.txt"), *sources_of(crate), built]:
        with open(path, "rb") as file:
            digest.update(os.path.relpath(path, ROOT).encode() + b"\0" + hashlib.sha256(file.read()).digest())
    return digest.hexdigest()


def note_sources(crate, built):
    """Notes beside what was built of a crate which files it was built from."""
    with open(f"{built}.sources", "w", encoding="utf-8") as file:
        file.write(digest_of(crate, built))


def is_current(crate, built):
    """Returns whether something was built from the files of a crate as they are: by what was noted, or by file times without a note."""
    if not os.path.exists(built):
        return False
    note = f"{built}.sources"
    if os.path.exists(note):
        with open(note, encoding="utf-8") as file:
            if file.read() == digest_of(crate, built):
                return True
        if os.path.getmtime(note) >= os.path.getmtime(built):
            return False
    return max(map(os.path.getmtime, sources_of(crate))) < os.path.getmtime(built)


def clone_built(clone):
    """Clones the repository into a folder, with the programs and the library that were built here, if they were."""
    subprocess.run(["git", "clone", "--quiet", ROOT, clone], check=True)
    for built in BUILT:
        for path in (built, f"{built}.sources"):
            if os.path.exists(os.path.join(ROOT, path)):
                os.makedirs(os.path.dirname(os.path.join(clone, path)), exist_ok=True)
                shutil.copy(os.path.join(ROOT, path), os.path.join(clone, path))


def programs(doc, *names):
    """Returns the paths of the programs that a tool's arguments name. If one is not a file, the tool ends with an error."""
    parser = parser_of(doc)
    for name in names:
        parser.add_argument(name)
    paths = [os.path.abspath(path) for path in vars(parser.parse_args()).values()]
    for path in paths:
        if not os.path.isfile(path):
            parser.error(f"{path} is not a file")
    return paths


def program_or(doc, default):
    """Returns the path of the program that a tool's only argument names, or else the default.

    If it is not a file, the tool ends with an error.
    """
    parser = parser_of(doc)
    parser.add_argument("program", nargs="?", default=default)
    path = os.path.abspath(parser.parse_args().program)
    if not os.path.isfile(path):
        parser.error(f"{path} is not a file: build the program first, or name another")
    return path
