"""Compiles the programs, as modules and as native programs, and the hosts that run them. What is up to date is not compiled again."""
import concurrent.futures
import hashlib
import os
import shutil
import subprocess

from real.programs import FOLDER
from real.sources import files_of
from suite.floats import has_floats
from toolbox import ROOT
from wasm.module import Module

LIBRARY, ENTRIES, COMMANDS = (os.path.join(FOLDER, name) for name in ("library", "entries", "wasi"))
# How modules are compiled and linked: docs/COMPILING.md has the reasons.
TARGET = ["--target=wasm32", "-mcpu=mvp", "-mmutable-globals", "-msign-ext", "-nostdlibinc", "-isystem", os.path.join(LIBRARY, "include")]
OPTIMIZED = ["-O2", "-ffunction-sections", "-fdata-sections"]
LINKED = ["--target=wasm32", "-nostdlib", "-Wl,--no-entry", "-Wl,--gc-sections", "-Wl,--strip-all", "-Wl,--stack-first"]
STACK = ["-Wl,-z,stack-size=65536"]
NO_WARNINGS = ["-w"]  # those of programs that others wrote are theirs
WARNINGS = ["-Wall", "-Wextra"]
HEADERS = ["-I", ENTRIES, "-I", LIBRARY]
RUST = ["--edition", "2021", "-O"]
RUST_MODULE = ["-C", "strip=symbols", "-C", "linker=wasm-ld"]
PLAIN, WASI = "wasm32-unknown-unknown", "wasm32-wasi"


class CannotBuild(Exception):
    """Something cannot be compiled. The text says what."""


class NotInstalled(Exception):
    """A compiler or a target is missing. The text says which."""


def run(words):
    """Runs a compiler. Raises an error with its first lines if it fails."""
    ran = subprocess.run(words, stdout=subprocess.PIPE, stderr=subprocess.STDOUT, text=True, errors="replace", check=False)
    if ran.returncode:
        raise CannotBuild("\n".join([f"{words[0]} cannot make {words[-1]}:", *ran.stdout.splitlines()[:10]]))
    return ran.stdout


def version_of(compiler):
    """Returns the first line that a compiler prints about its version, or an empty text if it is not installed."""
    return run([compiler, "--version"]).splitlines()[0] if shutil.which(compiler) else ""


def read_files(path):
    """Returns the files that a compiler read for an object, by the list that it wrote."""
    if not os.path.exists(path):
        return []
    with open(path, encoding="utf-8") as file:
        words = file.read().replace("\\\n", " ").replace("\\ ", "\0").split()
    return [word.replace("\0", " ") for word in words[1:]]


def is_current(path, note, words, files):
    """Returns whether a file was built by the same command, after the files that it is built from."""
    if not os.path.exists(path) or not os.path.exists(note):
        return False
    with open(note, encoding="utf-8") as file:
        if file.read() != " ".join(words):
            return False
    return bool(files) and all(os.path.exists(each) and os.path.getmtime(each) <= os.path.getmtime(path) for each in files)


def built(words, files):
    """Builds the file that a command names last, unless it is up to date. Returns its path."""
    path, note = words[-1], f"{words[-1]}.command"
    if not is_current(path, note, words, files()):
        run(words)
        with open(note, "w", encoding="utf-8") as file:
            file.write(" ".join(words))
    return path


class Builder:
    """Builds into a folder, with a compiler for C and one for Rust, and with a number of compilers at once."""

    def __init__(self, folder, clang, rustc, sysroot, jobs):
        self.folder, self.clang, self.rustc, self.sysroot = folder, clang, rustc, sysroot
        self.pool = concurrent.futures.ThreadPoolExecutor(jobs)
        os.makedirs(folder, exist_ok=True)

    def path(self, name):
        """Returns the path of what is built under a name."""
        return os.path.join(self.folder, name)

    # C

    def need_clang(self):
        """Raises an error if clang cannot make modules."""
        if not shutil.which(self.clang):
            raise NotInstalled(f"{self.clang} is not installed")
        if "wasm32" not in run([self.clang, "--print-targets"]):
            raise NotInstalled(f"{self.clang} has no target wasm32")
        if not shutil.which("wasm-ld"):
            raise NotInstalled("wasm-ld is not installed (package lld)")

    def compiled(self, source, flags):
        """Compiles a file. Returns the path of the object."""
        name = hashlib.sha256(" ".join([source, *flags]).encode()).hexdigest()[:16]
        path = self.path(f"{os.path.basename(source)}.{name}.o")
        return built([self.clang, *flags, "-MD", "-MF", f"{path}.d", "-c", source, "-o", path], lambda: read_files(f"{path}.d"))

    def all_compiled(self, sources, flags):
        """Compiles files. Returns the paths of the objects."""
        return list(self.pool.map(lambda source: self.compiled(source, flags), sources))

    def linked(self, name, flags, objects):
        """Links objects. Returns the path of what is linked."""
        return built([self.clang, *flags, *objects, "-o", self.path(name)], lambda: objects)

    def objects_of(self, program, folder, target):
        """Compiles the files of a program and its entry. Returns the paths of the objects."""
        headers = [word for each in [*program.folders, "."] for word in ("-I", os.path.join(folder, each))]
        own = [flag.replace("ENTRIES", ENTRIES) for flag in program.flags]
        flags = [*OPTIMIZED, *NO_WARNINGS, *target, f"-ffile-prefix-map={folder}=.", *own, *headers]
        entry = self.compiled(os.path.join(ENTRIES, f"{program.name}.c"), [*flags, *HEADERS])
        return [*self.all_compiled(files_of(program, folder), flags), entry]

    def library(self):
        """Compiles the C library for modules. Returns the paths of the objects."""
        paths = sorted(os.path.join(LIBRARY, name) for name in os.listdir(LIBRARY) if name.endswith(".c"))
        return self.all_compiled(paths, [*OPTIMIZED, *TARGET, *WARNINGS, "-I", LIBRARY])

    def c_program(self, program, folder):
        """Builds a program in C. Returns the paths of the module and of the native program, and the lines of its sources."""
        objects = self.objects_of(program, folder, TARGET)
        module = self.linked(f"{program.name}.wasm", [*LINKED, *STACK], [*objects, *self.library()])
        main = self.compiled(os.path.join(ENTRIES, "native.c"), [*OPTIMIZED, *WARNINGS, *HEADERS])
        native = self.linked(f"{program.name}-native", ["-Wl,--gc-sections"], [*self.objects_of(program, folder, []), main])
        return module, native, lines_below(folder, {path for each in objects for path in read_files(f"{each}.d")})

    def library_test(self):
        """Builds the native test of the C library. Returns its path."""
        files = [os.path.join(LIBRARY, name) for name in sorted(os.listdir(LIBRARY)) if name.endswith(".c")]
        files.append(os.path.join(LIBRARY, "test/test.c"))
        names = os.path.join(LIBRARY, "test/names.h")
        headers = ["-nostdlibinc", "-isystem", os.path.join(LIBRARY, "include"), "-I", LIBRARY, "-include", names]
        flags = ["-O1", "-g", "-fsanitize=address,undefined", "-fno-builtin", *WARNINGS, *headers]
        return built([self.clang, *flags, *files, "-o", self.path("library_test")], lambda: [*files, names])

    def host(self, name, archive):
        """Builds a host over the C library. Returns its path."""
        source, headers = os.path.join(FOLDER, f"{name}.c"), os.path.join(ROOT, "bindings/c")
        words = [self.clang, "-O2", *WARNINGS, "-I", headers, source, archive, "-o", self.path(name)]
        return built(words, lambda: [source, archive, os.path.join(headers, "tegvurn.h")])

    # Rust

    def need_rustc(self, target):
        """Raises an error if the compiler of Rust has no target."""
        if not shutil.which(self.rustc):
            raise NotInstalled(f"{self.rustc} is not installed")
        if not os.path.isdir(run([self.rustc, "--print", "target-libdir", "--target", target]).strip()):
            raise NotInstalled(f"{self.rustc} has no target {target} (package libstd-rust-dev-wasm32)")
        if not shutil.which("wasm-ld"):
            raise NotInstalled("wasm-ld is not installed (package lld)")

    def rust(self, source, name, flags):
        """Compiles a file of Rust. Returns the path of what is built."""
        return built([self.rustc, *RUST, *flags, source, "-o", self.path(name)], lambda: [source])

    def rust_program(self, program):
        """Builds a program in Rust. Returns the paths of the module and of the native program, and the lines of its source."""
        self.need_rustc(PLAIN)
        source = os.path.join(ENTRIES, f"{program.name}.rs")
        flags = [*RUST_MODULE, "-C", "panic=abort", "--crate-type", "cdylib", "--target", PLAIN]
        return self.rust(source, f"{program.name}.wasm", flags), self.rust(source, f"{program.name}-native", []), lines_in(source)

    def program(self, program, folder):
        """Builds a program. Returns the paths of the module and of the native program, and the lines of its sources."""
        return self.c_program(program, folder) if folder else self.rust_program(program)

    # Commands for WASI

    def c_command(self, name):
        """Builds a command in C. Returns the paths of the module and of the native program."""
        self.need_clang()
        if not os.path.isdir(os.path.join(self.sysroot, "include/wasm32-wasi")):
            raise NotInstalled(f"{self.sysroot} has no include/wasm32-wasi (packages wasi-libc and libclang-rt-dev-wasm32)")
        source = os.path.join(COMMANDS, f"{name}.c")
        flags = ["--target=wasm32-wasi", f"--sysroot={self.sysroot}", "-O2", source, "-lc-printscan-no-floating-point", "-Wl,--strip-all"]
        module = built([self.clang, *flags, "-o", self.path(f"{name}-c.wasm")], lambda: [source])
        return module, built([self.clang, "-O2", source, "-o", self.path(f"{name}-c")], lambda: [source])

    def rust_command(self, name):
        """Builds a command in Rust. Returns the paths of the module and of the native program."""
        self.need_rustc(WASI)
        source = os.path.join(COMMANDS, f"{name}.rs")
        return self.rust(source, f"{name}-rust.wasm", [*RUST_MODULE, "--target", WASI]), self.rust(source, f"{name}-rust", [])


def lines_in(path):
    """Returns the number of lines of a file."""
    with open(path, "rb") as file:
        return sum(1 for _ in file)


def lines_below(folder, paths):
    """Returns how many lines the files have that are below a folder."""
    below = os.path.realpath(folder) + os.sep
    return sum(lines_in(path) for path in set(map(os.path.realpath, paths)) if path.startswith(below))


def floats_in(path):
    """Returns whether a module has a type or an instruction of floats."""
    with open(path, "rb") as file:
        return has_floats(Module(file.read()))
