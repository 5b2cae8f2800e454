"""Fetches the sources of programs from Debian's source packages by apt-get, and unpacks them. What is there is not fetched again."""
import glob
import hashlib
import json
import os
import shlex
import shutil
import subprocess

RELEASE = "bookworm"
MIRROR = "http://deb.debian.org/debian"
KEYS = "/usr/share/keyrings/debian-archive-keyring.gpg"


class NoSources(Exception):
    """The sources of a program are missing. The text says why."""


def digest_of(path):
    """Returns the SHA-256 of a file in hexadecimal digits."""
    with open(path, "rb") as file:
        return hashlib.file_digest(file, "sha256").hexdigest()


def last_line(text):
    """Returns the last line of a text, or an empty one."""
    return (text.strip().splitlines() or [""])[-1]


class Sources:
    """A folder of archives and of what is in them. It is outside of the repository."""

    def __init__(self, folder, may_fetch):
        self.folder, self.may_fetch = os.path.abspath(folder), may_fetch
        self.fault = None  # why nothing can be fetched; empty if it can be, and None before the first try
        os.makedirs(self.folder, exist_ok=True)

    def apt_get(self, *words):
        """Runs apt-get with a list of sources and folders of its own. Returns the process."""
        state = os.path.join(self.folder, "apt")
        options = {
            "Dir::Etc::SourceList": os.path.join(state, "sources.list"),
            "Dir::Etc::SourceParts": "/dev/null",
            "Dir::State": os.path.join(state, "state"),
            "Dir::Cache": os.path.join(state, "cache"),
            "APT::Sandbox::User": "root" if os.getuid() == 0 else "",
        }
        words = ["apt-get", "--quiet", *(word for name, value in options.items() for word in ("-o", f"{name}={value}")), *words]
        return subprocess.run(words, cwd=self.folder, stdout=subprocess.PIPE, stderr=subprocess.STDOUT, text=True, check=False)

    def prepare_apt(self):
        """Reads the list of source packages of the release, once. Raises an error if that is not possible."""
        if not shutil.which("apt-get"):
            raise NoSources("apt-get is not installed")
        if not os.path.exists(KEYS):
            raise NoSources(f"{KEYS} does not exist (package debian-archive-keyring)")
        for part in ("state/lists/partial", "cache/archives/partial"):
            os.makedirs(os.path.join(self.folder, "apt", part), exist_ok=True)
        with open(os.path.join(self.folder, "apt/sources.list"), "w", encoding="utf-8") as file:
            file.write(f"deb-src [signed-by={KEYS}] {MIRROR} {RELEASE} main\n")
        ran = self.apt_get("update", "--error-on=any")
        self.fault = f"apt-get update failed: {last_line(ran.stdout)}" if ran.returncode else ""

    def fetch(self, program, path):
        """Fetches the archive of a program to a path."""
        if not self.may_fetch:
            raise NoSources(f"{path} does not exist")
        if self.fault is None:
            self.prepare_apt()
        if self.fault:
            raise NoSources(self.fault)
        ran = self.apt_get("source", "--download-only", "--tar-only", program.package)
        if ran.returncode or not os.path.exists(path):
            raise NoSources(f"apt-get source {program.package} did not fetch {program.archive}: {last_line(ran.stdout)}")

    def unpacked(self, program):
        """Returns the folder of a program's sources, which are fetched and unpacked if they are not there."""
        path = os.path.join(self.folder, program.archive)
        if not os.path.exists(path):
            self.fetch(program, path)
        if digest_of(path) != program.sha256:
            raise NoSources(f"{path} has another SHA-256 than the table states")
        target = os.path.join(self.folder, f"{program.package}-{mark_of(program)}")
        if not os.path.isdir(target):
            partial = f"{target}.partial"
            os.rename(prepare(program, unpack(path, partial)), target)
            shutil.rmtree(partial, ignore_errors=True)
        return target


def mark_of(program):
    """Returns a text that is another one if the sources are, or what is changed in them."""
    facts = [program.sha256, program.copies, program.prepare, program.changes]
    return hashlib.sha256(json.dumps(facts).encode()).hexdigest()[:16]


def unpack(path, folder):
    """Unpacks an archive into a folder. Returns the top folder of the archive."""
    shutil.rmtree(folder, ignore_errors=True)
    shutil.unpack_archive(path, folder)
    tops = os.listdir(folder)
    return os.path.join(folder, tops[0]) if len(tops) == 1 else folder


def prepare(program, folder):
    """Makes sources that the archive does not have, and changes some. Returns their folder."""
    for command in program.prepare:
        ran = subprocess.run(shlex.split(command), cwd=folder, stdout=subprocess.PIPE, stderr=subprocess.STDOUT, text=True, check=False)
        if ran.returncode:
            raise NoSources(f"`{command}` failed: {last_line(ran.stdout)}")
    for name, original in program.copies.items():
        shutil.copy(os.path.join(folder, original), os.path.join(folder, name))
    for name, part, other in program.changes:
        path = os.path.join(folder, name)
        with open(path, encoding="utf-8") as file:
            text = file.read()
        if part not in text:
            raise NoSources(f"{path} has no {part}")
        with open(path, "w", encoding="utf-8") as file:
            file.write(text.replace(part, other))
    return folder


def files_of(program, folder):
    """Returns the paths of the files of a program that are compiled."""
    found = []
    for pattern in program.sources:
        paths = sorted(glob.glob(os.path.join(folder, pattern)))
        if not paths:
            raise NoSources(f"{folder} has no {pattern}")
        found += [path for path in paths if path not in found]
    return found
